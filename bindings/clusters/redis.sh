# SPDX-License-Identifier: Apache-2.0
# Three masters of Redis Cluster, each with a replica, in the current folder.
for port in 7001 7002 7003 7004 7005 7006; do
    mkdir -p redis/$port
    redis-server --port $port --bind 127.0.0.1 --dir "$PWD/redis/$port" --logfile log --daemonize yes \
        --cluster-enabled yes --cluster-node-timeout 2000 --appendonly yes
done
redis-cli --cluster create 127.0.0.1:700{1..6} --cluster-replicas 1 --cluster-yes
