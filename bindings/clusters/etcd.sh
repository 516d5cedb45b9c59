# SPDX-License-Identifier: Apache-2.0
# Three members of etcd, in the current folder.
mkdir -p etcd
members=one=http://127.0.0.1:7012,two=http://127.0.0.1:7022,three=http://127.0.0.1:7032
for member in one:701 two:702 three:703; do
    port=${member#*:}
    etcd --name ${member%:*} --data-dir etcd/${member%:*} --initial-cluster "$members" --log-level error \
        --listen-client-urls http://127.0.0.1:${port}1 --advertise-client-urls http://127.0.0.1:${port}1 \
        --listen-peer-urls http://127.0.0.1:${port}2 --initial-advertise-peer-urls http://127.0.0.1:${port}2 > etcd/$port.log 2>&1 &
done
