# SPDX-License-Identifier: Apache-2.0
"""Versions of packages in Redis Cluster."""
from node_semver import Range, Version
from redis.cluster import RedisCluster
from redis.exceptions import RedisClusterException, RedisError

KINDS = {False: "releases", True: "prereleases"}


def connected():
    """A client, by the first node that answers."""
    for port in range(7001, 7007):
        try:
            return RedisCluster(host="127.0.0.1", port=port)
        except (RedisClusterException, RedisError) as error:
            failure = error
    raise failure


cluster = connected()


def add(package, texts):
    """Adds versions of a package. Of those that differ in the build alone the last one stays. A text is written before its key, so a
    version of which the rest was never written is not found, and the call may be repeated."""
    calls = cluster.pipeline()
    for text in texts:
        version = Version(text, strict=True)
        calls.hset(f"texts:{{{package}}}", version.key, text)
        calls.zadd(f"{KINDS[version.is_prerelease]}:{{{package}}}", {version.key: 0})
    calls.execute()


def find(package, text):
    """The versions of a package that satisfy a range, in ascending order. A key without a text is none."""
    keys = set()
    for lower, upper, prereleases in Range.parse_npm(text).intervals():
        keys.update(cluster.zrangebylex(f"{KINDS[prereleases]}:{{{package}}}", b"[" + lower, b"(" + upper))
    texts = cluster.hmget(f"texts:{{{package}}}", sorted(keys)) if keys else []
    return [text.decode() for text in texts if text is not None]
