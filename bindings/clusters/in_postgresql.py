# SPDX-License-Identifier: Apache-2.0
"""Versions of packages in PostgreSQL with shards."""
import psycopg2

from node_semver import Range, Version

front = psycopg2.connect(host="127.0.0.1", port=7041, user="postgres")
front.autocommit = True


def add(package, texts):
    """Adds versions of a package. Of those that differ in the build alone the last one stays. The call may be repeated."""
    versions = [Version(text, strict=True) for text in texts]
    with front.cursor() as cursor:
        cursor.execute("INSERT INTO put_versions SELECT %s, * FROM unnest(%s::boolean[], %s::bytea[], %s::text[])", [
            package, [version.is_prerelease for version in versions], [version.key for version in versions], texts])


def find(package, text):
    """The versions of a package that satisfy a range, in ascending order."""
    where, keys = Range.parse_npm(text).sql("key", "is_prerelease", placeholder="%s")
    with front.cursor() as cursor:
        cursor.execute(f"SELECT version FROM versions WHERE package = %s AND {where} ORDER BY key", [package, *keys])
        return [version for version, in cursor]
