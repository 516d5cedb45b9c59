# SPDX-License-Identifier: Apache-2.0
"""Versions of packages in etcd."""
import base64
import json
import urllib.request

from node_semver import Range, Version

MEMBERS = ["http://127.0.0.1:7011", "http://127.0.0.1:7021", "http://127.0.0.1:7031"]


def call(path, body):
    """Asks the members in turn, until one answers."""
    for member in MEMBERS:
        try:
            with urllib.request.urlopen(f"{member}/v3/kv/{path}", json.dumps(body).encode(), timeout=5) as reply:
                return json.load(reply)
        except OSError as error:
            failure = error
    raise failure


def coded(data):
    return base64.b64encode(data).decode()


def place(package, prereleases, key):
    return coded(package.encode() + (b"\0p" if prereleases else b"\0r") + key)


def add(package, texts):
    """Adds versions of a package, at most 128 at once, as etcd has it. Of those that differ in the build alone the last one stays. The
    call may be repeated."""
    puts = {}
    for text in texts:
        version = Version(text, strict=True)
        puts[place(package, version.is_prerelease, version.key)] = coded(text.encode())
    puts = list(puts.items())
    for first in range(0, len(puts), 128):
        call("txn", {"success": [{"requestPut": {"key": key, "value": value}} for key, value in puts[first:first + 128]]})


def find(package, text):
    """The versions of a package that satisfy a range, in ascending order."""
    found = {}
    for lower, upper, prereleases in Range.parse_npm(text).intervals():
        ends = {"key": place(package, prereleases, lower), "range_end": place(package, prereleases, upper)}
        for item in call("range", ends).get("kvs", []):
            text = base64.b64decode(item["value"]).decode()
            found[Version(text, strict=True).key] = text
    return [found[key] for key in sorted(found)]
