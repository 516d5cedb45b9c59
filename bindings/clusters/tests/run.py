#!/usr/bin/env python3
# SPDX-License-Identifier: Apache-2.0
"""Runs the recipes of ../README.md as they stand there, with the files that it names, on servers of their own on this machine, and
compares what they find with npm's `semver`: before a node is stopped, and after it. Stops all servers, and says what a version and a
range cost.

    tests/run.py [RECIPE..]    of `Redis`, `etcd` and `PostgreSQL`; the package `node_semver` must be importable

The last line is 'N passed, M failed'.
"""
import json
import os
import re
import shutil
import signal
import subprocess
import sys
import tempfile
import time
import urllib.request

HERE = os.path.dirname(os.path.abspath(__file__))
# Packages, versions of each, ranges, and the seed.
SIZE = ("500", "100", "2000", "1")
passed = failed = 0


def check(name, holds, said=""):
    global passed, failed
    passed, failed = passed + bool(holds), failed + (not holds)
    print(f"{'ok' if holds else 'WRONG'}: {name}{'' if holds else f': {said}'}", flush=True)


def text_of(name):
    with open(os.path.join(HERE, "..", name), encoding="utf-8") as file:
        return file.read()


class Recipe:
    """A section of the page, with the script and the file of Python that it names, in a folder of its own."""

    def __init__(self, title, room):
        self.title, self.room, self.began = title, room, []
        section = re.search(rf"^## {title}.*?(?=^## |\Z)", text_of("README.md"), re.M | re.S).group(0)
        self.starts = text_of(*re.findall(r"\]\((\w+\.sh)\)", section))
        self.stops, = re.findall(r"^```sh\n(.*?)^```$", section, re.M | re.S)
        self.python = text_of(*re.findall(r"\]\((\w+\.py)\)", section))
        self.names = {}

    def shell(self, text):
        """Runs a script, or a block as a person pastes it, as another user than root. What it leaves running is ended in `end`."""
        as_user = ["setpriv", "--reuid=nobody", "--regid=nogroup", "--clear-groups"] if os.getuid() == 0 else []
        with open(os.path.join(self.room, "said"), "ab") as said:
            ran = subprocess.Popen([*as_user, "bash", "-c", text], cwd=self.room, env={**os.environ, "HOME": self.room, "LC_ALL": "C"},
                                   stdin=subprocess.DEVNULL, stdout=said, stderr=said, start_new_session=True)
            self.began.append(ran.pid)
            return ran.wait(120)

    def said(self):
        with open(os.path.join(self.room, "said"), encoding="utf-8", errors="replace") as file:
            return file.read()[-2000:]

    def until(self, asked, seconds):
        """Waits until a call succeeds, and returns whether it did."""
        ends = time.monotonic() + seconds
        while True:
            try:
                asked()
                return True
            except Exception as error:
                self.failure = error
                if time.monotonic() > ends:
                    return False
                time.sleep(0.5)

    def end(self):
        for pid in self.began:
            try:
                os.killpg(pid, signal.SIGKILL)
            except ProcessLookupError:
                pass
        subprocess.run(["pkill", "-KILL", "-f", f"{self.room}/|redis-server 127.0.0.1:700[1-6]"], check=False)


def differing(find, asked):
    """The first range that finds other versions than npm's, or None."""
    for package, text, wanted in asked:
        found = find(package, text)
        if found != wanted:
            return f"{package} {text!r}: {found[:5]} and not {wanted[:5]}"
    return None


def check_adds(recipe):
    """Of two versions that differ in the build the last one stays, and an `add` may be repeated, also of many and of none."""
    add, find = recipe.names["add"], recipe.names["find"]
    many = [f"1.{minor}.0" for minor in range(300)]
    for texts in (["1.2.3+a", "1.2.3-rc.1", "1.2.3+b"], ["1.2.3+b", "1.2.3-rc.1+c"], ["1.2.3-rc.1"], []):
        add("builds", texts)
    for _ in range(2):
        add("many", [*many, "1.0.0+last"])
    found = [find("builds", ">=1.2.3-0"), find("many", "*")]
    check(f"{recipe.title}: the last of two builds stays, and an add is repeated",
          found == [["1.2.3-rc.1", "1.2.3+b"], ["1.0.0+last", *many[1:]]], found)


def replicated(recipe):
    """Waits until each replica has what its master wrote."""
    for node in recipe.names["cluster"].get_primaries():
        recipe.names["cluster"].wait(1, 5000, target_nodes=[node])


def written_in_part(recipe, package, texts, count):
    """Adds versions by a writer that dies once it has sent so many calls."""
    cluster, made = recipe.names["cluster"], recipe.names["cluster"].pipeline

    def dying():
        calls = made()
        execute = calls.execute

        def execute_some():
            del calls.command_stack[count:]
            execute()
            raise InterruptedError

        calls.execute = execute_some
        return calls

    cluster.pipeline = dying
    try:
        recipe.names["add"](package, texts)
    except InterruptedError:
        pass
    finally:
        del cluster.pipeline


def check_halves(recipe):
    """A writer that dies leaves each version whole or not found, and a key without a text is passed over."""
    from node_semver import Version

    add, find, texts, wrong = recipe.names["add"], recipe.names["find"], ["1.2.3", "1.2.4"], []
    for count, whole in ((1, []), (2, ["1.2.3"]), (3, ["1.2.3"]), (4, texts)):
        written_in_part(recipe, f"half-{count}", texts, count)
        before, left = find(f"half-{count}", "*"), recipe.names["cluster"].zcard(f"releases:{{half-{count}}}")
        add(f"half-{count}", texts)
        after = find(f"half-{count}", "*")
        if (before, left, after) != (whole, len(whole), texts):
            wrong.append((count, before, left, after))
    add("lost", ["1.0.0"])
    recipe.names["cluster"].zadd("releases:{lost}", {Version("1.1.0").key: 0})
    if find("lost", "*") != ["1.0.0"]:
        wrong.append(find("lost", "*"))
    check("Redis: a writer that dies leaves no half of a version", not wrong, wrong)


def settled(recipe):
    check_halves(recipe)
    replicated(recipe)


# ---- what all versions take, in bytes, without copies

def redis_bytes(recipe):
    cluster = recipe.names["cluster"]
    return sum(cluster.info("memory", target_nodes=[node])["used_memory_dataset"] for node in cluster.get_primaries())


def etcd_bytes(recipe):
    with urllib.request.urlopen("http://127.0.0.1:7011/v3/maintenance/status", b"{}", timeout=5) as reply:
        return int(json.load(reply)["dbSizeInUse"])


def postgresql_bytes(recipe):
    import psycopg2

    taken = 0
    for port in (7042, 7043):
        with psycopg2.connect(host="127.0.0.1", port=port, user="postgres").cursor() as cursor:
            cursor.execute("SELECT pg_total_relation_size('versions')")
            taken += cursor.fetchone()[0]
    return taken


def uses_its_index(recipe):
    """The shard is asked for an interval of a package alone, and finds it by its index."""
    import psycopg2
    from node_semver import Range

    where, keys = Range.parse_npm("^1.2.3").sql("key", "is_prerelease", placeholder="%s")
    with recipe.names["front"].cursor() as cursor:
        cursor.execute(f"EXPLAIN (VERBOSE, COSTS OFF) SELECT version FROM versions WHERE package = 'package-1' AND {where}", keys)
        plan = "\n".join(line for line, in cursor)
    server, asked = re.search(r"Foreign Scan on public\.versions_(\w+)", plan), re.findall(r"Remote SQL: (.*)", plan)
    if not server or len(asked) != 1:
        return False, plan
    shard = psycopg2.connect(host="127.0.0.1", port={"one": 7042, "two": 7043}[server.group(1)], user="postgres")
    with shard.cursor() as cursor:
        cursor.execute("SET enable_seqscan = off; EXPLAIN " + asked[0])
        plan = "\n".join(line for line, in cursor)
    return "versions_pkey" in plan and "Index Cond: ((package = 'package-1'::text)" in plan, plan


def run(title, data, before_stop, taken):
    with tempfile.TemporaryDirectory(prefix="clusters-") as room:
        if os.getuid() == 0:
            shutil.chown(room, "nobody", "nogroup")
        os.chmod(room, 0o755)
        recipe = Recipe(title, room)
        try:
            check(f"{title}: the servers start", recipe.shell(recipe.starts) == 0, recipe.said())
            connects = lambda names: exec(recipe.python, recipe.names) or [recipe.names["find"](name, "*") for name in names]
            is_up = recipe.until(lambda: connects(["none"]), 60)
            check(f"{title}: they answer", is_up, "" if is_up else f"{recipe.failure!r} {recipe.said()}")
            if not is_up:
                return
            began = time.monotonic()
            for package, texts in data["packages"].items():
                recipe.names["add"](package, texts)
            put = time.monotonic()
            wrong = differing(recipe.names["find"], data["asked"])
            asked = time.monotonic()
            check(f"{title}: each range finds what npm finds", wrong is None, wrong)
            count = sum(map(len, data["packages"].values()))
            before_stop(recipe)
            print(f"{title}: {count} versions put in {put - began:.1f} s, of {taken(recipe) / count:.0f} bytes each; "
                  f"{len(data['asked'])} ranges in {asked - put:.1f} s", flush=True)
            check_adds(recipe)
            check(f"{title}: a node is stopped", recipe.shell(recipe.stops) == 0, recipe.said())
            is_up = recipe.until(lambda: connects(list(data["packages"])[:50]), 60)
            check(f"{title}: the others answer", is_up, "" if is_up else f"{recipe.failure!r} {recipe.said()}")
            wrong = differing(recipe.names["find"], data["asked"]) if is_up else "not asked"
            check(f"{title}: no row is lost", wrong is None, wrong)
        finally:
            recipe.end()


def check_index(recipe):
    check("PostgreSQL: the shard uses its index", *uses_its_index(recipe))


def main():
    data = json.loads(subprocess.run(["node", os.path.join(HERE, "data.js"), *SIZE], capture_output=True, text=True, check=True).stdout)
    found = sum(1 for _, _, wanted in data["asked"] if wanted)
    check("the ranges find something", found > len(data["asked"]) // 2, found)
    recipes = {
        "Redis": ("Redis Cluster", settled, redis_bytes),
        "etcd": ("etcd", lambda recipe: None, etcd_bytes),
        "PostgreSQL": ("PostgreSQL with shards", check_index, postgresql_bytes),
    }
    for word in sys.argv[1:] or recipes:
        title, *others = recipes[word]
        run(title, data, *others)
    print(f"{passed} passed, {failed} failed")
    sys.exit(failed != 0)


main()
