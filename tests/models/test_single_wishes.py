"""A single wish beside `npm_pick::pick`: what npm_resolve selects of one document is the version that is picked of it, or there is no
selection where none is picked.

The document has versions that are deprecated, restricted, published too late, or do not fit the version of Node; the options are a default
tag, a time and a version of Node.
"""
import json
import random

import solving
from support import answers, made, programs

VERSIONS = ["0.9.0", "1.0.0", "1.1.0", "1.2.0-rc.1", "1.2.0", "2.0.0-beta.1", "2.0.0", "2.1.0"]
TIMES = [f"2024-0{month}-01T00:00:00.000Z" for month in range(1, 8)]
TEXTS = ["*", "", "^1", "~1.1", ">=1", "<2", "^1 || ^2", "^3", "1.1.0", "=1.2.0-rc.1", ">=1.2.0-rc.1", "^2.0.0-beta.1", "next", "none", "latest"]
POLICIES = ["policyRestrictions", "stagedVersions"]


def document(r):
    versions = {}
    for version in r.sample(VERSIONS, r.randint(1, 6)):
        manifest = versions[version] = {}
        if r.random() < .2:
            manifest["deprecated"] = "old"
        if r.random() < .3:
            manifest["engines"] = {"node": r.choice([">=20", "^18 || ^20", "<18", ""])}
    found = {"name": "a", "versions": versions}
    if r.random() < .8:
        found["dist-tags"] = {tag: r.choice(VERSIONS) for tag in ("latest", "next") if r.random() < .8}
    if r.random() < .6:
        found["time"] = {version: r.choice(TIMES) for version in versions if r.random() < .95}
    for policy in POLICIES:
        if r.random() < .1:
            kept = r.sample(sorted(versions), r.randint(0, len(versions) - 1))
            moved = {version: versions.pop(version) for version in kept}
            found[policy] = {"versions": moved}
    return found


def options(r):
    found = {"tag": r.choice(["latest", "next"])}
    if r.random() < .4:
        found["before"] = r.choice(TIMES)
    if r.random() < .5:
        found["node"] = r.choice(["16.0.0", "18.19.0", "20.11.1"])
    return found


def test_a_single_wish_gets_the_version_that_is_picked(record_property):
    program, r = programs.built("solver_answers"), random.Random(3 + made.SEED)
    cases = [(document(r), options(r), r.choice(TEXTS)) for _ in range(4000 * made.TIMES)]
    picked = answers.ask_all("npm_answers", [("npm_pick::pick", json.dumps(found), json.dumps(given), text) for found, given, text in cases])
    said = solving.said_of_all(program, [[{"dependencies": {"a": text}}, {"a": found}, [], given] for found, given, text in cases])
    for case, key, line in zip(cases, picked, said):
        wanted = f"none\ta:{case[2] or '*'}" if key == "nothing" else f"selected\ta@{key}"
        assert line == wanted, case
    assert len(cases) // 10 <= picked.count("nothing") <= len(cases) - len(cases) // 10
    record_property("made", len(cases))
