"""Thousands of packages, advisories, versions and events. What is found of them follows from a rule."""
import json

import pytest

from support import answers

MANY = 2000


def listed(call, *arguments):
    """The items of the list that a call returns."""
    answer = answers.ask("npm_answers", call, *arguments)
    return [] if answer == "nothing" else answer.removesuffix("\t").split("\t")


def hit(advisories, installed):
    """The packages that are hit: the folder, the ids of the advisories, and the least version that is offered."""
    found = listed("npm_advisories::audit", json.dumps(advisories), json.dumps(installed), "info")
    for it in map(json.loads, found):
        yield it["folder"], [advisory["id"] for advisory in it["advisories"]], it.get("least")


def package(name, version, folder=""):
    return {"folder": folder, "name": name, "version": version}


def osv(number, name, **members):
    return {"id": number, "affected": [{"package": {"ecosystem": "npm", "name": name}, **members}]}


def semver(events):
    return {"ranges": [{"type": "SEMVER", "events": events}]}


def test_an_advisory_for_every_second_package():
    installed = [package(f"n{number}", "1.0.0", f"{number}") for number in range(2 * MANY)]
    advisories = {f"n{2 * number}": [{"id": number, "vulnerable_versions": "<=1.0.0"}] for number in range(MANY)}
    assert list(hit(advisories, installed)) == [(f"{2 * number}", [number], "1.0.1") for number in range(MANY)]
    between = semver([{"introduced": "1.0.0"}, {"fixed": "1.0.1"}])
    advisories = [osv(f"{number}", f"n{2 * number + 1}", **between) for number in range(MANY)]
    assert list(hit(advisories, installed)) == [(f"{2 * number + 1}", [f"{number}"], "1.0.1") for number in range(MANY)]


def test_the_one_copy_that_is_hit():
    """The advisory of a number is about patch 1 of that major version. Of the copies one has such a patch."""
    advisories = [{"id": number, "vulnerable_versions": f"{number}.0.1"} for number in range(MANY)]
    advisories.append({"id": "last", "vulnerable_versions": "1.0.1"})
    versions = [f"{number}.0.2" for number in range(MANY)] + ["7.0.1"]
    assert list(hit({"a": advisories}, [package("a", it, it) for it in versions])) == [("7.0.1", [7], "7.0.2")]


ADVISORIES = {"a": [{"id": number, "vulnerable_versions": "<=1.0.0"} for number in range(MANY)]}
VERSIONS = osv("O", "a", versions=[f"1.0.{number}" for number in range(MANY)])
EVENTS = osv("O", "a", **semver([it for number in range(MANY) for it in ({"fixed": f"{number}.1.0"}, {"introduced": f"{number}.0.0"})]))

# Advisories about one package, a version of it, the advisories that hit it, and the least version that is offered.
ONE = [
    ("advisories", ADVISORIES, "1.0.0", list(range(MANY)), "1.0.1"),
    ("versions, the last of them", VERSIONS, "1.0.1999", ["O"], "1.0.2000"),
    ("versions, the first of them", VERSIONS, "1.0.0", ["O"], "1.0.2000"),
    ("versions, and one above them", VERSIONS, "1.0.2000", None, None),
    ("events, after the last of them", EVENTS, "1999.0.9", ["O"], "1999.1.0"),
    ("events, after the first of them", EVENTS, "0.0.9", ["O"], "0.1.0"),
    ("events, where one is fixed", EVENTS, "1998.1.0", None, None),
]


@pytest.mark.parametrize("advisories, version, ids, least", [it[1:] for it in ONE], ids=[it[0] for it in ONE])
def test_many_of_one_package(advisories, version, ids, least):
    assert list(hit(advisories, [package("a", version)])) == ([("", ids, least)] if ids else [])


@pytest.mark.parametrize("options, wanted", [("{}", ["0.1.0", "1.0.3999"]), ('{"all": true}', ["0.1.0", *(f"1.0.{patch}" for patch in range(7, 4000))])],
                         ids=["what is picked", "all"])
def test_many_versions_that_are_kept(options, wanted):
    document = {"versions": {"0.1.0": {}, **{f"1.0.{patch}": {} for patch in range(4000)}}}
    assert listed("npm_pick::keep", json.dumps(document), options, "^1.0.7,<1") == wanted
