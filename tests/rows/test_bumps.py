"""A release and its bumped version differ by the bump."""
import pytest

from support import answers

RELEASES = ["0.0.0", "0.0.1", "0.1.0", "1.0.0", "1.2.3"]
# A bump of a release, and npm's `diff` of both.
BUMPED_BY = {"major": "major", "premajor": "premajor", "minor": "minor", "preminor": "preminor", "patch": "patch", "prepatch": "prepatch",
             "prerelease": "prepatch"}
PLACES = {"major": 0, "minor": 1, "patch": 2, "release": 2}


def bumped(release, bump):
    """One more at the place of the bump, and 0 after it; and the prerelease 0 if the bump makes one."""
    numbers, place = release.split("."), PLACES[bump.removeprefix("pre")]
    return ".".join([*numbers[:place], str(int(numbers[place]) + 1), *["0"] * (2 - place)]) + "-0" * bump.startswith("pre")


@pytest.mark.parametrize("bump, wanted", BUMPED_BY.items())
@pytest.mark.parametrize("release", RELEASES)
def test_a_release_and_its_bumped_version_differ_by_the_bump(release, bump, wanted):
    version = bumped(release, bump)
    asked = [("npm_semver::inc", release, bump, "", "0"), ("npm_semver::diff", release, version)]
    assert [answers.ask("semver_answers", *words) for words in asked] == [version, wanted]
