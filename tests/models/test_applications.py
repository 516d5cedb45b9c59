"""npm_resolve on a large application: 500 packages with 100 versions each, of which one version each is selected."""
# Culprits are sought among the demands from which the search found that nothing fits, which are few: two culprits of 167 demands took 17
# seconds. It costs a second search of the root.
import json
import re
import resource
import subprocess

import applications
import families
import pytest
from support import programs, registry

PACKAGES, VERSIONS = 500, 100


def put(folder, manifest):
    """The folder with the documents and a manifest."""
    programs.built("npm_resolve")  # (where it is not, they need not be made)
    put_all(folder, applications.documents(PACKAGES, VERSIONS), manifest)


def put_all(folder, documents, manifest):
    (folder / "mirror").mkdir()
    for name, document in documents.items():
        registry.put(folder / "mirror" / f"{name}.json", document)
    registry.put(folder / "package.json", manifest)


def resolved(folder, *words):
    return subprocess.run([programs.built("npm_resolve"), "--flat", "--manifest", "package.json", "--packuments", "mirror", *words], cwd=folder,
                          capture_output=True, encoding="utf-8", timeout=120)


def test_a_large_application_gets_a_lock_file_without_problems(tmp_path):
    put(tmp_path, applications.manifest(PACKAGES, VERSIONS))
    lines = resolved(tmp_path)
    assert (lines.returncode, lines.stderr) == (0, "") and len(lines.stdout.splitlines()) > PACKAGES // 2
    lock = resolved(tmp_path, "--format", "lock")
    assert (lock.returncode, len(json.loads(lock.stdout)["packages"])) == (0, len(lines.stdout.splitlines()) + 1)
    checked = subprocess.run([programs.built("npm_lock_check")], input=lock.stdout, capture_output=True, encoding="utf-8")
    assert (checked.returncode, checked.stdout) == (0, "")


def seconds_of(folder, *words):
    """What a run takes of a processor, and what it writes."""
    before = resource.getrusage(resource.RUSAGE_CHILDREN).ru_utime
    ran = resolved(folder, *words)
    return resource.getrusage(resource.RUSAGE_CHILDREN).ru_utime - before, ran


# Sought among all wishes the culprits take a hundred times as long, since parts of the wishes are harder than the whole.
def test_the_culprits_of_a_large_application_are_found_about_as_soon_as_that_nothing_fits(tmp_path):
    manifest = applications.manifest(PACKAGES, VERSIONS)
    manifest["dependencies"][applications.name(285)] = "^3"
    put(tmp_path, manifest)
    unfit, nothing = seconds_of(tmp_path, "--steps", "1")
    whole, blamed = seconds_of(tmp_path, "--format", "json")
    assert (nothing.returncode, blamed.returncode) == (3, 1)
    culprits = [(one["name"], one["spec"]) for one in json.loads(blamed.stdout)["culprits"]]
    assert len(culprits) == 2 and (applications.name(285), "^3") in culprits
    assert whole <= 10 * unfit, f"{whole} and {unfit} seconds"


# ---- how many lines say why nothing fits

def lines_of(folder):
    """The lines that say why nothing fits: each but the last is one from which a later one follows."""
    ran = resolved(folder)
    assert (ran.returncode, ran.stderr) == (1, "npm_resolve: --flat selects one version of each package; npm may install several\n")
    lines = re.findall(r"^  [0-9]+\. .*$", ran.stdout, re.M)
    sources = list(map(sources_of, lines))
    assert all(source < number for number, found in enumerate(sources, 1) for source in found)
    assert {source for found in sources for source in found} == set(range(1, len(lines)))
    return lines


def sources_of(line):
    """The numbers of the lines from which a line follows."""
    return [int(number) for number in re.findall("[0-9]+", (re.search(r" \(by ([0-9, and]+)\)$", line) or [""])[0])]


# A line for each of the 25 versions of the newest major version that ask for a range of their own would be 53.
def test_versions_that_ask_for_ranges_of_their_own_are_said_in_one_line(tmp_path):
    manifest = applications.manifest(PACKAGES, VERSIONS)
    manifest["dependencies"][applications.name(285)] = "^3"
    put(tmp_path, manifest)
    assert len(lines_of(tmp_path)) <= 8


def documents_of(case):
    """The documents and the manifest of an instance whose candidates are major versions, the greatest first."""
    root, packages, rows = case

    def asked(demands):
        return {f"p{name}": " || ".join(f"^{len(packages[name]) - at}" for at, is_in in enumerate(rows[range_]) if is_in)
                for name, range_, _ in demands}

    listed = [{f"{len(candidates) - at}.0.0": {"dependencies": asked(demands)} for at, demands in enumerate(candidates)} for candidates in packages]
    return {f"p{name}": {"versions": versions} for name, versions in enumerate(listed)}, {"dependencies": asked(root)}


# The reasons, each about one wish, are 59, 123 and 19.
@pytest.mark.parametrize("names, seed, most", [(40, 1, 24), (40, 2, 35), (80, 1, 8)])
def test_few_lines_say_why_names_that_follow_one_another_do_not_fit(names, seed, most, tmp_path):
    put_all(tmp_path, *documents_of(families.neighbours(names, seed)))
    assert len(lines_of(tmp_path)) <= most
