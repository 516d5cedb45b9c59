"""semver_pairs on a pipe that waits, and with little memory. SEMVER_PAIRS_MEGABYTES: how many megabytes of pairs go through a pipe, 64 if it
is not set."""
import hashlib
import os
import resource
import select
import subprocess

import pytest

from support import programs, refused

MEGABYTES = int(os.environ.get("SEMVER_PAIRS_MEGABYTES", "64"))
MORE = 8 << 20  # The memory that a run may have beside what it has at the start.


def started(**more):
    return subprocess.Popen([programs.built("semver_pairs")], stdin=subprocess.PIPE, stdout=subprocess.PIPE, stderr=subprocess.PIPE, **more)


def waits(process):
    """Whether it is in a read of standard input, the call 0 with the file 0."""
    with open(f"/proc/{process.pid}/syscall", encoding="utf-8") as file:
        return file.read().startswith("0 0x0 ")


@pytest.fixture
def waiting():
    process = started()
    while not waits(process):
        assert process.poll() is None
    yield process
    process.kill()
    process.communicate()


def test_answers_before_its_input_ends(waiting):
    waiting.stdin.write(b"1\n1.0.0\n")
    waiting.stdin.flush()
    assert select.select([waiting.stdout], [], [], 60)[0] and os.read(waiting.stdout.fileno(), 100) == b"yes\n"
    assert (*waiting.communicate(), waiting.returncode) == (b"", b"", 0)


@pytest.fixture
def limited(waiting):
    """The program with little more memory than it has once it waits for input."""
    with open(f"/proc/{waiting.pid}/status", encoding="utf-8") as file:
        (peak,) = [int(line.split()[1]) << 10 for line in file if line.startswith("VmPeak:")]
    return started(preexec_fn=lambda: resource.setrlimit(resource.RLIMIT_AS, (peak + MORE, peak + MORE)))


def test_a_line_of_64_megabytes_is_out_of_memory(limited):
    assert (*limited.communicate(b"1" * 64000000), limited.returncode) == (b"", b"semver_pairs: out of memory\n", 1)


def test_arguments_without_memory_are_a_failed_read():
    ran, _ = refused.run([programs.built("semver_pairs")], "1\n1.0.0\n", number=1)
    assert (ran.stdout, ran.stderr, ran.returncode) == ("", "semver_pairs: read failed\n", 1)


def test_many_pairs_take_no_more_memory(limited, tmp_path):
    pairs, answers = ((lambda file: file.read())(open(os.path.join(programs.ROOT, "examples", name), "rb")) * 1000 for name in ("pairs", "pairs.stdout"))
    times = MEGABYTES * 1000000 // len(pairs) + 1
    path = tmp_path / "pairs"
    with open(path, "wb") as file:
        file.writelines([pairs] * times)
    wanted, got = hashlib.sha256(), hashlib.sha256()
    writer = subprocess.Popen(["cat", path], stdout=limited.stdin)
    limited.stdin.close()
    limited.stdin = None
    while piece := limited.stdout.read(1 << 20):
        got.update(piece)
    for _ in range(times):
        wanted.update(answers)
    assert (writer.wait(), limited.wait(), limited.stderr.read()) == (0, 0, b"")
    assert got.digest() == wanted.digest()
