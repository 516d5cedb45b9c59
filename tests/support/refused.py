"""Runs in which requests for memory are refused, with `refuse.c` preloaded."""
import functools
import os
import subprocess
import tempfile

from support.programs import TESTS, room


@functools.cache
def library():
    path, source = os.path.join(room(), "refuse.so"), os.path.join(TESTS, "support", "refuse.c")
    subprocess.run(["gcc", "-Wall", "-Wextra", "-Werror", "-O2", "-shared", "-fPIC", "-o", path, source], check=True)
    return path


def run(words, given, number=0, is_all=False, folder=None):
    """A run whose request of a number, counted from 1, is refused, and with `is_all` each later one. Returns it, and how many
    requests it made. Its input is a file: a read of a pipe may return less, and then the program makes other requests."""
    said = os.path.join(room(), "requests")
    environment = {"LD_PRELOAD": library(), "REFUSE": str(number), "REFUSE_SAYS": said, **({"REFUSE_ALL": "1"} if is_all else {})}
    with tempfile.TemporaryFile("w+", encoding="utf-8", dir=room()) as file:
        file.write(given)
        file.seek(0)
        ran = subprocess.run(words, stdin=file, capture_output=True, encoding="utf-8", env=environment, cwd=folder)
    if not os.path.exists(said):  # (it was killed, say)
        return ran, 0
    with open(said) as file:
        requests = int(file.read())
    os.remove(said)
    return ran, requests


def each(words, given, folder=None):
    """The run with memory, and then one for each request that is refused, alone and with all later ones: what was refused, and the run."""
    whole, requests = run(words, given, folder=folder)
    yield "no request", whole
    for is_all in (False, True):
        for number in range(1, requests + 1):
            yield f"request {number}{' and all later ones' * is_all}", run(words, given, number, is_all, folder)[0]
