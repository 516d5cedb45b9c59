# SPDX-License-Identifier: Apache-2.0
"""Code of a caller that runs during a call, or beside it, and changes what was given: no crash.

Each program would end Python by a signal if a call used what the program has given up.
"""

import sys
import unittest

from programs import Programs, run_program

# The dict of a call with keywords is held by the call alone. The code of an argument finds it through the garbage collector.
FINDS_DICT = """
import gc
from node_semver import Range, SemverError, Version, pick, satisfies

class Clears:
    def __init__(self, name):
        self.name = name
    def __bool__(self):
        for found in gc.get_referrers(self):
            if type(found) is dict and self.name in found and found is not self.__dict__:
                found.clear()
        return True
"""

SQL = FINDS_DICT + """
for _ in range(20):
    words = {"placeholder": "p" * 5_000_000, "include_prerelease": Clears("placeholder")}
    clause, keys = Range("^1").sql(*("a", "b"), **words)
    assert clause.count("p") == 20_000_000, clause[:100]
"""

# The same of each other call with a keyword, where the object that is cleared is the last that holds the argument.
OPTIONS = FINDS_DICT + """
versions, wanted = ["1.2.3-rc.4", "1.5.0"], Range("^1")
for name, call in [
    ("strict", lambda words: Version(*("1.2.3" + "-a" * 100,), **words)),
    ("strict", lambda words: Version.__new__(*(Version, "1.2.3" + "-a" * 100), **words)),
    ("rtl", lambda words: Version.coerce(*("1.2.3 " * 100,), **words)),
    ("loose", lambda words: Range.parse_npm(*("^1 || " * 100 + "2",), **words)),
    ("include_prerelease", lambda words: wanted.filter(*(iter(versions),), **words)),
    ("include_prerelease", lambda words: wanted.max_satisfying(*(iter(versions),), **words)),
    ("include_prerelease", lambda words: wanted.min_satisfying(*(iter(versions),), **words)),
    ("include_prerelease", lambda words: wanted.min_version(**words)),
    ("include_prerelease", lambda words: wanted.least_beyond(*(Range("1.0"),), **words)),
    ("include_prerelease", lambda words: wanted.least_common(*(Range("1.0"),), **words)),
    ("include_prerelease", lambda words: wanted.intervals(**words)),
    ("avoid_strict", lambda words: pick(*('{"versions": {"1.0.0": {}}}', "^1"), **words)),
]:
    for _ in range(100):
        assert call({name: Clears(name)}) is not None
"""

# Another thread finds the dict while a call has given up the lock of the interpreter.
BUMP = """
import gc, sys, threading, time
from node_semver import Version

sys.setswitchinterval(1e-5)
class Base(int): pass
bump, mark, hits, done = Version("1.2.3").bump, Base(0), [], []

def clear():
    while not done:
        for found in gc.get_referrers(mark):
            if type(found) is dict and "identifier" in found and "base" in found:
                found.clear()
                hits.append(True)

thread = threading.Thread(target=clear)
thread.start()
end = time.monotonic() + 60
while len(hits) < 3 and time.monotonic() < end:
    bumped = bump(*("prerelease",), **{"identifier": "a" * 30_000_000, "base": mark})
    # It has none if the dict was cleared before the call.
    assert bumped.prerelease in ((0,), ("a" * 30_000_000, 0))
done.append(True)
thread.join()
assert hits
"""

# A class below `bytes` that has another buffer each time, which nobody but the buffer holds.
BUFFERS = """
from node_semver import pick, resolve

class Buffer(bytes):
    def __buffer__(self, flags):
        return memoryview(bytearray(b" " * 5_000_000))
    def __bytes__(self):
        return b"[" * 5_000_000
    def __str__(self):
        return "[" * 5_000_000
    def __getitem__(self, place):
        return b"["

class Text(str):
    def __str__(self):
        return "[" * 5_000_000
    def __bool__(self):
        return False
    def encode(self, *words):
        return b"["

document = '{"dist-tags": {"latest": "1.2.0"}, "versions": {"1.2.0": {}, "1.3.0": {}}}'
manifest, documents = '{"dependencies": {"one": "^1"}}', '{"one": %s}' % document
for make in (lambda text: Buffer(text.encode()), Text, str, str.encode):
    for _ in range(20):
        assert pick(make(document), "^1").version == "1.2.0"
        assert resolve(make(manifest), make(documents))["packages"][0]["version"] == "1.2.0"
        assert resolve(make(manifest), make(documents), lock=make('{"lockfileVersion": 3, "packages": {}}'))
assert pick(document, Text("1.3.0")).version == "1.3.0"
assert pick(document, "*", avoid=Text("1.2.0"), default_tag=Text("none")).version == "1.3.0"
"""

# An array that says that it is a `bytes` or a `str`, and whose memory another thread moves.
ARRAYS = """
import ctypes, threading, time
from node_semver import pick, resolve

SIZE = 8_000_000
text = b"[" + b" " * (SIZE - 2) + b"]"

def refuses(call):
    try:
        call()
    except TypeError:
        return
    raise AssertionError("it was read")

for claimed in (bytes, str):
    class Claims(ctypes.c_char * SIZE):
        __class__ = property(lambda self: claimed)
    for call in (lambda it: pick(it, "^1"), lambda it: pick("{}", it), lambda it: pick("{}", "1", avoid=it),
                 lambda it: resolve(it, "{}"), lambda it: resolve("{}", it), lambda it: resolve("{}", "{}", lock=it)):
        for _ in range(5):
            array = Claims()
            ctypes.memmove(ctypes.addressof(array), text, SIZE)
            def move():
                time.sleep(0.003)
                ctypes.resize(array, SIZE + 4_000_000)
            thread = threading.Thread(target=move)
            thread.start()
            refuses(lambda: call(array))
            thread.join()
"""

# What a native function is given by code that calls it itself.
NATIVE_PARTS = """
from node_semver import _calls

class Bytes(bytes):
    def __buffer__(self, flags):
        return memoryview(bytearray(5_000_000))

class Text(str): pass

def raises(error, call, *words, **named):
    try:
        call(*words, **named)
    except error:
        return
    raise AssertionError((call, words))

texts = ["pick", "{}"]
assert _calls.call(*texts)[0] == 1
for place in range(2):
    for wrong in (Bytes(b"{}"), Text("{}"), bytearray(b"{}"), memoryview(b"{}"), None, 1):
        raises(TypeError, _calls.call, *texts[:place], wrong, *texts[place + 1:])
    raises(ValueError, _calls.call, *texts[:place], "\\ud800", *texts[place + 1:])
raises(TypeError, _calls.call, "pick")
raises(TypeError, _calls.call, *texts, None)
raises(TypeError, _calls.call, *texts, room=1)
"""

# Numbers and marks whose class says something else of them.
LIARS = """
from node_semver import resolve

class Steps(int):
    def __le__(self, other): return True
    def __ge__(self, other): return True
    def __lt__(self, other): return True
    def __index__(self): return 5

class Says:
    def __init__(self, claimed): self.claimed = claimed
    @property
    def __class__(self): return self.claimed
    def __le__(self, other): return True
    def __ge__(self, other): return True
    def __lt__(self, other): return True

for steps, error in [(Steps(-1), ValueError), (Steps(1 << 64), ValueError), (Says(int), TypeError)]:
    try:
        resolve({}, {}, steps=steps)
    except error:
        continue
    raise AssertionError(steps)
"""


# A callback of the garbage collector, which changes each list that it finds. Before Python 3.12 it runs at nearly each new object.
COLLECTIONS = """
import gc
from node_semver import Range, Version

CHANGES = [
    list.clear, lambda it: it.append(None), lambda it: it.insert(0, ()), lambda it: it.append((1,)),
    lambda it: it.__setitem__(slice(None), [("a", "b", True, 4)] * 3), lambda it: it.extend(range(1000)),
]
version, wanted, every = Version("1.2.3-rc.4.a.b+b.c"), Range("^1.2.3-rc.4 || >=3 || <1"), Range.parse_npm("*")
whole = [
    lambda: version.prerelease, lambda: version.build, lambda: wanted.sets, lambda: wanted.intervals(),
    lambda: wanted.sql("key", "kind"), lambda: hash(Range("^1 || ^2 || ^3")), lambda: Range.from_sets(wanted.sets),
    lambda: wanted.filter((version, "1.2.3")), lambda: version.__reduce__(), lambda: wanted.__reduce__(),
    lambda: every.__reduce__(),
]
given = [version, "1.2.3", "3.0.0"] * 20
changed = [
    lambda: wanted.filter(given), lambda: wanted.max_satisfying(given), lambda: wanted.min_satisfying(iter(given)),
    lambda: Range.from_sets([[["before", "1.2.3"], ["end", None]]]),
    lambda: Range.from_sets(iter([iter([iter(["before", "1.2.3"]), iter(["end", None])])])),
]
spared = set()

def look(phase, info):
    if phase == "start":
        for one in [*gc.get_objects(generation=0), given]:
            if type(one) is list and id(one) not in spared and len(one) < 2000:
                change(one)

def answers(work):
    # The results are held: else each tuple would be one that Python kept, and none would begin a collection.
    held = []
    spared.add(id(held))
    before = gc.get_threshold()
    gc.callbacks.append(look)
    gc.set_threshold(1)
    try:
        for _ in range(40):
            try:
                held.append(work())
            except (TypeError, ValueError):
                assert work not in whole
    finally:
        gc.set_threshold(*before)
        gc.callbacks.remove(look)
    return held

wants = [work() for work in whole]
kept = list(given)
spared.update(id(one) for one in gc.get_objects() if type(one) is list and one is not given)
for change in CHANGES:
    for work, want in zip(whole, wants):
        for answer in answers(work):
            if type(answer) is not list:
                assert answer == want, (answer, want)
    for work in changed:
        answers(work)
        given[:] = kept
"""


class Attacks(Programs):
    def test_a_placeholder_that_its_neighbour_frees(self) -> None:
        self.ends_well(SQL)

    def test_options_that_clear_the_dict_of_the_call(self) -> None:
        self.ends_well(OPTIONS)

    def test_an_identifier_that_another_thread_frees(self) -> None:
        self.ends_well(BUMP)

    def test_classes_with_other_buffers(self) -> None:
        self.ends_well(BUFFERS)

    def test_arrays_that_claim_to_be_bytes(self) -> None:
        self.ends_well(ARRAYS)

    def test_native_parts_that_are_called_themselves(self) -> None:
        self.ends_well(NATIVE_PARTS)

    def test_objects_that_claim_to_be_numbers(self) -> None:
        self.ends_well(LIARS)

    def test_lists_that_a_collection_changes(self) -> None:
        self.ends_well(COLLECTIONS)

    def test_a_crash_is_seen(self) -> None:
        self.assertNotEqual(run_program("import ctypes; ctypes.string_at(1)").returncode, 0)
        self.assertEqual(run_program("import sys; print(sys.argv[1])", "word").stdout, "word\n")
        self.assertNotEqual(sys.executable, "")


if __name__ == "__main__":
    unittest.main()
