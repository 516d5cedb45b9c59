"""The exports for C, called on rows that are written for the calls of node_semver which they make."""
import ctypes

OK, NONE, REFUSED, NO_IDENTIFIER = 0, 1, 2, 7
KINDS = {1: "MaxLengthError", 6: "NoValidRanges", 7: "Other"}
BUMPS = ["major", "premajor", "minor", "preminor", "patch", "prepatch", "prerelease", "pre"]
BASES = ["0", "1", "none"]
CUTS = ["start", "before", "after", "end"]
ROOM = 8000000  # More bytes than a print has.


def refused(kind, offset, text):
    """An error: its kind, its byte offset, and its line and column."""
    lines = text.encode()[:offset].split(b"\n")
    return f"{kind} at {offset} ({len(lines) - 1}, {len(lines[-1])})"


class Handle(ctypes.Structure):
    _fields_ = [("at", ctypes.c_void_p)]


class Fault(ctypes.Structure):
    _fields_ = [("kind", ctypes.c_uint32), ("offset", ctypes.c_size_t), ("number", ctypes.c_uint64)]


class Cut(ctypes.Structure):
    _fields_ = [("kind", ctypes.c_uint32), ("version", Handle)]


class Set(ctypes.Structure):
    _fields_ = [("lower", Cut), ("upper", Cut)]


class Failed(Exception):
    """A call returned a status that no row has."""


class Exports:
    """The functions of the library, and which of them were called."""

    def __init__(self, path):
        self.library, self.called = ctypes.CDLL(path), set()
        self.room, self.fault = ctypes.create_string_buffer(ROOM), Fault()

    def call(self, name, *words, returns=ctypes.c_uint32):
        """Calls an export: a text is passed as its bytes and their count, a handle by its place."""
        self.called.add(f"node_semver_c::node_semver_{name}")
        function = getattr(self.library, f"node_semver_{name}")
        function.restype, given = returns, []
        for word in words:
            if isinstance(word, str):
                text = word.encode()
                given += [text, ctypes.c_size_t(len(text))]
            elif isinstance(word, (Handle, Fault, Set)):
                given.append(ctypes.byref(word))
            else:
                given.append(word)
        return function(*given)

    def free(self, kind, handle):
        function = getattr(self.library, f"node_semver_{kind}_free")
        function.restype, function.argtypes = None, [Handle]
        function(handle)

    def print_of(self, name, handle, *words):
        """What a call that prints into an array writes."""
        length = self.call(name, handle, *words, self.room, ctypes.c_size_t(ROOM), returns=ctypes.c_size_t)
        if length > ROOM:
            raise Failed(name)
        return ctypes.string_at(self.room, length).decode()

    def made(self, kind, name, *words):
        """The handle that a call fills, or what the call says in its place."""
        handle = Handle()
        faults = [self.fault] if "parse" in name else []
        status = self.call(name, *words, handle, *faults)
        if status == OK:
            return handle
        if status == REFUSED and self.fault.kind in KINDS:
            return refused(KINDS[self.fault.kind], self.fault.offset, words[0])
        if status == NONE:
            return "nothing"
        if status == NO_IDENTIFIER:
            return "the prerelease has no identifier"
        raise Failed(f"{name}: status {status}")

    def printed(self, kind, name, *words):
        """The print of what a call makes."""
        handle = self.made(kind, name, *words)
        if isinstance(handle, str):
            return handle
        text = self.print_of(f"{kind}_print", handle)
        self.free(kind, handle)
        return text

    def on_ranges(self, kind, name, *texts):
        """The print of what a call makes of ranges."""
        ranges = [self.made("range", "range_parse", text) for text in texts]
        text = self.printed(kind, name, *ranges)
        for handle in ranges:
            self.free("range", handle)
        return text

    def cut(self, cut):
        text = self.print_of("version_print", cut.version) if cut.version.at else ""
        return f"{CUTS[cut.kind]} {text}".strip()

    def sets_of(self, handle):
        """The sets of a range, one after another."""
        count = self.call("range_set_count", handle, returns=ctypes.c_size_t)
        sets = (Set * count)()
        for place in range(count):
            if self.call("range_set", handle, ctypes.c_size_t(place), ctypes.byref(sets[place])) != OK:
                raise Failed(f"range_set {place}")
        return sets

    def free_sets(self, sets):
        for one in sets:
            self.free("version", one.lower.version)
            self.free("version", one.upper.version)

    def sets(self, text):
        handle = self.made("range", "range_parse", text)
        sets = self.sets_of(handle)
        said = "; ".join(f"{self.cut(one.lower)} to {self.cut(one.upper)}" for one in sets)
        self.free_sets(sets)
        self.free("range", handle)
        return said

    def set(self, text, place):
        handle, one = self.made("range", "range_parse", text), Set()
        status = self.call("range_set", handle, ctypes.c_size_t(int(place)), one)
        said = "nothing" if status == NONE else f"{self.cut(one.lower)} to {self.cut(one.upper)}"
        self.free_sets([one])
        self.free("range", handle)
        return said

    def from_sets(self, text):
        handle = self.made("range", "range_parse", text)
        sets = self.sets_of(handle)
        said = self.printed("range", "range_from_sets", sets, ctypes.c_size_t(len(sets)))
        self.free_sets(sets)
        self.free("range", handle)
        return said

    def bump(self, text, bump, identifier, base):
        version = self.made("version", "version_parse", text)
        said = self.printed(
            "version", "version_bump", version, ctypes.c_uint32(BUMPS.index(bump) + 1), identifier,
            ctypes.c_uint32(BASES.index(base)),
        )
        self.free("version", version)
        return said

    def identifiers(self, part, text):
        """The identifiers of the prerelease or of the build."""
        version = self.made("version", "version_parse", text)
        count = self.call(f"version_{part}_count", version, returns=ctypes.c_size_t)
        places = map(ctypes.c_size_t, range(count))
        said = " ".join(self.print_of(f"version_{part}_print", version, place) for place in places)
        self.free("version", version)
        return said or "nothing"

    def bytes_of(self, name, handle, *words):
        """What a call that writes bytes into an array writes, as hexadecimal text."""
        length = self.call(name, handle, *words, self.room, ctypes.c_size_t(ROOM), returns=ctypes.c_size_t)
        return ctypes.string_at(self.room, length).hex()

    def key(self, text):
        version = self.made("version", "version_parse", text)
        said = self.bytes_of("version_key", version)
        self.free("version", version)
        return said

    def version_of_key(self, numbers):
        """The print of the version that is read back from a key, whose bytes are given as numbers."""
        key = bytes(map(int, numbers.split()))
        return self.printed("version", "version_of_key", key, ctypes.c_size_t(len(key)))

    def intervals(self, text, call="range_intervals"):
        """The ends of the intervals of a range, and `p` for those of prereleases."""
        wanted = self.made("range", "range_parse", text)
        made = self.made("intervals", call, wanted)
        said = []
        for place in map(ctypes.c_size_t, range(self.call("intervals_count", made, returns=ctypes.c_size_t))):
            ends = [self.bytes_of(f"interval_{end}", made, place) for end in ("lower", "upper")]
            kind = self.call("interval_is_of_prereleases", made, place, returns=ctypes.c_bool)
            said.append("-".join(ends) + " p" * kind)
        self.free("intervals", made)
        self.free("range", wanted)
        return ", ".join(said)

    def included_intervals(self, text):
        return self.intervals(text, "range_intervals_with_prereleases")

    def satisfies(self, text, version):
        answer = ctypes.c_bool()
        if self.call("satisfies_text", text, version, ctypes.byref(answer), self.fault) != OK:
            raise Failed("satisfies_text")
        return "true" if answer.value else "false"

    def result(self, name, words):
        """The result of the export that makes a call of node_semver, or None where none does."""
        algebra = {f"Range::{it}": f"range_{it}" for it in ("intersect", "difference", "union")}
        least = {"min_version": "min_version", "least_beyond": "least_beyond", "least_common": "range_least_common"}
        type_name, _, call = name.partition("::")
        read = {"Version::parse": "version_parse", "npm_semver::parse_version": "version_parse_strict"}
        if name in read:
            return self.printed("version", read[name], *words)
        if name == "Range::parse":
            return self.printed("range", "range_parse", *words)
        if name == "npm_semver::parse_range":
            form = [ctypes.c_bool(it in words[1].split()) for it in ("loose", "prereleases")]
            return self.printed("range", "range_parse_npm", words[0], *form)
        if name in ("npm_semver::coerce", "npm_semver::coerce_with_prerelease"):
            return self.printed("version", f"version_{call}", words[0], ctypes.c_bool(words[1] == "rtl"))
        if name == "npm_semver::inc" and not words[0].startswith("="):
            return self.bump(*words)
        if name in algebra:
            return self.on_ranges("range", algebra[name], *words)
        if call in least:
            return self.on_ranges("version", least[call] + "_with_prereleases" * (type_name == "WithPrereleases"), *words)
        others = {"Range::sets": self.sets, "Range::set": self.set, "npm_semver::range_from_sets": self.from_sets,
                  "Identifiers::to_vec": lambda text: self.identifiers("pre_release", text),
                  "build_print": lambda text: self.identifiers("build", text),
                  "Range::satisfies, read anew": self.satisfies, "key": self.key, "intervals": self.intervals,
                  "semver_keys::version_of_key": self.version_of_key,
                  "intervals, with prereleases": self.included_intervals}
        return others[name](*words) if name in others else None
