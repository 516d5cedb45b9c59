#!/usr/bin/env python3
# SPDX-License-Identifier: Apache-2.0
"""Retargets the LLVM module of a proved static library from x86-64 to wasm32.

    retarget.py MODULE.ll HEADER.h.. > OUT.ll

MODULE.ll is the text of the module that the toolchain's compiler hands to LLVM, before any pass: the toolchain of `IDENT`. The headers
declare the functions that the module is to export, for C.

Each object in memory keeps the size, the place of each part, and the bytes that it has on x86-64: a pointer takes 8 bytes, of which
the upper 4 are zero. So the code's own offsets stay right, and a number that is read where a pointer was written is the address.
Each function that the headers declare is exported as C declares it for wasm32, where a `size_t` has 32 bits.

Nothing else changes. The script stops at each line that is not one of those that it knows.
"""
import re
import sys

# The toolchain whose modules are known: the checksum of its program logic, as the module says it.
IDENT = '!{!"rattle logic=dac8208d650f15bf3e2dc313a14fa4c783a3acf887bdfab66e1714b038d9e11b"}'
LAYOUT = '"e-m:e-p270:32:32-p271:32:32-p272:64:64-i64:64-i128:128-f80:128-n8:16:32:64-S128"'
WASM_LAYOUT = '"e-m:e-p:32:32-p10:8:8-p20:8:8-i64:64-i128:128-n32:64-S128-ni:1:10:20"'

NAME = r'(?:[\w.$-]+|"[^"\\]*")'
INT = r"i(?:1|4|8|16|32|64|128)"
VECTOR = rf"<\d+ x {INT}>"
ONE = rf"(?:{INT}|{VECTOR}|double|ptr)"
PAIR = rf"\{{ {ONE}(?:, {ONE})* \}}"
ANY = rf"(?:{ONE}|{PAIR})"
LOCAL = rf"%{NAME}"
# No number, no pointer and no text but these: a local, a constant of the module, or a number.
VALUE = rf"(?:{LOCAL}|@static\.\d+|-?\d+|-?\d\.\d+e[+-]\d+|0x[0-9A-F]{{16}}|true|false|null|poison|undef|zeroinitializer|splat \({INT} -?\d+\)|<{INT} -?\d+(?:, {INT} -?\d+)*>)"
EXTENDED = r"(?: zeroext| signext)?"
NOTES = r"(?:, !(?:range|noundef) !\d+)*"
PARAMETER = rf"{ONE}(?: noundef)?{EXTENDED}"

# The functions that a module may call and does not define, as it declares them: the heap, which heap.c has, and LLVM's own.
DECLARED = {
    "{ i64, i64 } @rattle_alloc(i64 noundef, i64 noundef)",
    "{ i64, i64 } @rattle_realloc(ptr noundef, i64 noundef, i64 noundef, i64 noundef)",
    "void @rattle_dealloc(ptr noundef)",
    "void @llvm.memset.p0.i64(ptr writeonly captures(none), i8, i64, i1 immarg)",
    "void @llvm.memmove.p0.p0.i64(ptr writeonly captures(none), ptr readonly captures(none), i64, i1 immarg)",
    "void @llvm.trap()",
    "i64 @llvm.cttz.i64(i64, i1 immarg)",
    "i64 @llvm.ctlz.i64(i64, i1 immarg)",
    "i64 @llvm.ctpop.i64(i64)",
    "i1 @llvm.vector.reduce.or.v8i1(<8 x i1>)",
    "double @llvm.arithmetic.fence.f64(double)",
}
# An instruction of x86 that the proved code uses: each byte of the first vector at the place that a byte of the second says, in its lower
# four bits, or zero if its highest bit is set. It is written out, under a name of its own.
LOOKUP = "llvm.x86.ssse3.pshuf.b.128"
LANES = "<16 x i8>"


def lookup():
    """The lines of the function that does what that instruction does."""
    body = []
    for lane in range(16):
        body += [f"  %place{lane} = extractelement {LANES} %places, i32 {lane}", f"  %low{lane} = and i8 %place{lane}, 15", f"  %at{lane} = zext i8 %low{lane} to i32",
                 f"  %byte{lane} = extractelement {LANES} %bytes, i32 %at{lane}", f"  %zero{lane} = icmp slt i8 %place{lane}, 0",
                 f"  %put{lane} = select i1 %zero{lane}, i8 0, i8 %byte{lane}",
                 f"  %found{lane} = insertelement {LANES} {f'%found{lane - 1}' if lane else 'zeroinitializer'}, i8 %put{lane}, i32 {lane}"]
    return ["", f"define internal {LANES} @lookup_bytes({LANES} %bytes, {LANES} %places) {{", *body, f"  ret {LANES} %found15", "}"]


# What says nothing of the processor. The rest of an attribute group is left out.
PLAIN = {"nounwind", "cold", "noinline", "alwaysinline", "noreturn", "nobuiltin", "nocallback", "nofree", "nosync", "nocreateundeforpoison", "speculatable",
         "willreturn", "memory(none)", "memory(argmem: write)", "memory(argmem: readwrite)", "memory(inaccessiblemem: write)",
         "inlinehint", "minsize", "optsize"}
OF_X86 = re.compile(r'"(?:probe-stack|stack-probe-size|target-cpu|frame-pointer)"="[^"]*"')

# Instructions that keep their meaning as they stand: they compute with numbers, compare, choose, or go on elsewhere.
ARITHMETIC = r"(?:add|sub|mul|udiv|sdiv|urem|srem|shl|lshr|ashr|and|or|xor)(?: (?:nuw|nsw|exact|disjoint))*"
KEPT = re.compile("  (?:" + "|".join((
    rf"{LOCAL} = {ARITHMETIC} (?:{INT}|{VECTOR}) {VALUE}, {VALUE}",
    rf"{LOCAL} = (?:zext|sext|trunc)(?: (?:nneg|nuw|nsw))* (?:{INT}|{VECTOR}) {VALUE} to (?:{INT}|{VECTOR})",
    rf"{LOCAL} = bitcast (?:{INT}|{VECTOR}|double) {VALUE} to (?:{INT}|{VECTOR}|double)",
    rf"{LOCAL} = f(?:add|sub|mul|div) double {VALUE}, {VALUE}",
    rf"{LOCAL} = fneg double {VALUE}",
    rf"{LOCAL} = fcmp (?:[ou](?:eq|ne|[gl][te])|ord|uno) double {VALUE}, {VALUE}",
    rf"{LOCAL} = [us]itofp {INT} {VALUE} to double",
    rf"{LOCAL} = icmp (?:eq|ne|[us][gl][te]) {ONE} {VALUE}, {VALUE}",
    rf"{LOCAL} = select (?:i1|<\d+ x i1>) {VALUE}, {ONE} {VALUE}, {ONE} {VALUE}",
    rf"{LOCAL} = extractvalue {PAIR} {LOCAL}, \d+",
    rf"{LOCAL} = insertvalue {PAIR} {VALUE}, {ONE} {VALUE}, \d+",
    rf"{LOCAL} = extractelement {VECTOR} {VALUE}, i(?:32|64) {VALUE}",
    rf"{LOCAL} = insertelement {VECTOR} {VALUE}, {INT} {VALUE}, i(?:32|64) {VALUE}",
    rf"{LOCAL} = shufflevector {VECTOR} {VALUE}, {VECTOR} {VALUE}, <\d+ x i32> {VALUE}",
    rf"{LOCAL} = getelementptr(?: inbounds| nuw| nusw)* i8, ptr {VALUE}, i64 {VALUE}",
    rf"(?:{LOCAL} = )?(?:tail )?call (?:{ANY}|void) @{NAME}\((?:{ONE} {VALUE}(?:, {ONE} {VALUE})*)?\)(?: #\d+)?",
    rf"br label {LOCAL}",
    rf"br i1 {VALUE}, label {LOCAL}, label {LOCAL}",
    rf"switch {INT} {VALUE}, label {LOCAL} \[",
    rf"  {INT} -?\d+, label {LOCAL}",
    r"\]",
    rf"ret (?:void|{ANY} {VALUE})",
    r"unreachable",
)) + ")$")
ALLOCA = re.compile(rf"  ({LOCAL}) = alloca (ptr|{INT}|double|\[\d+ x i8\]|{VECTOR}), align (1|2|4|8|16|32)$")
LOAD = re.compile(rf"  ({LOCAL}) = load ({ONE}|{PAIR}), ptr ({VALUE}), align (\d+){NOTES}$")
STORE = re.compile(rf"  store ({ONE}|{PAIR}) ({VALUE}), ptr ({VALUE}), align (\d+)$")
ADDRESS = re.compile(rf"  ({LOCAL}) = ptrtoaddr ptr ({VALUE}) to i64$")

LABEL = re.compile(rf"{NAME}:(?: +; (?:preds = .*|No predecessors!))?$")
CONSTANT = re.compile(r'@static\.\d+ = private unnamed_addr constant \[\d+ x i8\] (?:c"[^"]*"|zeroinitializer), align \d+$')
DEFINE = re.compile(rf"define (internal )?((?:noundef )?(?:zeroext |signext )?(?:{ANY}|void)) @({NAME})\(((?:{PARAMETER} {LOCAL}(?:, )?)*)\) #\d+ \{{$")
DECLARE = re.compile(r"declare (.*) #\d+$")
ATTRIBUTES = re.compile(r"attributes (#\d+) = \{ (.*) \}$")
METADATA = re.compile(r"!\d+ = !\{(?:i8 0, i8 \d+)?\}$")


class Unknown(Exception):
    """What the script does not know."""


SIZES = {"i1": 1, "i8": 1, "i16": 2, "i32": 4, "i64": 8, "i128": 16, "double": 8, "ptr": 8}


def places(kinds):
    """Where x86-64 has each part of a struct, in bytes from its start."""
    at = 0
    for kind in kinds:
        size = SIZES.get(kind)
        if size is None:
            raise Unknown(f"a part of a struct in memory that is {kind}")
        at = -(-at // size) * size
        yield at
        at += size


class Module:
    """The lines of a module for wasm32, of those for x86-64."""

    def __init__(self):
        self.lines = []
        self.count = 0
        self.exported = {}
        self.idents = 0

    def fresh(self):
        self.count += 1
        return f"%wasm.{self.count}"

    def put(self, *lines):
        self.lines += lines

    # ---- memory

    def store_one(self, kind, value, at, align):
        """A pointer is stored as a number of 64 bits, so that all 8 bytes are what they are on x86-64."""
        if kind == "ptr":
            number = self.fresh()
            self.put(f"  {number} = ptrtoint ptr {value} to i64")
            kind, value = "i64", number
        self.put(f"  store {kind} {value}, ptr {at}, align {align}")

    def parts(self, pair, at, align):
        """The parts of a struct in memory: number, kind, place and alignment."""
        kinds = pair[2:-2].split(", ")
        for number, (kind, offset) in enumerate(zip(kinds, places(kinds))):
            place = self.fresh()
            self.put(f"  {place} = getelementptr i8, ptr {at}, i64 {offset}")
            yield number, kind, place, min(align, SIZES[kind]) if offset else align

    def store(self, kind, value, at, align):
        if not kind.startswith("{"):
            return self.store_one(kind, value, at, align)
        for number, part, place, aligned in self.parts(kind, at, align):
            one = self.fresh()
            self.put(f"  {one} = extractvalue {kind} {value}, {number}")
            self.store_one(part, one, place, aligned)

    def load(self, name, kind, at, align, line):
        """Of a pointer the lower 4 bytes are read."""
        if not kind.startswith("{"):
            return self.put(line)
        whole, last = "poison", kind.count(",")
        for number, part, place, aligned in self.parts(kind, at, align):
            one, more = self.fresh(), name if number == last else self.fresh()
            self.put(f"  {one} = load {part}, ptr {place}, align {aligned}")
            self.put(f"  {more} = insertvalue {kind} {whole}, {part} {one}, {number}")
            whole = more

    # ---- lines

    def instruction(self, line):
        if KEPT.match(line) or LABEL.match(line):
            return self.put(line)
        alloca, load, store, address = (it.match(line) for it in (ALLOCA, LOAD, STORE, ADDRESS))
        if alloca:
            self.put(f"  {alloca[1]} = alloca {'i64' if alloca[2] == 'ptr' else alloca[2]}, align {alloca[3]}")
        elif load:
            self.load(load[1], load[2], load[3], int(load[4]), line)
        elif store:
            self.store(store[1], store[2], store[3], int(store[4]))
        elif address:
            self.put(f"  {address[1]} = ptrtoint ptr {address[2]} to i64")
        else:
            raise Unknown("an instruction")

    def define(self, found, line):
        """Those without `internal` are what the module exports."""
        internal, result, name, parameters = found.groups()
        if not internal:
            self.exported[name] = (result.split()[-1], [it.split()[0] for it in parameters.split(", ") if it])
            line = line.replace("define ", "define internal ", 1)
        self.put(line)

    def attributes(self, found):
        words = OF_X86.sub("", found[2]).replace(": ", ":\0").split()
        words = [it.replace("\0", " ") for it in words]
        unknown = [it for it in words if it not in PLAIN]
        if unknown:
            raise Unknown(f"the attributes {unknown}")
        self.put(f"attributes {found[1]} = {{ {' '.join(words)} }}")

    def outside(self, line):
        """A line that is in no function."""
        define, declare, attributes = DEFINE.match(line), DECLARE.match(line), ATTRIBUTES.match(line)
        if line.startswith("target datalayout"):
            self.replaced(line, f"target datalayout = {LAYOUT}", f"target datalayout = {WASM_LAYOUT}")
        elif line.startswith("target triple"):
            self.replaced(line, 'target triple = "x86_64-unknown-linux-gnu"', 'target triple = "wasm32-unknown-unknown"')
        elif define:
            self.define(define, line)
        elif declare and declare[1] in DECLARED:
            self.put(line)
        elif declare and declare[1] == f"{LANES} @{LOOKUP}({LANES}, {LANES})":
            self.put(*lookup())
        elif attributes:
            self.attributes(attributes)
        elif line.startswith("!llvm.ident") or line.startswith("!0"):
            self.ident(line)
        elif CONSTANT.match(line) or METADATA.match(line) or line == 'source_filename = "rattle"':
            self.put(line)
        else:
            raise Unknown("a line")

    def replaced(self, line, known, new):
        if line != known:
            raise Unknown(f"another target than {known}")
        self.put(new)

    def ident(self, line):
        """A module has one: several, or none, are not one module of that toolchain."""
        if line not in ("!llvm.ident = !{!0}", f"!0 = {IDENT}"):
            raise Unknown(f"a toolchain that is not {IDENT}")
        self.idents += 1
        self.put(line)

    def read(self, text):
        is_inside = False
        for number, line in enumerate(text.split("\n"), 1):
            try:
                if not line or line.startswith(";"):
                    continue
                if not is_inside:
                    self.outside(line)
                    is_inside = line.startswith("define ")
                elif line == "}":
                    self.put(line)
                    is_inside = False
                else:
                    self.instruction(line)
            except Unknown as error:
                raise Unknown(f"line {number}: {error}: {line}") from None
        if self.idents != 2:
            raise Unknown(f"no single module of {IDENT}")

    # ---- exports

    def export(self, declared):
        """A function for each that a header declares: as C for wasm32 has it, it calls the proved one."""
        for name, (result, kinds) in declared.items():
            self.put(*twin(name, result, kinds, *self.exported.pop(name, (None, None))))
        if self.exported:
            raise Unknown(f"exports that no header declares: {', '.join(self.exported)}")


# ---- headers

# Of a type of C: what it is for wasm32, and what the proved code has.
TYPES = {"size_t": ("i32", "i64"), "uint64_t": ("i64", "i64"), "uint32_t": ("i32", "i32"), "int32_t": ("i32", "i32"), "bool": ("i32", "i1")}
FUNCTION = re.compile(r"^((?:const )?\w+ \*?)(\w+)\(([^()]*)\);$", re.M)


def kind_of(said):
    """The kinds of a parameter: what C passes for wasm32, and what the proved code takes. A struct of one pointer is passed as a number."""
    words = said.replace("const ", "").split()
    if "*" in said:
        return "ptr", "ptr"
    if words[0].endswith("_status"):
        return "i32", "i32"
    return TYPES.get(words[0], ("i32", "i64"))


def declared_by(header):
    """The functions that a header declares: the result and the parameters of each, as pairs of kinds."""
    text = re.sub(r"/\*.*?\*/", "", header, flags=re.S)
    found = {}
    for result, name, parameters in FUNCTION.findall(re.sub(r"[ \t]*\n[ \t]+", " ", text)):
        if name.endswith("_library_version"):
            continue
        kinds = [kind_of(it.strip()) for it in parameters.split(",") if it.strip() != "void"]
        found[name] = (None if result.strip() == "void" else kind_of(result), kinds)
    return found


def twin(name, result, kinds, proved_result, proved_kinds):
    """The function that is exported. A length is made 64 bits wide, and one that is returned 32 bits: none is longer than the memory."""
    wanted = [it[1] for it in kinds], "void" if result is None else result[1]
    if (proved_kinds, proved_result) != wanted:
        raise Unknown(f"{name}: the header has {wanted}, and the module {(proved_kinds, proved_result)}")
    body, passed = [], []
    for place, (given, taken) in enumerate(kinds):
        if given == taken:
            passed.append(f"{taken} %a{place}")
            continue
        body.append(f"  %b{place} = " + (f"icmp ne i32 %a{place}, 0" if taken == "i1" else f"zext {given} %a{place} to {taken}"))
        passed.append(f"{taken} %b{place}")
    call = f"call {wanted[1]} @proved_{name}({', '.join(passed)})"
    if result is None:
        body += [f"  {call}", "  ret void"]
    elif result[0] == result[1]:
        body += [f"  %r = {call}", f"  ret {result[0]} %r"]
    else:
        body += [f"  %r = {call}", f"  %s = {'zext' if result[1] == 'i1' else 'trunc'} {result[1]} %r to {result[0]}", f"  ret {result[0]} %s"]
    head = f"define {'void' if result is None else result[0]} @{name}({', '.join(f'{given} %a{place}' for place, (given, _) in enumerate(kinds))}) {{"
    return ["", head, *body, "}"]


def retargeted(text, headers):
    module = Module()
    module.read(text)
    declared = {}
    for header in headers:
        declared |= declared_by(header)
    names = "|".join(re.escape(it) for it in module.exported)
    module.lines = [re.sub(rf"@({names})\(", r"@proved_\1(", it) for it in module.lines] if names else module.lines
    module.lines = [it.replace(f"@{LOOKUP}(", "@lookup_bytes(") for it in module.lines]
    module.export(declared)
    return "\n".join(module.lines) + "\n"


def main(words):
    if len(words) < 2:
        sys.exit(__doc__)
    texts = []
    for name in words:
        with open(name, encoding="utf-8") as file:
            texts.append(file.read())
    try:
        sys.stdout.write(retargeted(texts[0], texts[1:]))
    except Unknown as error:
        sys.exit(f"retarget.py: {words[0]}: {error}")


if __name__ == "__main__":
    main(sys.argv[1:])
