#!/usr/bin/env python3
# SPDX-License-Identifier: Apache-2.0
"""Tests of retarget.py on small modules: what it writes of each line that it knows, and that it stops at each that it does not.

The last line is 'N passed, M failed'.
"""
import os
import sys

sys.path.insert(0, os.path.join(os.path.dirname(os.path.abspath(__file__)), ".."))
sys.dont_write_bytecode = True
import retarget

HEAD = f"""source_filename = "rattle"
target datalayout = {retarget.LAYOUT}
target triple = "x86_64-unknown-linux-gnu"
"""
TAIL = f"""attributes #0 = {{ nounwind "probe-stack"="inline-asm" "stack-probe-size"="3072" "target-cpu"="x86-64-v2" }}
!llvm.ident = !{{!0}}
!0 = {retarget.IDENT}
!1 = !{{}}
!2 = !{{i8 0, i8 2}}
"""
HEADER = """/* A comment: bool not_this(int a); */
size_t small_copy(const char *text, size_t length, bool flag,
                  char *room, size_t size);
uint64_t small_number(const small_handle *it);
void small_free(small_handle it);
const char *small_library_version(void);
"""
EXPORTS = """define noundef i64 @small_copy(ptr noundef %a0, i64 noundef %a1, i1 noundef %a2, ptr noundef %a3, i64 noundef %a4) #0 {
start:
  ret i64 %a1
}
define noundef i64 @small_number(ptr noundef %a0) #0 {
start:
  ret i64 7
}
define void @small_free(i64 noundef %a0) #0 {
start:
  ret void
}
"""


def function(*lines):
    return "define internal void @f(ptr noundef %a0, i64 noundef %a1, i1 noundef zeroext %a2) #0 {\nstart:\n" + "".join(f"  {it}\n" for it in lines) + "  ret void\n}\n"


def body(*lines):
    """What is written of a function with these lines, without its head and its end."""
    text = retarget.retargeted(HEAD + function(*lines) + TAIL, [])
    return text.split("start:\n")[1].split("  ret void")[0].split("\n")[:-1]


def refused(text, headers=()):
    try:
        retarget.retargeted(text, headers)
    except retarget.Unknown as error:
        return str(error)
    return None


# Lines as they come, and as they are written. A line that stays as it is stands alone.
WRITTEN = [
    (["%r0 = alloca ptr, align 8"], ["  %r0 = alloca i64, align 8"]),
    (["%r0 = alloca [24 x i8], align 8"], None),
    (["%r0 = alloca i8, align 1"], None),
    (["store ptr %a0, ptr %r1, align 8"], ["  %wasm.1 = ptrtoint ptr %a0 to i64", "  store i64 %wasm.1, ptr %r1, align 8"]),
    (["store i64 -1, ptr %r1, align 8"], None),
    (["%r0 = load ptr, ptr %a0, align 8, !noundef !1"], None),
    (["%r0 = load i8, ptr %a0, align 1, !range !2, !noundef !1"], None),
    (["%r0 = load { ptr, i64 }, ptr %a0, align 8"],
     ["  %wasm.1 = getelementptr i8, ptr %a0, i64 0", "  %wasm.2 = load ptr, ptr %wasm.1, align 8",
      "  %wasm.3 = insertvalue { ptr, i64 } poison, ptr %wasm.2, 0", "  %wasm.4 = getelementptr i8, ptr %a0, i64 8",
      "  %wasm.5 = load i64, ptr %wasm.4, align 8", "  %r0 = insertvalue { ptr, i64 } %wasm.3, i64 %wasm.5, 1"]),
    (["%r0 = load { i8, ptr }, ptr %a0, align 8"],
     ["  %wasm.1 = getelementptr i8, ptr %a0, i64 0", "  %wasm.2 = load i8, ptr %wasm.1, align 8",
      "  %wasm.3 = insertvalue { i8, ptr } poison, i8 %wasm.2, 0", "  %wasm.4 = getelementptr i8, ptr %a0, i64 8",
      "  %wasm.5 = load ptr, ptr %wasm.4, align 8", "  %r0 = insertvalue { i8, ptr } %wasm.3, ptr %wasm.5, 1"]),
    (["store { i64, ptr } %r1, ptr %a0, align 8"],
     ["  %wasm.1 = getelementptr i8, ptr %a0, i64 0", "  %wasm.2 = extractvalue { i64, ptr } %r1, 0",
      "  store i64 %wasm.2, ptr %wasm.1, align 8", "  %wasm.3 = getelementptr i8, ptr %a0, i64 8",
      "  %wasm.4 = extractvalue { i64, ptr } %r1, 1", "  %wasm.5 = ptrtoint ptr %wasm.4 to i64",
      "  store i64 %wasm.5, ptr %wasm.3, align 8"]),
    (["%r0 = ptrtoaddr ptr %a0 to i64"], ["  %r0 = ptrtoint ptr %a0 to i64"]),
    (["%r0 = getelementptr i8, ptr %a0, i64 %a1"], None),
    (["%r0 = icmp eq ptr %a0, null"], None),
    (["%r0 = call { i64, i64 } @rattle_alloc(i64 %a1, i64 8)"], None),
    (["call void @llvm.memset.p0.i64(ptr %a0, i8 0, i64 16, i1 false)"], None),
    (['%r0 = call i8 @"std_alloc::vec::Vec::new::<#9>"(ptr %a0)'], None),
    (["switch i8 %r0, label %noarm.3 [", "  i8 0, label %arm.1", "]"], None),
    (["%r0 = mul i64 %a1, 4096", "%r2 = zext i1 %a2 to i8", "br label %join.1"], None),
]

# What the script stops at, and why it must: the code would have another meaning, or nobody has looked at it.
STOPS = {
    "a number that becomes a pointer": "%r0 = inttoptr i64 %a1 to ptr",
    "a pointer that becomes a number of another width": "%r0 = ptrtoint ptr %a0 to i64",
    "an address of another width": "%r0 = ptrtoaddr ptr %a0 to i32",
    "an offset in units that have a width of their own": "%r0 = getelementptr ptr, ptr %a0, i64 1",
    "an offset into a struct": "%r0 = getelementptr { ptr, i64 }, ptr %a0, i64 0, i32 1",
    "a struct in memory": "%r0 = alloca { ptr, i64 }, align 8",
    "an array of pointers in memory": "%r0 = alloca [2 x ptr], align 8",
    "an array that is read as one": "%r0 = load [2 x i64], ptr %a0, align 8",
    "a struct in a struct": "%r0 = load { ptr, { i8, i64 } }, ptr %a0, align 8",
    "a struct with a vector in memory": "%r0 = load { ptr, <2 x i64> }, ptr %a0, align 8",
    "a packed struct": "store <{ i8, ptr }> %r1, ptr %a0, align 1",
    "a vector of pointers": "%r0 = load <2 x ptr>, ptr %a0, align 8",
    "a pointer in another address space": "%r0 = addrspacecast ptr %a0 to ptr addrspace(1)",
    "a call through a pointer": "call void %a0()",
    "assembly": 'call void asm sideeffect "nop", ""()',
    "a volatile read": "%r0 = load volatile i64, ptr %a0, align 8",
    "an atomic read": "%r0 = load atomic i64, ptr %a0 seq_cst, align 8",
    "a fence": "fence seq_cst",
    "a float of another width": "%r0 = fadd float %r1, %r2",
    "a fast operation on numbers": "%r0 = fadd fast double %r1, %r2",
    "a room of a size that is computed": "%r0 = alloca i8, i64 %a1, align 1",
    "an alignment that is not known": "%r0 = alloca i8, align 64",
    "an instruction with other notes": "%r0 = load ptr, ptr %a0, align 8, !dereferenceable !3",
    "a constant expression": "store ptr getelementptr (i8, ptr @static.0, i64 1), ptr %a0, align 8",
    "an address of a function": "store ptr @f, ptr %a0, align 8",
    "an invoke": "%r0 = invoke i64 @f() to label %a unwind label %b",
    "a call with a convention of its own": "call fastcc void @f()",
}
OUTSIDE = {
    "a constant that holds a pointer": "@static.0 = private unnamed_addr constant ptr @static.1, align 8",
    "a constant that is no bytes": "@static.0 = private unnamed_addr constant i64 7, align 8",
    "a constant with a pointer inside": "@static.0 = private unnamed_addr constant { ptr, i64 } { ptr null, i64 0 }, align 8",
    "a variable": "@static.0 = internal global [1 x i8] zeroinitializer, align 1",
    "a variable of each thread": "@static.0 = internal thread_local global [1 x i8] zeroinitializer, align 1",
    "an unknown function": "declare i64 @write(i32, ptr, i64) #0",
    "an unknown intrinsic": "declare i64 @llvm.bswap.i64(i64) #0",
    "an instruction of the processor": "declare i32 @llvm.x86.sse42.crc32.32.8(i32, i8) #0",
    "a named type": "%t = type { ptr, i64 }",
    "an alias": "@a = alias i8, ptr @static.0",
    "assembly of the module": 'module asm "nop"',
    "an attribute that is not known": 'attributes #9 = { nounwind "no-builtins" }',
    "metadata that is not known": '!3 = !{!"branch_weights", i32 1, i32 2}',
    "a section of constructors": "@llvm.global_ctors = appending global [0 x { i32, ptr, ptr }] zeroinitializer",
}
MODULES = {
    "another toolchain": (HEAD + function() + TAIL.replace("dac8", "dac9"), [], "a toolchain that is not"),
    "no toolchain": (HEAD + function() + TAIL.split("!llvm")[0], [], "no single module"),
    "two modules": (HEAD + function() + TAIL + HEAD + TAIL, [], "no single module"),
    "another processor": (HEAD.replace("x86_64", "aarch64") + TAIL, [], "another target"),
    "another layout": (HEAD.replace("-n8:16:32:64", "") + TAIL, [], "another target"),
    "an export that no header declares": (HEAD + EXPORTS + TAIL, [], "exports that no header declares"),
    "a function of the header that is not there": (HEAD + TAIL, [HEADER], "the module (None, None)"),
    "an export with other parameters": (HEAD + EXPORTS.replace("i1 noundef %a2", "i8 noundef %a2") + TAIL, [HEADER], "the header has"),
    "an export with another result": (HEAD + EXPORTS.replace("define void @small_free", "define i64 @small_free") + TAIL, [HEADER], "the header has"),
}
TWIN = """define i32 @small_copy(ptr %a0, i32 %a1, i32 %a2, ptr %a3, i32 %a4) {
  %b1 = zext i32 %a1 to i64
  %b2 = icmp ne i32 %a2, 0
  %b4 = zext i32 %a4 to i64
  %r = call i64 @proved_small_copy(ptr %a0, i64 %b1, i1 %b2, ptr %a3, i64 %b4)
  %s = trunc i64 %r to i32
  ret i32 %s
}
"""


def exports():
    """The functions of a header as C for wasm32 has them, and no other that is not internal."""
    text = retarget.retargeted(HEAD + EXPORTS + TAIL, [HEADER])
    shown = [it.split("(")[0] for it in text.split("\n") if it.startswith("define") and "internal" not in it]
    return TWIN in text and shown == ["define i32 @small_copy", "define i64 @small_number", "define void @small_free"]


def target():
    text = retarget.retargeted(HEAD + function() + TAIL, [])
    return "x86" not in text and 'target triple = "wasm32-unknown-unknown"' in text and "p:32:32" in text


def checks():
    for lines, wanted in WRITTEN:
        yield lines[0], body(*lines) == (wanted or [f"  {it}" for it in lines])
    for name, line in STOPS.items():
        yield name, (refused(HEAD + function(line) + TAIL) or "").endswith(f": an instruction:   {line}") or "a part of a struct" in str(refused(HEAD + function(line) + TAIL))
    for name, line in OUTSIDE.items():
        yield name, (refused(HEAD + line + "\n" + TAIL) or "").endswith(line)
    for name, (text, headers, why) in MODULES.items():
        yield name, why in (refused(text, headers) or "")
    yield "exports", exports()
    yield "the target", target()


def main():
    made = list(checks())
    wrong = [name for name, holds in made if not holds]
    for name in wrong:
        print(f"WRONG: {name}")
    print(f"{len(made) - len(wrong)} passed, {len(wrong)} failed")
    sys.exit(1 if wrong else 0)


if __name__ == "__main__":
    main()
