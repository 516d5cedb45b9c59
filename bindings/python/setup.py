# SPDX-License-Identifier: Apache-2.0
"""Builds the two extension modules on Python's limited API; pyproject.toml says the rest.

NODE_SEMVER_LIBRARY names the static libraries to link, with `:` between. If it does not name libnpm_calls.a,
that is taken from the folder of the first. Their headers are in the folder `include` beside that one, or in
NODE_SEMVER_INCLUDE.

Without NODE_SEMVER_LIBRARY they are those of ../c, which `make` builds where a source has changed. That is in a clone of the
repository. The source distribution has no ../c and no library, so the build stops, and says how to get them.

NODE_SEMVER_REFUSE=1 makes the build of tests/refused, in which any allocation can be made to fail.
"""

import hashlib
import os
import re
import subprocess
from glob import glob

from setuptools import Extension, setup
from setuptools.command.build_ext import build_ext
from setuptools.command.sdist import sdist
from setuptools.errors import SetupError

HERE = os.path.dirname(os.path.abspath(__file__))
ROOT = os.path.dirname(os.path.dirname(HERE))
C_PACKAGE = os.path.join(os.path.dirname(HERE), "c")
OTHERS = ("libnpm_calls.a",)
HEADERS = ("node_semver.h", "npm_calls.h")

HELP = """
This package links the proved libraries for C, libnode_semver.a and libnpm_calls.a of version {version}. The
source distribution does not have them. There are two ways to get them:
- From a release: unpack denimscree-{version}-linux-x86_64.tar.gz, and set NODE_SEMVER_LIBRARY to the absolute path of its
  lib/libnode_semver.a.
- From a clone of the repository, with the Rattle toolchain: run `make -C bindings/c all calls`, and set
  NODE_SEMVER_LIBRARY to the absolute path of its bindings/c/build/libnode_semver.a.
The wheel of a release needs neither these libraries nor a compiler."""

# What the extension and the library call to allocate.
ALLOCATORS = [
    "malloc", "realloc", "_PyObject_GC_New", "PyMem_Malloc", "PyMem_Calloc", "PyUnicode_FromString",
    "PyUnicode_FromStringAndSize", "PyUnicode_FromFormat", "PyBytes_FromStringAndSize", "PyTuple_New", "PyList_New",
    "PyList_Append", "PyList_AsTuple", "PySequence_List", "PyLong_FromUnsignedLong", "PyLong_FromUnsignedLongLong",
    "PyLong_FromString", "PyObject_CallFunction", "Py_BuildValue", "PyUnicode_AsEncodedString", "PyObject_Format",
]  # fmt: skip


def content_of_sources() -> str:
    """A hash of the names and the contents of what the C library is built from."""
    content = hashlib.sha256()
    for top in (os.path.join(ROOT, "crates"), os.path.join(C_PACKAGE, "src"), os.path.join(C_PACKAGE, "include")):
        for folder, folders, files in os.walk(top):
            folders[:] = sorted(name for name in folders if name != "out")
            for name in sorted(files):
                path = os.path.join(folder, name)
                with open(path, "rb") as file:
                    line = f"{os.path.relpath(path, ROOT)} {hashlib.sha256(file.read()).hexdigest()}\n"
                content.update(line.encode())
    return content.hexdigest()


def build_c_library() -> str:
    """Builds the static libraries of ../c where a source has changed, and returns the path of the first.

    `make` goes by time stamps. A changed source may have an old one, so the contents of the sources are compared too.
    """
    library = os.path.join(C_PACKAGE, "build", "libnode_semver.a")
    stamp = os.path.join(C_PACKAGE, "build", "sources.sha256")
    content, before = content_of_sources(), None
    if os.path.exists(library) and os.path.exists(stamp):
        with open(stamp) as file:
            before = file.read()
    all_anew = ["-B"] if before not in (None, content) else []
    try:
        subprocess.run(["make", "-C", C_PACKAGE, *all_anew, "all", "calls"], check=True)
    except (OSError, subprocess.CalledProcessError) as error:
        raise SetupError(f"the libraries for C are not built: {error}") from error
    with open(stamp, "w") as file:
        file.write(content)
    return library


def missing(what: str, version: str) -> SetupError:
    """The error that says what is missing, and how to get it."""
    return SetupError(what + HELP.format(version=version))


def libraries(version: str) -> list[str]:
    """The static libraries to link."""
    named = os.environ.get("NODE_SEMVER_LIBRARY")
    if named:
        found = named.split(":")
    elif os.path.isfile(os.path.join(C_PACKAGE, "Makefile")):
        found = [build_c_library()]
    else:
        raise missing("NODE_SEMVER_LIBRARY is not set.", version)
    named_files = [os.path.basename(path) for path in found]
    found += [os.path.join(os.path.dirname(found[0]), other) for other in OTHERS if other not in named_files]
    for path in found:
        if not os.path.isfile(path):
            raise missing(f"There is no library {os.path.abspath(path)}.", version)
    return found


def include(library: str, version: str) -> str:
    """The folder of the headers of a library, which must be of this version."""
    beside = os.path.join(os.path.dirname(os.path.dirname(os.path.abspath(library))), "include")
    folder = os.environ.get("NODE_SEMVER_INCLUDE") or beside
    for name in HEADERS:
        path = os.path.join(folder, name)
        if not os.path.isfile(path):
            raise missing(f"There is no header {os.path.abspath(path)}.", version)
        with open(path, encoding="utf-8") as file:
            found = re.search(r'^#define \w+_LIBRARY_VERSION "(.*)"', file.read(), re.M)
        if found is None or found[1] != version:
            raise missing(f"{os.path.abspath(path)} is of version {found and found[1]}.", version)
    return folder


REFUSE = bool(os.environ.get("NODE_SEMVER_REFUSE"))


def extension(name: str, folder: str) -> Extension:
    sources = sorted(glob(os.path.join(folder, "*.c"))) + sorted(glob("native/shared/*.c"))
    link = ["-Wl,--exclude-libs,ALL"]
    if REFUSE:
        sources.append("tests/refused/refuse.c")
        link += ["-Wl,--wrap=" + name for name in ALLOCATORS + ["free"]]
    return Extension(
        name,
        sources,
        extra_compile_args=["-std=c99", "-fvisibility=hidden", "-Wall", "-Wextra"],
        extra_link_args=link,
        py_limited_api=True,
    )


class BuildAnew(build_ext):
    """Compiles and links each time: by time stamps, an older library in place of a newer one would not be linked."""

    def run(self) -> None:
        self.force = True
        version = self.distribution.get_version()
        found = libraries(version)
        folder = include(found[0], version)
        for made in self.extensions:
            made.extra_objects = found
            made.include_dirs = [folder]
        super().run()


class NamedSources(sdist):
    """Writes `_` for the `-` in the name of the archive, as PEP 625 asks. setuptools itself does from 69.3 on."""

    def make_distribution(self) -> None:
        metadata = self.distribution.metadata
        name = f"{metadata.get_name().replace('-', '_')}-{metadata.get_version()}"
        self.distribution.get_fullname = lambda: name
        super().make_distribution()


os.chdir(HERE)
setup(
    # PEP 639 has `license = "Apache-2.0"` and `license-files` in pyproject.toml. setuptools reads these from 77 on; Debian 12
    # has 66, which refuses them, and the table that 66 reads there is deprecated in newer ones. From this line, and from
    # `license-files` of [tool.setuptools], since it passes over `license_files` here, 66 writes `License: Apache-2.0`, an SPDX
    # expression, and `License-File: LICENSE`. It cannot write `License-Expression`.
    license="Apache-2.0",
    ext_modules=[
        extension("node_semver._native", "native"),
        extension("node_semver._calls", "native/calls"),
    ],
    cmdclass={"build_ext": BuildAnew, "sdist": NamedSources},
    options={
        "bdist_wheel": {"py_limited_api": "cp310"},
        "build": {"build_base": "build/refused" if REFUSE else "build/released"},
    },
)
