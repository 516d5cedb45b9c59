"""The licences of a release: the file `copyright` of the programs, with that of this repository and those of what is linked into
them, and the file `NOTICES` of a package that brings a library."""
import fnmatch
import os
import re
import sys
import textwrap

from programs import KIT, crates
from versions import read

# The licences that have names of their own, by how their texts begin. The others are forms of MIT's.
NAMES = {"Apache License": "Apache-2.0", "UNICODE LICENSE V3": "Unicode-3.0"}
# What the licence of each name says, where Debian ships its text.
COMMON = """License: Apache-2.0
 On Debian systems the whole text of the Apache License, version 2.0, is in
 /usr/share/common-licenses/Apache-2.0.

License: LGPL-2.1+
 On Debian systems the whole text of the GNU Lesser General Public License,
 version 2.1, is in /usr/share/common-licenses/LGPL-2.1.

License: GPL-3+ with GCC-Runtime-Library exception
 On Debian systems the whole text of the GNU General Public License,
 version 3, is in /usr/share/common-licenses/GPL-3.
 .
 Under Section 7 of GPL version 3, you are granted additional permissions
 described in the GCC Runtime Library Exception, version 3.1, as published by
 the Free Software Foundation.
"""
# The texts that an archive of programs has beside the file `copyright`, for systems that are not Debian. Apache's is the file LICENSE.
OF_DEBIAN = {"LGPL-2.1": "common-licenses/LGPL-2.1", "GPL-3": "common-licenses/GPL-3", "copyright.libc6": "doc/libc6/copyright"}

# Sources of the toolchain's library `core` that follow others, as their first lines say, and the library that comes with the
# text of their licence.
IN_CORE = {"char/*": "unicode", "dec2flt/*": "fast_float", "str/two_way.rt": "memchr"}


def uses_of(name):
    """What a library of the toolchain uses."""
    with open(os.path.join(KIT, "rlibs", f"{name}.rlib", "format"), encoding="utf-8") as file:
        return re.findall(r"^dep (\S+)$", file.read(), re.M)


def linked(*tops):
    """The libraries of the toolchain that are linked into what these crates make, in order."""
    listed = crates.listed()
    rest = [it for name in crates.below(*tops) for it in listed[name][0] if it not in listed]
    found = set()
    while rest:
        name = rest.pop()
        if name not in found:
            found.add(name)
            rest += uses_of(name)
    return sorted(found)


def texts_of(name):
    """The texts of the licences that a library of the toolchain comes with, and the word between their names: one of two may be
    chosen where the library comes under Apache's and MIT's, and all count elsewhere."""
    folder = os.path.join(KIT, "rattle", name)
    names = sorted(it for it in os.listdir(folder) if it.startswith("LICENSE")) if os.path.isdir(folder) else []
    texts = []
    for it in names:
        with open(os.path.join(folder, it), encoding="utf-8") as file:
            texts.append(file.read().strip())
    return texts, " or " if names == ["LICENSE-APACHE", "LICENSE-MIT"] else " and "


def check_sources(name):
    """Stops if a source of a library without a licence says one, and it is not one of `IN_CORE`."""
    top = os.path.join(KIT, "rattle", name, "src")
    for at, _, files in os.walk(top):
        for path in [os.path.join(at, it) for it in files]:
            with open(path, encoding="utf-8") as file:
                says = re.search("licen[cs]e", file.read(), re.I)
            path = os.path.relpath(path, top)
            if says and not (name == "core" and any(fnmatch.fnmatch(path, it) for it in IN_CORE)):
                sys.exit(f"release: {name}/src/{path} has a licence that packaging/licences.py does not name")


def indented(text):
    return "".join(f" {line.rstrip() or '.'}\n" for line in text.split("\n"))


def holders_in(texts, library):
    """Who the texts say has the copyright. An Apache licence has a form to be filled in there."""
    found = [it for text in texts for it in re.findall(r"^Copyright (?:\(c\) |© )?(?!\[)(.*)$", text, re.M)]
    return "\n ".join(found) or f"the authors of {library}"


def name_of(text, names):
    """The name of a licence. `names` has those of the texts so far."""
    own = next((name for begin, name in NAMES.items() if text.startswith(begin)), None)
    return names.setdefault(text, own or f"MIT-{1 + sum(it.startswith('MIT-') for it in names.values())}")


def stanza(path, library, names):
    """The paragraph of what lies below a path, with the licence of this library."""
    texts, word = texts_of(library)
    said = word.join(name_of(it, names) for it in texts)
    return f"Files: linked/{path}\nCopyright: {holders_in(texts, library)}\nLicense: {said}\n"


def stanzas_of(*tops):
    """The paragraphs of a file of Debian's format 1.0 for the libraries of the toolchain that are linked into what these crates make,
    with the texts of their licences; and the names of those that come without one."""
    names, libraries = {}, linked(*tops)
    stanzas = [stanza(f"{it}/*", it, names) for it in libraries if texts_of(it)[0]]
    without = [it for it in libraries if not texts_of(it)[0]]
    for library in without:
        check_sources(library)
    stanzas += [stanza(f"core/{path}", library, names) for path, library in IN_CORE.items()]
    stanzas += [f"License: {name}\n{indented(text)}" for text, name in names.items() if name != "Apache-2.0"]
    return stanzas, ", ".join(without)


def copyright_text():
    """The file `copyright` of the programs."""
    stanzas, without = stanzas_of(*crates.programs().values())
    without = textwrap.fill(without, 78, initial_indent=" ", subsequent_indent=" ")
    return "\n".join([read("packaging/debian/copyright").replace(" @WITHOUT@", without), *stanzas, COMMON])


def notices(*tops):
    """The file `NOTICES` of a package with the libraries that these crates make."""
    stanzas, without = stanzas_of(*tops)
    head = f"""The native parts of this package have code of the libraries of the Rattle toolchain that are named here, under these licences.
Of {without} the toolchain names none.
"""
    return "\n".join([head, *stanzas])
