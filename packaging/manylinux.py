#!/usr/bin/env python3
"""The platform tag of a wheel, by what its native parts need of the C library, as `auditwheel` has it. Debian 12 has no
`auditwheel`.

    packaging/manylinux.py tag WHEEL FOLDER    writes the wheel into FOLDER with the tag that its native parts allow
    packaging/manylinux.py check WHEEL..       refuses a wheel whose native parts need more than its tag says

The tag is `manylinux_X_Y_x86_64` (PEP 600), where X.Y is the greatest version of a symbol of the GNU C library that they need.
A refused wheel is not written. The status is then 1, and each reason is a line.
"""
import glob
import itertools
import os
import re
import subprocess
import sys
import tempfile
import zipfile

# The libraries of the GNU C library, which each policy of manylinux allows. Policies allow others too, as those of C++ and
# X11, which nothing here needs.
ALLOWED = {"libc.so.6", "libm.so.6", "libpthread.so.0", "libdl.so.2", "librt.so.1", "ld-linux-x86-64.so.2"}
# The lowest tag that there is for this processor.
OLDEST = (2, 5)
# The highest that a release may have: the C library of Debian 10 and RHEL 8.
NEWEST = (2, 28)
FORMAT = "elf64-x86-64"


class Refused(Exception):
    """The reasons, a line each."""


def run(*words):
    english = {**os.environ, "LC_ALL": "C"}
    ran = subprocess.run(words, env=english, stdin=subprocess.DEVNULL, capture_output=True, text=True)
    if ran.returncode:
        raise Refused(f"{' '.join(words)}: {ran.stderr.strip()}")
    return ran.stdout


def needs(path):
    """The least C library with which a native part can be loaded, and a line for each thing that stands against any tag."""
    said = run("objdump", "-p", path)
    least, reasons = OLDEST, []
    if f"file format {FORMAT}\n" not in said:
        reasons.append(f"it is not {FORMAT}")
    if not re.search(r"STACK off.*\n.* flags rw-$", said, re.M):
        reasons.append("it needs a stack that can be run")
    for library in re.findall(r"^ +NEEDED +(\S+)$", said, re.M):
        if library not in ALLOWED:
            reasons.append(f"it needs the library {library}")
    for symbols in re.findall(r"^ +0x[0-9a-f]+ 0x[0-9a-f]+ \d+ (\S+)$", said.partition("\nVersion References:\n")[2], re.M):
        version = re.fullmatch(r"GLIBC_(\d+)\.(\d+)(\.\d+)?", symbols)
        if version:
            least = max(least, (int(version[1]), int(version[2])))
        else:
            reasons.append(f"it needs symbols of {symbols}")
    return least, reasons


def refusals(path, newest):
    """Why a native part cannot be loaded with each C library from `newest` on: a line each, or none."""
    least, reasons = needs(path)
    if least > newest:
        reasons.append("it needs symbols of GLIBC_{}.{}, and the tag allows {}.{}".format(*least, *newest))
    return reasons


def native_parts(wheel, folder):
    """Unpacks the native parts of a wheel below a folder: pairs of the name and the path."""
    found = []
    with zipfile.ZipFile(wheel) as archive:
        for entry in archive.infolist():
            with archive.open(entry) as file:
                if file.read(4) == b"\x7fELF":
                    found.append((entry.filename, archive.extract(entry, folder)))
    if not found:
        raise Refused(f"{wheel} has no native part")
    return found


def check_parts(wheel, newest):
    """Refuses a wheel with a part that needs more. Returns the least C library of all parts."""
    with tempfile.TemporaryDirectory() as room:
        parts = native_parts(wheel, room)
        lines = [f"{name}: {reason}" for name, path in parts for reason in refusals(path, newest)]
        if lines:
            raise Refused("\n".join(lines))
        return max(needs(path)[0] for _, path in parts)


def tags_of(wheel):
    """The platforms of a wheel. Its name and its file WHEEL must have the same tags."""
    named = re.fullmatch(r".+-([^-]+)-([^-]+)-([^-]+)\.whl", os.path.basename(wheel))
    if not named:
        raise Refused(f"{wheel} has not the name of a wheel")
    expanded = {"-".join(tag) for tag in itertools.product(*(part.split(".") for part in named.groups()))}
    with zipfile.ZipFile(wheel) as archive:
        inside = [archive.read(name).decode() for name in archive.namelist() if re.fullmatch(r"[^/]+\.dist-info/WHEEL", name)]
    written = re.findall(r"^Tag: (\S+)$", "\n".join(inside), re.M)
    if set(written) != expanded:
        raise Refused(f"{wheel} has the tags {', '.join(written)} inside")
    return named[3].split(".")


def check(wheel):
    """Refuses a wheel whose native parts need more than a tag of it says."""
    for platform in tags_of(wheel):
        tag = re.fullmatch(r"manylinux_(\d+)_(\d+)_x86_64", platform)
        if not tag:
            raise Refused(f"{wheel}: {platform} is no tag of manylinux on x86-64")
        check_parts(wheel, (int(tag[1]), int(tag[2])))


def write_tagged(wheel, folder):
    """Writes a wheel with the tag that its native parts allow."""
    platform = "manylinux_{}_{}_x86_64".format(*check_parts(wheel, NEWEST))
    with tempfile.TemporaryDirectory() as room:
        run(sys.executable, "-m", "wheel", "unpack", "--dest", room, wheel)
        [unpacked] = glob.glob(os.path.join(room, "*"))
        [path] = glob.glob(os.path.join(unpacked, "*.dist-info", "WHEEL"))
        with open(path, encoding="utf-8") as file:
            text = re.sub(r"(?m)^(Tag: [^-\n]+-[^-\n]+-).*$", rf"\g<1>{platform}", file.read())
        with open(path, "w", encoding="utf-8") as file:
            file.write(text)
        # `wheel unpack` gives each file the mode that umask says. The same wheel comes out whatever it says.
        for path in glob.glob(os.path.join(unpacked, "**"), recursive=True):
            os.chmod(path, 0o755 if os.path.isdir(path) else 0o644)
        os.makedirs(folder, exist_ok=True)
        run(sys.executable, "-m", "wheel", "pack", "--dest-dir", folder, unpacked)


def main(words):
    try:
        if len(words) == 3 and words[0] == "tag":
            write_tagged(words[1], words[2])
        elif len(words) > 1 and words[0] == "check":
            for wheel in words[1:]:
                check(wheel)
        else:
            sys.exit(__doc__)
    except (Refused, OSError, zipfile.BadZipFile) as reason:
        sys.exit(str(reason))


if __name__ == "__main__":
    main(sys.argv[1:])
