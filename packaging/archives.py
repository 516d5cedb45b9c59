"""Archives that are the same byte for byte whenever the same files go in: names in order, one time, root as owner."""
import gzip
import hashlib
import io
import os
import tarfile
import tempfile


def files_below(folder):
    """The paths of the files and links below a folder, from there, in order."""
    found = []
    for at, folders, names in os.walk(folder):
        folders.sort()
        found += [os.path.relpath(os.path.join(at, name), folder) for name in names]
        found += [os.path.relpath(os.path.join(at, name), folder) for name in folders if os.path.islink(os.path.join(at, name))]
    return sorted(found)


def folders_above(names):
    """The folders that the paths lie in, in order."""
    found = set()
    for name in names:
        while name := os.path.dirname(name):
            found.add(name)
    return sorted(found)


def add(archive, folder, name, inside, date):
    path = os.path.join(folder, name)
    entry = archive.gettarinfo(path, inside)
    entry.uid = entry.gid = 0
    entry.uname = entry.gname = "root"
    entry.mtime = date
    entry.mode = 0o755 if entry.isdir() or entry.mode & 0o100 else 0o644
    if entry.isreg():
        with open(path, "rb") as file:
            archive.addfile(entry, file)
    else:
        archive.addfile(entry)


def tar_of(folder, date, top=""):
    """A tar archive of a folder, in memory. `top` is put before each path. A Debian package (`top` is `./`) lists its folders.
    Another archive does not: tar makes those that are missing, and the mode of one that is there stays as it is."""
    out = io.BytesIO()
    names = files_below(folder)
    with tarfile.open(fileobj=out, mode="w", format=tarfile.GNU_FORMAT) as archive:
        for name in ["", *folders_above(names)] if top == "./" else []:
            add(archive, folder, name, (top + name).rstrip("/"), date)
        for name in names:
            add(archive, folder, name, top + name, date)
    return out.getvalue()


def gzipped(content, date):
    out = io.BytesIO()
    with gzip.GzipFile(filename="", mode="wb", fileobj=out, mtime=date, compresslevel=9) as file:
        file.write(content)
    return out.getvalue()


def write(path, content):
    os.makedirs(os.path.dirname(path), exist_ok=True)
    with open(path, "wb") as file:
        file.write(content if isinstance(content, bytes) else content.encode())


def sum_of(path, kind="sha256"):
    with open(path, "rb") as file:
        return hashlib.new(kind, file.read()).hexdigest()


def ar_of(members, date):
    """An archive of `ar`, as a Debian package is one: pairs of a name and its content."""
    out = b"!<arch>\n"
    for name, content in members:
        out += f"{name:<16}{date:<12}{0:<6}{0:<6}{'100644':<8}{len(content):<10}`\n".encode() + content + b"\n" * (len(content) % 2)
    return out


def deb_of(folder, control, scripts, date):
    """A Debian package of the files in a folder, with these fields of its control file, and scripts by name."""
    sums = "".join(f"{sum_of(os.path.join(folder, name), 'md5')}  {name}\n" for name in files_below(folder))
    with tempfile.TemporaryDirectory() as told:
        write(os.path.join(told, "control"), control)
        write(os.path.join(told, "md5sums"), sums)
        for name, script in scripts.items():
            write(os.path.join(told, name), script)
            os.chmod(os.path.join(told, name), 0o755)
        parts = [gzipped(tar_of(it, date, "./"), date) for it in (told, folder)]
    return ar_of(zip(("debian-binary", "control.tar.gz", "data.tar.gz"), (b"2.0\n", *parts)), date)
