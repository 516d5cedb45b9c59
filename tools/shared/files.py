"""The files of the repository, by their paths from its top."""
import glob
import os

ROOT = os.path.normpath(os.path.join(os.path.dirname(os.path.abspath(__file__)), "..", ".."))
BUILT = {"build", "dist", "env", "node_modules", "__pycache__", ".git", ".mypy_cache", ".pytest_cache"}


def read(path, errors="strict"):
    with open(os.path.join(ROOT, path), encoding="utf-8", errors=errors) as file:
        return file.read()


def lines(path):
    return read(path).rstrip("\n").split("\n")


def write(path, text):
    """Writes a file, and makes its folder if there is none."""
    path = os.path.join(ROOT, path)
    os.makedirs(os.path.dirname(path), exist_ok=True)
    with open(path, "w", encoding="utf-8") as file:
        file.write(text)


def matching(*patterns, top=ROOT):
    """The files whose paths from the top match, sorted. `**` stands for any number of folders."""
    return sorted(path for pattern in patterns for path in glob.glob(pattern, root_dir=top, recursive=True))


def sources(crate):
    return matching(f"crates/{crate}/src/**/*.rt")


def below(*tops):
    """The files below some folders, but for what is built. (Below a crate's `src` a folder `out` has sources.)"""
    for top in tops:
        for folder, folders, names in os.walk(os.path.join(ROOT, top)):
            at = os.path.relpath(folder, ROOT)
            folders[:] = sorted(name for name in folders if name not in BUILT and (name != "out" or "/src" in at))
            yield from (os.path.normpath(os.path.join(at, name)) for name in sorted(names))
