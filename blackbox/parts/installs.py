"""./install and the Debian package: the files that are copied, and the program, which runs from there."""
import os
import re
import shutil
import subprocess
import tempfile
from pathlib import Path
from typing import Iterator

from .program import TOP, Cases

# The places of the files, with where they come from.
PLACES = {"bin/keycount": "release/keycount", "share/man/man1/keycount.1": "man/keycount.1",
          "share/bash-completion/completions/keycount": "completions/keycount.bash",
          "share/zsh/site-functions/_keycount": "completions/_keycount",
          "share/fish/vendor_completions.d/keycount.fish": "completions/keycount.fish"}

# What the package has besides.
LIBRARY = {"lib/x86_64-linux-gnu/libkeycount.so.1", "lib/x86_64-linux-gnu/libkeycount.a", "include/keycount.h",
           "lib/python3/dist-packages/keycount.py"}
LINKS = {"lib/x86_64-linux-gnu/libkeycount.so -> libkeycount.so.1"}


def called(script: str, *words: str, **environment: str) -> tuple[str, str, int]:
    """What a script prints, and its status."""
    done = subprocess.run([TOP / script, *words], env=dict(os.environ, **environment), capture_output=True, text=True, check=False)
    return done.stdout, done.stderr, done.returncode


def files_below(folder: Path) -> set[str]:
    return {str(path.relative_to(folder)) for path in folder.rglob("*") if not path.is_dir()}


def install_faults() -> Iterator[str]:
    """The files are copied below PREFIX, the program runs from there, and all are removed again."""
    with tempfile.TemporaryDirectory() as folder:
        for stage, prefix in (("", f"{folder}/a prefix"), (f"{folder}/stage", "/usr"), (f"{folder}/other", "")):
            root = Path(stage + (prefix or "/usr/local"))
            words = [prefix] if prefix else []
            said = called("install", *words, DESTDIR=stage)
            if said != (f"installed keycount, its man page and its completions to {root}\n", "", 0):
                yield f"it says {said}"
            if files_below(root) != set(PLACES):
                yield f"it copies {files_below(root)}"
            for place, source in PLACES.items():
                if (root / place).read_bytes() != (TOP / source).read_bytes():
                    yield f"{place} is not {source}"
                mode = (root / place).stat().st_mode & 0o777
                if mode != (0o755 if place == "bin/keycount" else 0o644):
                    yield f"{place} has the mode {mode:o}"
            done = subprocess.run([root / "bin/keycount", "count", "-"], input=b"a\nb\na\n", capture_output=True, check=False)
            if (done.stdout, done.stderr, done.returncode) != (b"count,a,2\ncount,b,1\ntotal,3,3\n", b"", 0):
                yield f"the program ends with {done}"
            said = called("install", "--remove", *words, DESTDIR=stage)
            if said[1:] != ("", 0) or files_below(root):
                yield f"after {said} there are {files_below(root)}"
    for words in (["--prefix", "x"], ["x", "y"]):
        if called("install", *words)[2] != 2:
            yield f"it accepts {words}"


def package_faults() -> Iterator[str]:
    """The package has the files that are installed and the library, belongs to root, and has the same bytes each time."""
    with tempfile.TemporaryDirectory() as folder:
        packages = []
        for nth in (1, 2):
            said = called("release/package", f"{folder}/{nth}")
            packages += Path(f"{folder}/{nth}").glob("keycount_*_amd64.deb")
            if said[1:] != ("", 0) or len(packages) != nth:
                yield f"it says {said}"
                return
        if packages[0].read_bytes() != packages[1].read_bytes():
            yield "two packages differ"
        shown = subprocess.run(["dpkg-deb", "-c", packages[0]], stdout=subprocess.PIPE, text=True, check=True).stdout
        rows = [line.split(maxsplit=5) for line in shown.splitlines()]
        listed = {row[5] for row in rows if row[0][0] != "d"}
        if listed != {f"./usr/{place}" for place in PLACES.keys() | LIBRARY | LINKS} or {row[1] for row in rows} != {"root/root"}:
            yield f"it has {shown}"
        versions = re.findall(rb"\bGLIBC_(\d+)\.(\d+)", (TOP / "release/keycount").read_bytes())
        if max((int(major), int(minor)) for major, minor in versions) > (2, 34):
            yield f"the program needs the versions {set(versions)} of glibc"
        depends = subprocess.run(["dpkg-deb", "-f", packages[0], "Depends"], stdout=subprocess.PIPE, text=True, check=True).stdout
        if depends != "libc6 (>= 2.34)\n":
            yield f"it depends on {depends!r}"


def cases() -> Cases:
    yield "install and remove", install_faults()
    if shutil.which("dpkg-deb"):
        yield "the Debian package", package_faults()
