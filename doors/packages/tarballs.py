"""Tarballs: the sources as they are committed, and all that is built, for those who have no package manager for it."""

import gzip
import io
import pathlib
import shutil
import subprocess
import tarfile

from .facts import DOORS, OBJECT, OUT, ROOT, workplace
from .wheel import MACHINE, copy_package

README = """\
# i_overlay_mesh {version}, built

    bin/       the programs: a request in JSON, or one a line
    include/   the header for C, which is the page to read
    lib/       the shared object, the archive, and a file for pkg-config
    rust/      the crate for Rust, with the archive: cargo alone builds it
    python/    the package for Python, with the shared object: a folder for PYTHONPATH
    doc/       what is proved, and what is only tested

    make install PREFIX=/usr/local     installs the library for C; `make uninstall` takes it away

MANIFEST.txt says from which commit this was built, and what is proved.
"""


def add(archive, file, name, time):
    """Adds a file, a link or a folder under a name, as of a time and of nobody."""
    entry = archive.gettarinfo(file, name)
    entry.uid = entry.gid = 0
    entry.uname = entry.gname = "root"
    entry.mtime = time
    entry.mode = 0o755 if entry.isdir() or entry.mode & 0o100 else 0o644
    if entry.isreg():
        with open(file, "rb") as data:
            archive.addfile(entry, data)
    else:
        archive.addfile(entry)


def pack(folder, name, out, time):
    """Packs a folder. The same files give the same bytes."""
    data = io.BytesIO()
    with tarfile.open(fileobj=data, mode="w") as archive:
        add(archive, folder, name, time)
        for file in sorted(folder.rglob("*")):
            add(archive, file, f"{name}/{file.relative_to(folder)}", time)
    with open(out / f"{name}.tar.gz", "wb") as target, gzip.GzipFile("", "wb", 9, target, time) as packed:
        packed.write(data.getvalue())


def lay_out_built(folder, known):
    """All that is built."""
    shutil.copytree(OUT / "include", folder / "include")
    shutil.copytree(OUT / "lib", folder / "lib", symlinks=True)
    (folder / "bin").mkdir()
    for program in known.programs:
        shutil.copy(program, folder / "bin")
    crate = folder / "rust"
    shutil.copytree(DOORS / "rust", crate, ignore=shutil.ignore_patterns("target", "Cargo.lock", "tests"))
    (crate / "lib").mkdir()
    shutil.copy(OUT / "lib/libi_overlay_mesh.a", crate / "lib")
    package = copy_package(folder / "python", known)
    shutil.copy(OBJECT, package / OBJECT.name)
    (folder / "doc").mkdir()
    for page in (ROOT / "docs").glob("*.md"):
        shutil.copy(page, folder / "doc")
    shutil.copy(DOORS / "c/Makefile", folder)
    shutil.copy(ROOT / "LICENSE-MIT", folder)
    (folder / "README.md").write_text(README.format(version=known.version))


def make(known, out):
    """Makes both tarballs."""
    with workplace() as name:
        folder = pathlib.Path(name)
        (folder / "built").mkdir()
        lay_out_built(folder / "built", known)
        (folder / "source").mkdir()
        commit = subprocess.Popen(["git", "archive", "--format=tar", "HEAD"], cwd=ROOT, stdout=subprocess.PIPE)
        subprocess.run(["tar", "x", "-C", str(folder / "source")], stdin=commit.stdout, check=True)
        if commit.wait():
            raise SystemExit("git cannot read the last commit")
        for part, tail in (("built", f"-{MACHINE}-linux"), ("source", "-source")):
            (folder / part / "MANIFEST.txt").write_text(known.manifest)
            pack(folder / part, f"i_overlay_mesh-{known.version}{tail}", out, known.time)
