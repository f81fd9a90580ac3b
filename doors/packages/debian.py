"""Debian packages, made by debhelper: the library, its header, the programs, and the package for Python."""

import pathlib
import re
import shutil
import subprocess
from email.utils import formatdate

from .facts import OUT, ROOT, symbols, told, workplace
from .wheel import copy_package

HERE = pathlib.Path(__file__).resolve().parent / "debhelper"
LIBRARY = "libi-overlay-mesh1"
DEVELOPMENT = "libi-overlay-mesh-dev"
NEEDED = {"dpkg-dev": "dpkg-buildpackage", "debhelper": "dh", "dh-python": "dh_python3"}
"""Debian's packages that make packages, and a program of each."""

FOLDER = "/usr/lib/x86_64-linux-gnu"
CHANGELOG = (
    "i-overlay-mesh ({version}-1) unstable; urgency=medium\n\n  * As of commit {commit}.\n\n -- {author}  {date}\n"
)


def lay_out_built(built, known):
    """What is packed."""
    shutil.copytree(OUT / "include", built / "include")
    shutil.copytree(OUT / "lib", built / "lib", symlinks=True)
    (built / "bin").mkdir()
    for program in known.programs:
        shutil.copy(program, built / "bin")
    copy_package(built / "python", known)
    page = (OUT / "lib/pkgconfig/i_overlay_mesh.pc").read_text()
    page = page.replace("prefix=${pcfiledir}/../..", "prefix=/usr").replace("libdir=${prefix}/lib", f"libdir={FOLDER}")
    (built / "i_overlay_mesh.pc").write_text(page)


def copyright_page(author):
    """The license as Debian writes it."""
    text = (ROOT / "LICENSE-MIT").read_text().strip()
    holder = re.search(r"^Copyright (?:\([cC]\) )?(.*)$", text, re.M)
    lines = [f" {line}" if line else " ." for line in text.splitlines()]
    page = (HERE / "copyright").read_text()
    return page.replace("@COPYRIGHT@", holder[1] if holder else author).replace("@LICENSE@", "\n".join(lines))


def lay_out_debian(debian, known, author):
    """The files that debhelper reads."""
    shutil.copytree(HERE, debian)
    control = (debian / "control").read_text().replace("@MAINTAINER@", author)
    (debian / "control").write_text(control)
    (debian / "rules").chmod(0o755)
    (debian / "copyright").write_text(copyright_page(author))
    date = formatdate(known.time)
    (debian / "changelog").write_text(
        CHANGELOG.format(version=known.version, commit=known.commit, author=author, date=date)
    )
    (debian / "source").mkdir()
    (debian / "source/format").write_text("3.0 (native)\n")
    for name in re.findall(r"^Package: (.*)$", control, re.M):
        (debian / f"{name}.README.Debian").write_text(known.manifest)
        # That asks whether an upload to Debian itself answers a request for the package.
        (debian / f"{name}.lintian-overrides").write_text(f"{name}: initial-upload-closes-no-bugs\n")
    pages = [f"debian/{program.name}.1" for program in known.programs]
    (debian / "i-overlay-mesh.manpages").write_text("\n".join(pages) + "\n")
    # The mark of what is not proved is a text and no call.
    names = sorted(re.findall(r" [TR] (mesh_\w+)", symbols(OUT / "lib/libi_overlay_mesh.so")))
    lines = [f"libi_overlay_mesh.so.1 {LIBRARY} #MINVER#", f"* Build-Depends-Package: {DEVELOPMENT}"]
    lines += [f" {name}@Base {first_version(name)}" for name in names]
    (debian / f"{LIBRARY}.symbols").write_text("\n".join(lines) + "\n")


def first_version(name):
    """The version that has a call first."""
    return "1.2.0" if name.startswith(("mesh_boolean", "mesh_clearances", "mesh_inner_reach")) else "1.1.0"


def make(known, out):
    """Makes the packages."""
    missing = [package for package, program in NEEDED.items() if shutil.which(program) is None]
    if missing:
        print(f"No {' and no '.join(missing)}: no Debian packages were made.")
        return
    author = told("git", "log", "-1", "--format=%an <%ae>", cwd=ROOT)
    with workplace() as name:
        folder = pathlib.Path(name) / "i-overlay-mesh"
        (folder / "built").mkdir(parents=True)
        lay_out_built(folder / "built", known)
        lay_out_debian(folder / "debian", known, author)
        log = subprocess.run(
            ["dpkg-buildpackage", "--build=binary", "--no-sign", "--no-check-builddeps"],
            cwd=folder,
            env={**known.environment, "DEB_BUILD_OPTIONS": "noautodbgsym"},
            stdout=subprocess.PIPE,
            stderr=subprocess.STDOUT,
            text=True,
            check=False,
        )
        if log.returncode:
            raise SystemExit(log.stdout)
        for package in pathlib.Path(name).glob("*.deb"):
            shutil.copy(package, out)
