"""What a package has to say of itself: version, commit, kit, gate, and what is proved and what is not."""

import hashlib
import os
import pathlib
import re
import subprocess
import tempfile
from dataclasses import dataclass

DOORS = pathlib.Path(__file__).resolve().parent.parent
ROOT = DOORS.parent
OUT = DOORS / "out"
OBJECT = OUT / "lib/libi_overlay_mesh.so"
PROGRAMS = ("mesh_run", "mesh_lines")

COUNT = re.compile(r"^(\d+) passed, (\d+) failed", re.M)

MARK = "mesh_unproved"

SYSTEM = {"libc.so.6", "ld-linux-x86-64.so.2"}
"""What is on each system: the C library and its loader."""

MANIFEST = """\
i_overlay_mesh {version}
commit       {commit}
kit          {kit}
last gate    {gate}
object       {object}

{proof}
"""

PROVED = """\
Proved, by contracts of the crates, which a checker has proved: the code of the calls for C (crates/mesh_c and all below
it), that is of the archive, of the shared object but for a loop that the package for Python calls
(doors/c/each.c), and of the programs mesh_run and mesh_lines. What the contracts say is in README.md and
docs/PROMISES.md of the sources.

Not proved, but tested: the header for C, the crate for Rust, the package for Python, the packing itself, and what these
documents call tested.

Neither: speed, memory, how many splits a drawing takes.

Trusted: the checker and the compilers of the kit, the C library, and that contracts and definitions say what is meant."""

UNPROVED = """\
NOT PROVED. This object was built from code that need not be proved, with checks that stop the process. It is for those
who work on the packages, and not to be handed on."""


@dataclass(frozen=True)
class Facts:
    """What all packages share.

    version: as the header says it.
    time: of the commit, in seconds, for packages that come out the same each time.
    needed: the least version of the C library that the object needs, as (2, 14).
    """

    version: str
    commit: str
    time: int
    manifest: str
    needed: tuple
    programs: tuple
    is_proved: bool

    @property
    def environment(self):
        """Where tools take the time from."""
        return {**os.environ, "SOURCE_DATE_EPOCH": str(self.time)}


def told(*words, **options):
    """What a command writes."""
    return subprocess.run(words, stdout=subprocess.PIPE, text=True, check=True, **options).stdout.strip()


def version():
    """The version of the header, which all doors and `mesh_lines` have to share."""
    found = re.search(r'^#define MESH_VERSION "(.*)"$', (DOORS / "c/i_overlay_mesh.h").read_text(), re.M)[1]
    others = {
        "doors/rust/Cargo.toml": rf'^version = "{re.escape(found)}"$',
        "doors/python/i_overlay_mesh/__init__.py": rf'^__version__ = "{re.escape(found)}"$',
        "crates/mesh_lines/src/main.rt": rf'^const VERSION: &str = "mesh_lines {re.escape(found)}\\n";$',
    }
    for file, line in others.items():
        if not re.search(line, (ROOT / file).read_text(), re.M):
            raise SystemExit(f"{file} has not the version of the header, {found}")
    return found


def symbols(file):
    """The symbols that an object takes and gives."""
    return told("nm", "-D", str(file))


def needed_library(file):
    """The least version of the C library that an object needs, and it may need no other library."""
    others = re.findall(r"\(NEEDED\).*\[(.*)\]", told("readelf", "-d", str(file)))
    if not set(others) <= SYSTEM:
        raise SystemExit(f"{file} needs {', '.join(others)}, and may need the C library alone")
    versions = [tuple(map(int, found.split("."))) for found in re.findall(r"@GLIBC_(\d+\.\d+)", symbols(file))]
    return max(versions)


def gate_line(gate, development):
    """The last count of the gate."""
    if gate == "-":
        return "within the gate, after its proofs and tests"
    if gate is None:
        if development:
            return "none was given"
        raise SystemExit("doors/package needs --gate LOG: what `.ci/run` wrote")
    counts = list(COUNT.finditer(pathlib.Path(gate).read_text(errors="replace")))
    if not counts:
        raise SystemExit(f"{gate} has no line 'N passed, M failed'")
    last = counts[-1]
    if last[2] != "0":
        raise SystemExit(f"the gate failed: {last[0]}")
    return last[0]


def programs(is_proved, are_needed):
    """The programs that are there."""
    folders = {name: ROOT / f"crates/{name}/out/{name}" for name in PROGRAMS}
    if not is_proved:
        folders = {name: OUT / "bin" / name for name in PROGRAMS}
    missing = [name for name, file in folders.items() if not file.exists()]
    if missing and is_proved and are_needed:
        raise SystemExit(f"{' and '.join(missing)} are not built: `rt ci` does that, or `rt run` in their crates")
    return tuple(file for file in folders.values() if file.exists())


def is_stale():
    """Whether code has changed since the library was built."""
    code = [ROOT / "crates.txt", *(ROOT / "crates").glob("*/src/**/*"), *(DOORS / "c").iterdir()]
    return max(file.stat().st_mtime for file in code) > OBJECT.stat().st_mtime


def gather(gate, development, kinds):
    """All facts for some kinds of packages, or the reason why nothing may be packed."""
    if not OBJECT.exists():
        raise SystemExit("doors/out has no library: run doors/build first")
    if is_stale():
        raise SystemExit("doors/out is older than the code: run doors/build first")
    is_proved = MARK not in symbols(OBJECT)
    if not is_proved and not development:
        raise SystemExit(
            "the library was built before its proof, and is not handed on: run doors/build without --unproved"
        )
    changed = told("git", "status", "--porcelain", cwd=ROOT)
    if changed and not development:
        raise SystemExit(f"files have changed since the last commit:\n{changed}")
    commit = told("git", "rev-parse", "HEAD", cwd=ROOT) + (" and changes" if changed else "")
    number = version() + ("" if is_proved else "+unproved")
    manifest = MANIFEST.format(
        version=number,
        commit=commit,
        kit=told("rt", "version"),
        gate=gate_line(gate, development),
        object=f"{hashlib.sha256(OBJECT.read_bytes()).hexdigest()} (SHA-256)",
        proof=PROVED if is_proved else UNPROVED,
    )
    time = int(told("git", "log", "-1", "--format=%ct", cwd=ROOT))
    return Facts(
        number, commit, time, manifest, needed_library(OBJECT), programs(is_proved, kinds != ["wheel"]), is_proved
    )


def write_checksums(folder):
    """The checksums of all packages."""
    lines = [f"{hashlib.sha256(file.read_bytes()).hexdigest()}  {file.name}\n" for file in sorted(folder.iterdir())]
    (folder / "SHA256SUMS").write_text("".join(lines))


def workplace():
    """A folder for what is made on the way."""
    return tempfile.TemporaryDirectory(prefix="mesh-package-")
