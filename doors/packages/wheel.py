"""The wheel: the package for Python with the shared object in it, made by setuptools and wheel."""

import pathlib
import shutil
import subprocess
import sys

from .facts import DOORS, OBJECT, ROOT, told, workplace

# Versions of the C library that older installers know by a name.
NAMES = {(2, 5): "manylinux1", (2, 12): "manylinux2010", (2, 17): "manylinux2014"}
MACHINE = "x86_64"

SETUP = '''\
from setuptools import Distribution, setup
from wheel.bdist_wheel import bdist_wheel


class Built(Distribution):
    """Has code for a machine, so that the package stands at the top of the wheel, where installers and tools look."""

    def has_ext_modules(self):
        return True


class Tagged(bdist_wheel):
    """The shared object is no extension module: any Python 3 of the platform loads it."""

    def get_tag(self):
        return "py3", "none", "{tag}"


setup(distclass=Built, cmdclass={{"bdist_wheel": Tagged}})
'''

PROJECT = """\
[build-system]
requires = ["setuptools>=61", "wheel"]
build-backend = "setuptools.build_meta"

[project]
name = "i_overlay_mesh"
version = "{version}"
description = "Polygon offsetting and booleans: outlines of polygons and strokes of lines, by a proved library"
readme = "README.md"
requires-python = ">=3.9"
license = {{text = "MIT"}}
classifiers = ["License :: OSI Approved :: MIT License", "Operating System :: POSIX :: Linux", "Typing :: Typed"]

[project.optional-dependencies]
maps = ["geopandas", "pyproj"]
arrays = ["numpy", "shapely"]

[project.scripts]
i_overlay_mesh = "i_overlay_mesh.__main__:main"

[tool.setuptools]
packages = ["i_overlay_mesh"]
license-files = ["LICENSE-MIT"]

[tool.setuptools.package-data]
i_overlay_mesh = ["py.typed", "MANIFEST.txt", "libi_overlay_mesh.so"]
"""

README = """\
# i_overlay_mesh

Polygon offsetting over whole numbers: outlines of polygons, strokes of lines, strokes whose width changes, buffers of any
geometry, and booleans, by a library whose code is proved. `MANIFEST.txt` says what is proved and what is not.

```python
from i_overlay_mesh import buffer, outline

grown = outline([[0, 0], [4, 0], [4, 3], [0, 3]], 1, join="miter")
grown.geojson()
```
"""


def tag_of(needed):
    """The platforms that the object runs on, by the least version of the C library that it needs."""
    tags = [f"manylinux_{needed[0]}_{needed[1]}_{MACHINE}"]
    older = sorted(version for version in NAMES if version >= needed)
    if older:
        tags.append(f"{NAMES[older[0]]}_{MACHINE}")
    return ".".join(tags)


def copy_package(folder, known):
    """The package for Python, with its manifest."""
    package = folder / "i_overlay_mesh"
    shutil.copytree(DOORS / "python/i_overlay_mesh", package, ignore=shutil.ignore_patterns("__pycache__"))
    (package / "MANIFEST.txt").write_text(known.manifest)
    return package


def python():
    """A Python that has setuptools and wheel."""
    for name in (sys.executable, "/usr/bin/python3"):
        code = "import setuptools, wheel.bdist_wheel"
        if (
            pathlib.Path(name).exists()
            and not subprocess.run([name, "-c", code], capture_output=True, check=False).returncode
        ):
            return name
    raise SystemExit("setuptools and wheel are needed for the wheel (python3-setuptools, python3-wheel)")


def make(known, out):
    """Makes the wheel."""
    with workplace() as name:
        folder = pathlib.Path(name)
        package = copy_package(folder, known)
        shutil.copy(OBJECT, package / OBJECT.name)
        told("strip", "--strip-unneeded", str(package / OBJECT.name))
        shutil.copy(ROOT / "LICENSE-MIT", folder)
        (folder / "README.md").write_text(README)
        (folder / "setup.py").write_text(SETUP.format(tag=tag_of(known.needed)))
        (folder / "pyproject.toml").write_text(PROJECT.format(version=known.version))
        log = subprocess.run(
            [python(), "setup.py", "--quiet", "bdist_wheel", "--dist-dir", str(out)],
            cwd=folder,
            env=known.environment,
            stdout=subprocess.PIPE,
            stderr=subprocess.STDOUT,
            text=True,
            check=False,
        )
    if log.returncode:
        raise SystemExit(log.stdout)
