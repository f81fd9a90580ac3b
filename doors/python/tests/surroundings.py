"""What the tests find: the package, the program, the examples."""

import os
import pathlib
import subprocess
import sys
import warnings

PACKAGE = pathlib.Path(__file__).resolve().parent.parent
ROOT = PACKAGE.parent.parent
PROGRAM = pathlib.Path(os.environ.get("I_OVERLAY_MESH_PROGRAM", ROOT / "crates/mesh_run/out/mesh_run"))
COUNTRY = PACKAGE / "examples/south_africa.geojson"

SLIVER = [
    [-253668, 994080],
    [-537283, 2004779],
    [-537751, 2004563],
    [-538416, 2004132],
    [-561008, 2047212],
    [-561818, 2047551],
    [-562788, 2047957],
]
"""A ring whose outline by 50,000 with bevels has a hole half a grid unit wide: the smallest that is known."""

IS_QUICK = os.environ.get("I_OVERLAY_MESH_QUICK") == "1"
"""Whether fewer random drawings are tried."""

# That a library is not proved is told once, by the test of that.
warnings.filterwarnings("ignore", ".*built before its proof")
os.environ["PYTHONWARNINGS"] = "ignore::UserWarning"

sys.path.insert(0, str(PACKAGE))
sys.path.insert(0, str(ROOT / "bench"))

from i_overlay_mesh import arrays  # noqa: E402


def program_line(request):
    """What the program writes for a request."""
    run = subprocess.run([PROGRAM], input=request, stdout=subprocess.PIPE, stderr=subprocess.DEVNULL, check=False)
    return run.stdout


def nested(told):
    """Shapes that the library told, as lists of contours, these of points."""
    numbers = told.points.tolist()
    pairs = [list(pair) for pair in zip(numbers[::2], numbers[1::2])]
    return arrays.split(arrays.split(pairs, told.contour_ends), told.shape_ends)


try:
    import shapely.geometry
    import shapely.validation
except ImportError:
    shapely = None

try:
    import numpy
except ImportError:
    numpy = None
