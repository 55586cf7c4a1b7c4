"""Tables of whole numbers and floats that are copied when an object is made, and answers as arrays."""
import numpy as np

from . import _raw

#: The most cells of a grid, and one more start than cells.
STARTS = 32_768 + 1


def rows(name, given, width):
    """Rows of so many atom numbers (a list of tuples, or an array of whole numbers) as a flat table of uint32."""
    a = np.asarray(given)
    if a.size == 0:
        return np.zeros(0, np.uint32)
    if a.dtype.kind not in "iu":
        raise TypeError("%s are rows of %d whole numbers; these are of type %s" % (name, width, a.dtype))
    if a.ndim != 2 or a.shape[1] != width:
        raise TypeError("%s are rows of %d whole numbers; these have the shape %s" % (name, width, a.shape))
    if a.min() < 0 or a.max() >= 1 << 32:
        raise ValueError("%s: an atom number is 0 to 2^32 - 1; there is %d" % (name, a.min() if a.min() < 0 else a.max()))
    return np.array(a, dtype=np.uint32).reshape(-1)


def numbers(name, given):
    """Whole numbers, one an atom, as a table of uint32 of its own."""
    return rows(name, np.reshape(given, (-1, 1)), 1)


def floats(name, given, width=1):
    """Floats, so many a row, as a flat table of its own."""
    a = np.array(given, dtype=np.float64)
    if a.size and (a.shape[-1] != width if width > 1 else a.ndim != 1):
        raise TypeError("%s: %s wanted; this has the shape %s" % (name, "one float each is" if width == 1 else "rows of %d floats are" % width, a.shape))
    return a.reshape(-1)


def listed(a):
    """A read-only view."""
    v = a.view()
    v.flags.writeable = False
    return v


def vec3(v):
    x, y, z = v
    return _raw.Vec3(x, y, z)


def three(v):
    return np.array((v.x, v.y, v.z))


def flat_rows(m):
    r = _raw.Rows()
    (r.x[0], r.x[1], r.x[2]), (r.y[0], r.y[1], r.y[2]), (r.z[0], r.z[1], r.z[2]) = np.asarray(m, dtype=np.float64).tolist()
    return r


def square(r):
    return np.array((r.x[:], r.y[:], r.z[:]))


def atoms(positions):
    """How many atoms an array of three floats each has. (What type it has is seen where it is lent.)"""
    shape = getattr(positions, "shape", None)
    if shape is None or len(shape) != 2 or shape[1] != 3:
        what = "a %s" % type(positions).__name__ if shape is None else "of shape %s" % (shape,)
        raise TypeError("positions, velocities and forces are numpy arrays of float64 with the shape (atoms, 3); this is %s" % what)
    return shape[0]
