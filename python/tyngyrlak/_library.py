"""The shared object, and what stands between a numpy array and a pointer: the one module that hands addresses to C.

The library is found, in this order, as the file that TYNGYRLAK_SO names and as libtyngyrlak.so beside this file, where python/shared.sh puts it. It is
opened at the first call, so that the package can be imported (and its documentation read) without it."""
import ctypes
import operator
import os
import warnings

import numpy as np

_HERE = os.path.dirname(os.path.abspath(__file__))
_opened = None


class NotProved(UserWarning):
    """The library at hand is not the archive that is proved and shipped (x86-64), but its module compiled for this machine: for trying and measuring."""


def path():
    """Where the shared object is looked for."""
    return os.environ.get("TYNGYRLAK_SO") or os.path.join(_HERE, "libtyngyrlak.so")


def library():
    """The shared object, opened once."""
    global _opened
    if _opened is None:
        name = path()
        if not os.path.isfile(name):
            raise ImportError("there is no %s: `sh python/shared.sh` makes it of libfield.a, or TYNGYRLAK_SO names it" % name)
        _opened = ctypes.CDLL(name)
        if not made().startswith("proved"):
            warnings.warn("%s is %s" % (name, made()), NotProved, stacklevel=4)
    return _opened


def made():
    """What the shared object was made of, as python/shared.sh noted it in it; it starts with `proved` where that is the archive of `rt lib` in crates/field."""
    try:
        return ctypes.string_at(ctypes.addressof(ctypes.c_char.in_dll(library(), "tyngyrlak_made"))).decode()
    except ValueError:
        return "not made by python/shared.sh: nobody says of what"


class Lent:
    """A parameter that is a pointer and a length: a numpy array of this type. `writes` where the call writes it."""

    def __init__(self, name, dtype, writes):
        self.name, self.dtype, self.writes = name, np.dtype(dtype), writes

    def taken(self, a):
        """The array's address and its number of elements; a TypeError where it does not fit. Nothing is copied."""
        if type(a) is not np.ndarray and (not isinstance(a, np.ndarray) or isinstance(a, np.ma.MaskedArray)):
            raise TypeError("%s is a %s: %s" % (self.name, type(a).__name__, self.wanted()))
        if a.dtype != self.dtype:
            raise TypeError("%s has numbers of type %s: %s" % (self.name, a.dtype if a.dtype.isnative else a.dtype.str, self.wanted()))
        flags = a.flags
        if not (flags.c_contiguous and flags.aligned):
            raise TypeError("%s is not in C order, side by side and aligned: %s" % (self.name, self.wanted()))
        if self.writes and not flags.writeable:
            raise TypeError("%s is to be written and is read-only: %s" % (self.name, self.wanted()))
        return a.ctypes.data if a.size else _NOTHING, a.size

    def wanted(self):
        if self.writes:
            return "a numpy array of %s in C order is wanted, which can be written (a copy would be lost)" % self.dtype
        return "a numpy array of %s in C order is wanted; np.ascontiguousarray(x, dtype=np.%s) makes one" % (self.dtype, self.dtype)


class Whole:
    """A parameter that is a whole number of so many bits. (ctypes by itself cuts off what does not fit.)"""

    def __init__(self, name, kind):
        self.name, self.kind = name, kind
        bits, signed = 8 * ctypes.sizeof(kind), kind(-1).value < 0
        self.low, self.high = (-(1 << bits - 1), (1 << bits - 1) - 1) if signed else (0, (1 << bits) - 1)

    def taken(self, x):
        n = operator.index(x)
        if not self.low <= n <= self.high:
            raise ValueError("%s is %d: a whole number from %d to %d is wanted" % (self.name, n, self.low, self.high))
        return n


class Plain:
    """A parameter that ctypes tests by itself: a float or a struct."""

    def __init__(self, name, kind):
        self.name, self.kind = name, kind


# what a pointer with length 0 points to: the library wants no NULL
_ROOM = (ctypes.c_uint64 * 2)()
_NOTHING = ctypes.addressof(_ROOM)


class Call:
    """A function of include/tyngyrlak.h, with an array in place of each pointer and length. Arguments go by place or by name. It tests what the header leaves
    to the caller: types, order and alignment of the arrays, and that what is written overlaps with nothing else. An answer is the struct of the header."""

    def __init__(self, name, answer, parameters, words):
        self.name, self.answer, self.parameters, self.__doc__ = name, answer, parameters, words
        self._places = {p.name: at for at, p in enumerate(parameters)}
        self._function = None

    def _open(self):
        f = getattr(library(), self.name)
        f.restype = self.answer
        f.argtypes = [t for p in self.parameters for t in ((ctypes.c_void_p, ctypes.c_size_t) if isinstance(p, Lent) else (p.kind,))]
        self._function = f

    def _ordered(self, given, named):
        places = self._places
        values = dict(zip(places, given))
        for name, value in named.items():
            if name not in places or name in values:
                raise TypeError("%s: %s is given twice, or is none of %s" % (self.name, name, ", ".join(places)))
            values[name] = value
        if len(given) > len(places) or len(values) < len(places):
            raise TypeError("%s takes %s; %d arguments were given" % (self.name, ", ".join(places), len(given) + len(named)))
        return [values[name] for name in places]

    def __call__(self, *given, **named):
        if self._function is None:
            self._open()
        if named or len(given) != len(self.parameters):
            given = self._ordered(given, named)
        handed, spans = [], []
        for p, x in zip(self.parameters, given):
            if type(p) is Lent:
                address, size = p.taken(x)
                handed.append(address)
                handed.append(size)
                if size:
                    spans.append((address, address + size * p.dtype.itemsize, p))
            else:
                handed.append(p.taken(x) if type(p) is Whole else x)
        _apart(spans)
        try:
            return self._function(*handed)
        except ctypes.ArgumentError as e:
            raise TypeError("%s(%s): %s" % (self.name, ", ".join(self._places), e)) from None

    def __repr__(self):
        return "<%s(%s)>" % (self.name, ", ".join(self._places))


def _apart(spans):
    """A ValueError where memory that is written is lent twice."""
    spans.sort(key=operator.itemgetter(0))
    # how far what was seen so far reaches, and what of it is written
    reach, written = (0, None), (0, None)
    for start, end, p in spans:
        far, name = reach if p.writes else written
        if start < far:
            raise ValueError("%s and %s share memory, and one of them is written" % (name, p.name))
        reach = max(reach, (end, p.name))
        if p.writes:
            written = max(written, (end, p.name))
