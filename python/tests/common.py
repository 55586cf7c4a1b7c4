"""The package beside this folder, fixed random systems, and plain Python to compare with."""
import os
import sys
import unittest

ROOT = os.path.dirname(os.path.dirname(os.path.dirname(os.path.abspath(__file__))))
sys.path.insert(0, os.path.join(ROOT, "python"))

import numpy as np  # noqa: E402

import tyngyrlak  # noqa: E402
from tyngyrlak import _library  # noqa: E402


def say(line):
    print("\n" + line, file=sys.stderr, flush=True)


def want_library():
    """Skips a module's tests, with one line, where there is no shared object."""
    if not os.path.isfile(_library.path()):
        say("skipped: there is no %s; `sh python/shared.sh` makes it" % _library.path())
        raise unittest.SkipTest("no libtyngyrlak.so")


def liquid(n, edge, shaken=0.2):
    """Atoms on a shaken grid in a box of the given edge, so that no two are close."""
    k = int(np.ceil(round(n ** (1 / 3), 9)))
    places = np.array(list(np.ndindex(k, k, k)))[:n]
    return (places + 0.5 + np.random.default_rng(1).uniform(-shaken, shaken, (n, 3))) * (edge / k)


def refused(test, call, *given, **named):
    """Number and place of the refusal that a call must raise; its words are in its text."""
    with test.assertRaises(tyngyrlak.Error) as caught:
        call(*given, **named)
    e = caught.exception
    test.assertIn("refusal %d, place %d: %s" % (e.number, e.place, e.words), str(e))
    test.assertNotEqual(e.words, "the library refused")
    return e.number, e.place
