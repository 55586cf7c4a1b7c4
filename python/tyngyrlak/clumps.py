"""Which atoms hang together by listed pairs."""
from typing import NamedTuple

import numpy as np

from . import _raw
from .error import answered
from .neighbor import pair_rows
from .sheet import printed


class Clumps(NamedTuple):
    """For each atom the lowest atom that a chain of listed pairs reaches from it (two atoms have the same label exactly when a chain joins them), and how many
    atoms are their own label."""

    labels: np.ndarray
    count: int


def clumps(atoms, pairs):
    """The clumps of so many atoms by a list or by pairs, which may be turned round, repeated or of an atom with itself.

    Refused: 2 past 16,384 atoms, 4 where a pair names an atom that is not there, its place the pair's row."""
    labels = np.zeros(atoms, np.uint32)
    return Clumps(labels, label(pair_rows(pairs), labels))


def label(rows, labels):
    """clumps into labels that are lent (uint32, one an atom), pairs as two numbers a row; how many clumps there are. A refusal leaves the labels as they came."""
    return answered(_raw.tyn_label, _raw.tyn_label(len(labels), rows, labels)).value


def sheet_clumps(sheet):
    """What the program `clumps` prints for a job sheet: per clump `83`, its lowest atom and its size, four hexadecimal digits each; or the line of a refused
    sheet, `8f`."""
    return printed(_raw.tyn_solve_clumps, sheet, 11_264).decode()
