"""Job sheets: what is printed for one, and the written form of a whole-number frame and of a sheet that was typed by hand; sheets of the second form, whose
atoms have a species and whose header can name the mixing rule (docs/SHEET.md has the lines)."""
import numpy as np

from . import _raw
from ._tables import rows
from .error import answered

#: The longest written form: a header, 1,024 atoms and 1,024 exclusions.
_LONGEST = 43_049
#: The same in the second form.
_LONGEST_TWO = 51_243
#: The longest printed answer.
_PRINTED = 90_133


def write(frame, atoms, exclusions=()):
    """The sheet of a frame in its one written form, as bytes: header, atoms by number, exclusions by low, then high number. Refused are more than 1,024 atoms
    (2), a number out of range (3), and exclusions that are not low before high and strictly ascending, more than 1,024, or above ffff (5)."""
    out = np.zeros(_LONGEST, np.uint8)
    r = _raw.tyn_write(frame.flat(), atoms, rows("exclusions", list(exclusions), 2), out)
    return out[: answered(_raw.tyn_write, r).value].tobytes()


def rewrite(sheet):
    """The written form of a sheet, or the line of its refusal (`8f`, number, place), as the program `rewrite` prints it. Two sheets have equal meaning exactly
    when their written forms are the same bytes."""
    return printed(_raw.tyn_rewrite, sheet, _LONGEST)


def solve(sheet):
    """The pair list of a sheet, or the line of its refusal, as the program `pairs` prints it."""
    return printed(_raw.tyn_solve, sheet, _PRINTED)


def pairs(sheet):
    """The pair list of a sheet of either form, or the line of its refusal, as the program `pairs_either` prints it; species and rule don't enter it."""
    return printed(_raw.tyn_solve_either, sheet, _PRINTED)


def to_two(sheet):
    """A sheet of the first form in the second, as it is written, rule 1, each species 0. Refusals as Snapshot.from_sheet, then 3."""
    return printed(_raw.tyn_to_two, sheet, _LONGEST_TWO)


def to_one(sheet):
    """A sheet of the second form in the first, as it is written. Refusals as Snapshot.from_sheet; then 12, at the place 0xffffffff where the rule is 2,
    else at the lowest atom that has a species; then 3. to_one(to_two(s)) is rewrite(s)."""
    return printed(_raw.tyn_to_one, sheet, _LONGEST)


def given(sheet):
    """A sheet as the library is lent it."""
    if not isinstance(sheet, (bytes, bytearray, memoryview)):
        raise TypeError("a sheet is bytes; this is a %s" % type(sheet).__name__)
    return np.frombuffer(sheet, np.uint8)


def printed(call, sheet, room):
    """What a call prints for a sheet, as bytes."""
    out = np.zeros(room, np.uint8)
    r = call(given(sheet), out)
    return out[: answered(call, r).value].tobytes()
