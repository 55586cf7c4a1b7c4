"""The structs and functions of include/tyngyrlak.h, the words of refusals, the unit constants. Made by python/declare.py; do not edit."""
from ctypes import Structure, c_double, c_int32, c_int64, c_size_t, c_uint8, c_uint32, c_uint64

from ._library import Call
from ._library import Lent as lent, Plain as plain, Whole as whole

REFUSALS = {
    "ANSWERED": 0, "LENGTHS": 1, "TOO_MANY": 2, "RANGE": 3, "NOT_THERE": 4, "ORDER": 5, "CLAIMS": 6, "CELLS": 7, "ROOM": 8, "MALFORMED": 9,
    "AGAIN": 10, "ABSENT": 11, "TYPED": 12, "FULL": 13,
}

# number, place (None: any), words; the first row that fits
WORDS = (
    (1, None, "lengths disagree"),
    (2, None, "too many atoms: 16,384 is the most, 1,024 on a sheet"),
    (3, 1, "a coordinate would drift out of range"),
    (3, None, "a number is out of range, or not finite"),
    (4, None, "a pair, a bond or an angle names an atom that is not there"),
    (5, None, "a table is not strictly ascending"),
    (6, None, "the list claims more than its room"),
    (7, None, "the grid needs more than 32,768 cells"),
    (8, None, "the pairs do not fit"),
    (9, None, "a line of the sheet is malformed"),
    (10, None, "a second header, or an atom number again"),
    (11, 0xffffffff, "the sheet has no header"),
    (11, None, "an atom of the sheet is absent"),
    (12, 0xffffffff, "the sheet can't go back to the first form: its rule is 2"),
    (12, None, "the sheet can't go back to the first form: an atom has a species"),
    (13, None, "a total would pass 2^64 - 1"),
)

# the bits of FORCE_TO_ACCEL, KB_EV_PER_K, KE_COULOMB, EV_PER_A3_TO_GPA
UNITS = "3f83c29c34cf86e0,3f1696fe94e12d2c,402ccc9e55083fa2,406406f7193c1128"


class Done(Structure):
    """Answered (number 0, place 0), or a refusal's number and place."""

    _fields_ = [("number", c_uint64), ("place", c_uint64)]


class Vec3(Structure):
    _fields_ = [("x", c_double), ("y", c_double), ("z", c_double)]


class Lattice(Structure):
    """The three lattice vectors, and which axes are periodic (flags)."""

    _fields_ = [("a", Vec3), ("b", Vec3), ("c", Vec3), ("px", c_uint32), ("py", c_uint32), ("pz", c_uint32)]


class LatticeAnswer(Structure):
    _fields_ = [("done", Done), ("lattice", Lattice)]


class YesNo(Structure):
    """A flag."""

    _fields_ = [("done", Done), ("value", c_uint32)]


class Rows(Structure):
    """Three rows of three floats."""

    _fields_ = [("x", c_double * 3), ("y", c_double * 3), ("z", c_double * 3)]


class RowsAnswer(Structure):
    """Three rows of three floats."""

    _fields_ = [("done", Done), ("rows", Rows)]


class Number(Structure):
    """A float."""

    _fields_ = [("done", Done), ("value", c_double)]


class InverseAnswer(Structure):
    """Whether there is an inverse (a flag), and its rows."""

    _fields_ = [("done", Done), ("found", c_uint32), ("rows", Rows)]


class Vector(Structure):
    """Three floats."""

    _fields_ = [("done", Done), ("value", Vec3)]


class Cell(Structure):
    """No cell (present 0), or a lattice (present not 0)."""

    _fields_ = [("present", c_uint32), ("lattice", Lattice)]


class Image(Structure):
    """The minimum image, and how many boxes it took off on each axis where kind is 0; kind 1: a count that is no int32_t, 2: no inverse, and zeros then."""

    _fields_ = [("diff", Vec3), ("kind", c_uint32), ("x", c_int32), ("y", c_int32), ("z", c_int32)]


class ImageAnswer(Structure):
    _fields_ = [("done", Done), ("image", Image)]


class Sum(Structure):
    """Energy, and the virial row by row. (The Rust's Contribution; its forces are a lent slice, three floats an atom.)"""

    _fields_ = [
        ("energy", c_double), ("xx", c_double), ("xy", c_double), ("xz", c_double), ("yx", c_double), ("yy", c_double), ("yz", c_double),
        ("zx", c_double), ("zy", c_double), ("zz", c_double),
    ]


class Summed(Structure):
    """Energy and virial; the forces stand in what was lent."""

    _fields_ = [("done", Done), ("sum", Sum)]


class Units(Structure):
    """The unit constants, which the caller supplies."""

    _fields_ = [("force_to_accel", c_double), ("kb_ev_per_k", c_double), ("ke_coulomb", c_double), ("ev_per_a3_to_gpa", c_double)]


class State(Structure):
    """The settings of a pair list and what it claims of the lent memory; fallback is a flag. built_in is the cell of its last answered build, not present where there is none. What a call hands back goes into the next one."""

    _fields_ = [
        ("cutoff", c_double), ("skin", c_double), ("pairs", c_uint32), ("references", c_uint32), ("checks", c_uint32), ("fallback", c_uint32),
        ("builds", c_uint32), ("built_in", Cell),
    ]


class StateAnswer(Structure):
    """A new list's state."""

    _fields_ = [("done", Done), ("state", State)]


class Whole(Structure):
    """A whole number."""

    _fields_ = [("done", Done), ("value", c_uint64)]


class Updated(Structure):
    """Whether the list was built anew (a flag), and its state, which comes back in every case."""

    _fields_ = [("done", Done), ("rebuilt", c_uint32), ("state", State)]


class Part(Structure):
    """A part of a lent table, by its first element and its length; 0 and 0 where the call is refused."""

    _fields_ = [("done", Done), ("start", c_size_t), ("length", c_size_t)]


class Frame(Structure):
    """A whole-number frame: its edges, which axes are periodic (flags), and the radius, at most half of each periodic edge."""

    _fields_ = [("ex", c_uint32), ("ey", c_uint32), ("ez", c_uint32), ("px", c_uint32), ("py", c_uint32), ("pz", c_uint32), ("radius", c_uint32)]


class Spot(Structure):
    """An atom's coordinates."""

    _fields_ = [("x", c_uint32), ("y", c_uint32), ("z", c_uint32)]


class Built(Structure):
    """The pairs stored, the distances evaluated, and whether no grid was laid (a flag)."""

    _fields_ = [("done", Done), ("pairs", c_uint32), ("checks", c_uint32), ("fallback", c_uint32)]


class Job(Structure):
    """What a job sheet says beside its coordinates and exclusions; px, py, pz are flags."""

    _fields_ = [
        ("atoms", c_uint32), ("ex", c_uint32), ("ey", c_uint32), ("ez", c_uint32), ("px", c_uint32), ("py", c_uint32), ("pz", c_uint32),
        ("radius", c_uint32), ("count", c_uint32),
    ]


class Sheet(Structure):
    _fields_ = [("done", Done), ("job", Job)]


class Formed(Structure):
    """What a job sheet of either form says; form is that of its header, 1 or 2, rule its mixing rule, 1 or 2."""

    _fields_ = [("done", Done), ("job", Job), ("form", c_uint32), ("rule", c_uint32)]


class Row(Structure):
    """A species' row: the table that it is a part of (0 none, 1 a desk's own, 2 the house's), its epsilon and its sigma; zeros where there is none."""

    _fields_ = [("done", Done), ("table", c_uint32), ("epsilon", c_double), ("sigma", c_double)]


class Lj(Structure):
    """Lennard-Jones numbers; epsilon and sigma are those of a species that the table lacks, shift is a flag, rule mixes sigmas: 1 by the half sum, 2 by the root of the product; another number is out of range (3)."""

    _fields_ = [("epsilon", c_double), ("sigma", c_double), ("cutoff", c_double), ("shift", c_uint32), ("rule", c_uint32)]


class LjAnswer(Structure):
    _fields_ = [("done", Done), ("lj", Lj)]


class Bond(Structure):
    """A force constant, and a length at rest. (The Rust's HarmonicBonds; its tables are lent.)"""

    _fields_ = [("k", c_double), ("r0", c_double)]


class BondAnswer(Structure):
    _fields_ = [("done", Done), ("bond", Bond)]


class LjTerm(Structure):
    """No Lennard-Jones term (present 0), or one (present not 0)."""

    _fields_ = [("present", c_uint32), ("lj", Lj)]


class CoulombTerm(Structure):
    """No Coulomb term (present 0), or one (present not 0)."""

    _fields_ = [("present", c_uint32), ("cutoff", c_double)]


class BondTerm(Structure):
    """No bonds (present 0), or bonds (present not 0)."""

    _fields_ = [("present", c_uint32), ("bond", Bond)]


class Angle(Structure):
    """A force constant, and a cosine at rest."""

    _fields_ = [("k", c_double), ("rest", c_double)]


class AngleTerm(Structure):
    """No angles (present 0), or angles (present not 0)."""

    _fields_ = [("present", c_uint32), ("angle", Angle)]


class Setting(Structure):
    """What an evaluation goes by besides its tables: the terms, the units, and the cell."""

    _fields_ = [("lj", LjTerm), ("coulomb", CoulombTerm), ("bond", BondTerm), ("angle", AngleTerm), ("units", Units), ("cell", Cell)]


class Evaluated(Structure):
    """Whether the list was built anew (a flag), its state, which comes back in every case, and energy and virial; the forces stand in what was lent."""

    _fields_ = [("done", Done), ("rebuilt", c_uint32), ("state", State), ("sum", Sum)]


class AngleAnswer(Structure):
    _fields_ = [("done", Done), ("angle", Angle)]


class Thermostat(Structure):
    """No thermostat (present 0), or Berendsen's (present not 0)."""

    _fields_ = [("present", c_uint32), ("target_k", c_double), ("tau_fs", c_double)]


class Pace(Structure):
    """How a step goes on in time."""

    _fields_ = [("dt", c_double), ("thermostat", Thermostat)]


class Stepped(Structure):
    """Whether a 7 or 8 stopped the step after the drift and whether the list was built anew (flags); the list's state and the potential, which come back in every case."""

    _fields_ = [("done", Done), ("stopped", c_uint32), ("rebuilt", c_uint32), ("state", State), ("potential", c_double)]


class FireOptions(Structure):
    """How a box is settled: most iterations (at most 100,000), the force tolerance on the largest component, the first time step and the largest."""

    _fields_ = [("max_iters", c_uint32), ("force_tol", c_double), ("dt", c_double), ("dt_max", c_double)]


class Fired(Structure):
    """The iterations, or the one that was refused; whether a 7 or 8 stopped it after a drift and whether the tolerance was reached (flags); energy and largest force component of the last evaluation that was answered, zero where there was none; the list's state, which comes back in every case."""

    _fields_ = [
        ("done", Done), ("iteration", c_uint32), ("stopped", c_uint32), ("converged", c_uint32), ("energy", c_double), ("max_force", c_double),
        ("state", State),
    ]


class Left(Structure):
    """How many rows of each table are left; lengths and ks are the Rust's per_bond and per_bond_k."""

    _fields_ = [
        ("atoms", c_size_t), ("bonds", c_size_t), ("lengths", c_size_t), ("ks", c_size_t), ("angles", c_size_t), ("per_angle", c_size_t),
        ("exclusions", c_size_t),
    ]


class Struck(Structure):
    """How many rows of each table are left, zeros where refused; and the list's state, which comes back in every case."""

    _fields_ = [("done", Done), ("left", Left), ("state", State)]


class NewAtom(Structure):
    """One atom with all its numbers."""

    _fields_ = [("position", Vec3), ("velocity", Vec3), ("mass", c_double), ("charge", c_double), ("species", c_uint32)]


class Entered(Structure):
    """How many atoms there are now; and the list's state, which comes back in every case."""

    _fields_ = [("done", Done), ("count", c_uint32), ("state", State)]


tyn_root = Call("tyn_root", c_double, (plain("x", c_double),), "The square root of x, rounded to nearest; of a number below 0 not a number.")

tyn_floor = Call("tyn_floor", c_double, (plain("x", c_double),), "The largest whole number that is at most x.")

tyn_trunc = Call("tyn_trunc", c_double, (plain("x", c_double),), "x without its fraction.")

tyn_round = Call("tyn_round", c_double, (plain("x", c_double),), "The nearest whole number, a half away from zero.")

tyn_rem_euclid = Call("tyn_rem_euclid", c_double, (
    plain("x", c_double), plain("y", c_double),
), "Rust's rem_euclid: the rest of x by y that is not below 0.")

tyn_abs = Call("tyn_abs", c_double, (plain("x", c_double),), "The magnitude of x.")

tyn_min = Call("tyn_min", c_double, (
    plain("x", c_double), plain("y", c_double),
), "The smaller one, passing over a not-a-number; of two zeros the negative one.")

tyn_max = Call("tyn_max", c_double, (
    plain("x", c_double), plain("y", c_double),
), "The larger one, passing over a not-a-number; of two zeros the positive one.")

tyn_clamp = Call("tyn_clamp", c_double, (
    plain("x", c_double), plain("lo", c_double), plain("hi", c_double),
), "lo where x < lo, else x; then hi where that is above hi.")

tyn_to_i64 = Call("tyn_to_i64", c_int64, (plain("x", c_double),), "Rust's as i64: a not-a-number gives 0, too large the type's end.")

tyn_to_u64 = Call("tyn_to_u64", c_uint64, (plain("x", c_double),), "Rust's as u64: a not-a-number gives 0, too large the type's end.")

tyn_of_bits = Call("tyn_of_bits", c_double, (whole("w", c_uint64),), "The float of 64 bits; any pattern of a not-a-number is the one.")

tyn_to_bits = Call("tyn_to_bits", c_uint64, (plain("x", c_double),), "The 64 bits of a float; a not-a-number is 7ff8000000000000.")

tyn_orthorhombic = Call("tyn_orthorhombic", LatticeAnswer, (
    plain("lx", c_double), plain("ly", c_double), plain("lz", c_double),
), "The lattice of a box with edges lx, ly, lz along the axes, periodic on all three. Refusal 3.")

tyn_cubic = Call("tyn_cubic", LatticeAnswer, (plain("l", c_double),), "The lattice of a cube with edge l, periodic on all three axes. Refusal 3.")

tyn_is_orthorhombic = Call("tyn_is_orthorhombic", YesNo, (
    plain("lattice", Lattice),
), "Whether the off-diagonal magnitudes sum to less than 1e-9. Refusal 3.")

tyn_matrix = Call("tyn_matrix", RowsAnswer, (plain("lattice", Lattice),), "The lattice vectors as the columns of three rows. Refusal 3.")

tyn_volume = Call("tyn_volume", Number, (plain("lattice", Lattice),), "The volume. Refusal 3.")

tyn_inverse = Call("tyn_inverse", InverseAnswer, (plain("lattice", Lattice),), "The inverse of the matrix, if there is one. Refusal 3.")

tyn_to_fractional = Call("tyn_to_fractional", Vector, (plain("lattice", Lattice), plain("r", Vec3)), "Fractional coordinates of r. Refusal 3.")

tyn_to_cartesian = Call("tyn_to_cartesian", Vector, (plain("lattice", Lattice), plain("s", Vec3)), "Cartesian coordinates of s. Refusal 3.")

tyn_wrap = Call("tyn_wrap", Vector, (plain("lattice", Lattice), plain("r", Vec3)), "r folded into the cell on its periodic axes. Refusal 3.")

tyn_perp_widths = Call("tyn_perp_widths", Vector, (plain("lattice", Lattice),), "The widths between opposite faces. Refusal 3.")

tyn_min_image = Call("tyn_min_image", ImageAnswer, (plain("d", Vec3), plain("cell", Cell)), "The minimum image of the difference d. Refusal 3.")

tyn_zeros = Call("tyn_zeros", Summed, (lent("forces", "float64", True),), "A sum of zeros, the forces all +0. Refusals 1, 2.")

tyn_merge = Call("tyn_merge", Summed, (
    plain("sum", Sum), lent("forces", "float64", True), plain("other", Sum), lent("added", "float64", False),
), "The sum and the forces with the other ones added; added are the forces of other. Refusals 1, 2, 3.")

tyn_add_pair_force = Call("tyn_add_pair_force", Summed, (
    plain("sum", Sum), lent("forces", "float64", True), whole("i", c_uint32), whole("j", c_uint32), plain("d", Vec3), plain("f", Vec3),
), "The sum with the pair added: f on atom i and -f on atom j, d apart. Refusals 1, 2, 3, 4.")

tyn_virial_from_pair = Call("tyn_virial_from_pair", RowsAnswer, (
    plain("virial", Rows), plain("d", Vec3), plain("f", Vec3),
), "The virial with the pair added. Refusal 3.")

tyn_scalar_virial = Call("tyn_scalar_virial", Number, (plain("virial", Rows),), "The trace of the virial. Refusal 3.")

tyn_pressure = Call("tyn_pressure", Number, (
    plain("kinetic", c_double), plain("scalar", c_double), plain("volume", c_double),
), "The pressure of a kinetic energy and a scalar virial in a volume. Refusal 3.")

tyn_pressure_tensor = Call("tyn_pressure_tensor", RowsAnswer, (
    plain("units", Units), plain("volume", c_double), plain("virial", Rows), lent("velocities", "float64", False), lent("masses", "float64", False),
), "The pressure tensor. Refusals 1, 2, 3.")

tyn_to_gpa = Call("tyn_to_gpa", Number, (plain("units", Units), plain("pressure", c_double)), "A pressure in gigapascal. Refusal 3.")

tyn_new = Call("tyn_new", StateAnswer, (
    plain("cutoff", c_double), plain("skin", c_double),
), "A list with the given cutoff and skin: no pairs, references, checks, fallback, builds, and no cell that it was built in. Refusal 3.")

tyn_search_radius = Call("tyn_search_radius", Number, (plain("s", State),), "The search radius, cutoff + skin. Refusal 3.")

tyn_builds_since = Call("tyn_builds_since", c_uint32, (
    plain("s", State), whole("earlier", c_uint32),
), "How many builds there were since an earlier reading of the counter, which comes round to zero after 2^32 - 1. The rest of the state is not looked at; no refusal.")

tyn_exclude = Call("tyn_exclude", Whole, (
    whole("count", c_uint32), whole("i", c_uint32), whole("j", c_uint32), lent("table", "uint32", True),
), "One more pair of atoms in the first count rows of an exclusion table; the value is the new count. Refusals 1, 5, 8.")

tyn_set_exclusions = Call("tyn_set_exclusions", Whole, (
    lent("raw", "uint32", False), lent("table", "uint32", True),
), "The exclusion table of the raw pairs; the value is the count of its rows. Refusals 1, 8.")

tyn_needs_rebuild = Call("tyn_needs_rebuild", YesNo, (
    plain("s", State), plain("cell", Cell), lent("positions", "float64", False), lent("references", "float64", False),
), "Whether the list must be built anew for these positions. Refusals 1, 2, 6, 3.")

tyn_build = Call("tyn_build", Updated, (
    plain("s", State), plain("cell", Cell), lent("positions", "float64", False), lent("exclusions", "uint32", False), lent("pairs", "uint32", True),
    lent("references", "float64", True), lent("starts", "uint32", True), lent("items", "uint32", True),
), "The list built anew. Refusals 1, 2, 6, 3, 5, 7, 8.")

tyn_maybe_build = Call("tyn_maybe_build", Updated, (
    plain("s", State), plain("cell", Cell), lent("positions", "float64", False), lent("exclusions", "uint32", False), lent("pairs", "uint32", True),
    lent("references", "float64", True), lent("starts", "uint32", True), lent("items", "uint32", True),
), "The list built anew where it must be. Refusals 1, 2, 6, 3, 4, 5, 7, 8.")

tyn_outdated = Call("tyn_outdated", YesNo, (
    plain("s", State), plain("cell", Cell), lent("positions", "float64", False), lent("references", "float64", False),
), "Whether the list must be built anew for these positions in this cell: as tyn_needs_rebuild says, or the cell differs from the one that it was built in, in a bit of its nine numbers, in a flag, or in being present. Refusals 1, 2, 6, 3.")

tyn_listed = Call("tyn_listed", Part, (
    plain("s", State), lent("pairs", "uint32", False),
), "The listed pairs: the part of the lent pairs that the state counts. Refusal 6.")

tyn_excluded_rows = Call("tyn_excluded_rows", Part, (
    whole("count", c_uint32), lent("table", "uint32", False),
), "The excluded pairs: the first count rows of an exclusion table. Refusal 1.")

tyn_atoms_in = Call("tyn_atoms_in", Part, (
    whole("cell", c_size_t), lent("starts", "uint32", False), lent("items", "uint32", False),
), "The atoms of a grid cell: the part of items between two starts. Refusal 1.")

tyn_squared_distance = Call("tyn_squared_distance", Whole, (
    plain("f", Frame), plain("p", Spot), plain("q", Spot),
), "The exact squared distance of the nearest images of two atoms. Refusal 3.")

tyn_frame_build = Call("tyn_frame_build", Built, (
    plain("f", Frame), lent("coordinates", "uint32", False), lent("exclusions", "uint32", False), lent("pairs", "uint32", True),
    lent("starts", "uint32", True), lent("items", "uint32", True),
), "The pairs within the radius that the exclusion table leaves. Refusals 1, 2, 3, 5, 7, 8.")

tyn_read = Call("tyn_read", Sheet, (
    lent("input", "uint8", False), lent("coordinates", "uint32", True), lent("exclusions", "uint32", True),
), "A job sheet: its numbers, with the coordinates (at least 3072 lent) and the exclusions (at least 2048 lent) in what is lent. Refusals 1, 9, 10, 8, 11, 2, 4.")

tyn_solve = Call("tyn_solve", Whole, (
    lent("input", "uint8", False), lent("out", "uint8", True),
), "The printed answer of a job sheet at the front of out (at least 90133 bytes); the value is its length. Refusal 1.")

tyn_within_skin = Call("tyn_within_skin", YesNo, (
    plain("f", Frame), whole("skin", c_uint32), lent("old", "uint32", False), lent("moved", "uint32", False),
), "Whether each atom has moved, by nearest image, so that four times its squared displacement is at most the squared skin: then a list that was built over the old coordinates with the radius cutoff + skin has every pair of the moved ones that is within the cutoff. f.radius is the cutoff. Refusals 1, 2, 3.")

tyn_add_shells = Call("tyn_add_shells", Built, (
    plain("f", Frame), lent("coordinates", "uint32", False), lent("exclusions", "uint32", False), whole("width", c_uint64),
    lent("totals", "uint64", True), lent("pairs", "uint32", True), lent("starts", "uint32", True), lent("items", "uint32", True),
), "The pairs of tyn_frame_build, each added to the total of its shell: its squared distance divided by width, the last shell open upward. Refusals 1, 2, 3 (also a width of 0 or no totals), 5, 7, 8, 13 (a total would pass 2^64 - 1: the totals are as they came, the list is there).")

tyn_label = Call("tyn_label", Whole, (
    whole("count", c_uint32), lent("pairs", "uint32", False), lent("labels", "uint32", True),
), "Labels of count atoms by a list of pairs: the lowest atom that a chain of pairs reaches; the value is how many clumps. Refusals 1, 2, 4.")

tyn_solve_clumps = Call("tyn_solve_clumps", Whole, (
    lent("input", "uint8", False), lent("out", "uint8", True),
), "The printed clumps of a job sheet at the front of out (at least 11264 bytes); the value is their length. Refusal 1.")

tyn_write = Call("tyn_write", Whole, (
    plain("f", Frame), lent("coordinates", "uint32", False), lent("exclusions", "uint32", False), lent("out", "uint8", True),
), "The written form of a frame, its atoms and its exclusions at the front of out (43049 bytes are always enough); the value is its length. Refusals 1, 2, 3, 5, 8.")

tyn_rewrite = Call("tyn_rewrite", Whole, (
    lent("input", "uint8", False), lent("out", "uint8", True),
), "The written form of a job sheet, or the line of its refusal, at the front of out (at least 43049 bytes); the value is its length. Refusal 1.")

tyn_read_either = Call("tyn_read_either", Formed, (
    lent("input", "uint8", False), lent("coordinates", "uint32", True), lent("species", "uint32", True), lent("exclusions", "uint32", True),
), "A job sheet of either form: as tyn_read, with a species for each atom (at least 1024 lent), 0 on a sheet of the first form, and with its rule, 1 there and where a header doesn't say one. Refusals 1, 9, 10, 8, 11, 2, 4.")

tyn_to_two = Call("tyn_to_two", Whole, (
    lent("input", "uint8", False), lent("out", "uint8", True),
), "A job sheet of the first form in the second, rule 1, each species 0, at the front of out (51243 bytes are always enough); the value is its length. Refusals: those of tyn_read, then 3, 8.")

tyn_to_one = Call("tyn_to_one", Whole, (
    lent("input", "uint8", False), lent("out", "uint8", True),
), "A job sheet of the second form in the first, at the front of out (43049 bytes are always enough); the value is its length. Refusals: those of tyn_read, then 12 (the place is 0xffffffff where the rule is 2, else the lowest atom whose species is not 0), then 3, 8.")

tyn_solve_either = Call("tyn_solve_either", Whole, (
    lent("input", "uint8", False), lent("out", "uint8", True),
), "As tyn_solve, of a job sheet of either form. Refusal 1.")

tyn_species_row = Call("tyn_species_row", Row, (
    lent("own_ids", "uint32", False), lent("own_params", "float64", False), lent("ids", "uint32", False), lent("params", "float64", False),
    whole("species", c_uint32),
), "The row of a species: of the desk's own table where that has it, else of the house's, else none. Refusals 1, 3, 5 of both tables (5, place 1, for the house's ids).")

tyn_monatomic = Call("tyn_monatomic", LjAnswer, (
    plain("epsilon", c_double), plain("sigma", c_double), plain("cutoff", c_double),
), "Lennard-Jones numbers of a single species, shifted. Refusal 3.")

tyn_argon = Call("tyn_argon", Lj, (), "Lennard-Jones numbers of argon. No refusal.")

tyn_uniform = Call("tyn_uniform", BondAnswer, (plain("k", c_double), plain("r0", c_double)), "Bond numbers, the same for each bond. Refusal 3.")

tyn_lj_pairs = Call("tyn_lj_pairs", Summed, (
    plain("lj", Lj), plain("cell", Cell), lent("own_ids", "uint32", False), lent("own_params", "float64", False), lent("ids", "uint32", False),
    lent("params", "float64", False), lent("species", "uint32", False), lent("positions", "float64", False), lent("pairs", "uint32", False),
    lent("forces", "float64", True),
), "Lennard-Jones over the listed pairs: forces overwritten, from zero. own_ids and ids are the species that own_params and params have epsilon and sigma of, a desk's own table and the house's; a species' row is the own one where there is one. species is an id an atom. Refusals 1, 2, 3, 4, 5 (place 1 for the house's ids).")

tyn_lj_all = Call("tyn_lj_all", Summed, (
    plain("lj", Lj), plain("cell", Cell), lent("own_ids", "uint32", False), lent("own_params", "float64", False), lent("ids", "uint32", False),
    lent("params", "float64", False), lent("species", "uint32", False), lent("positions", "float64", False), lent("forces", "float64", True),
), "Lennard-Jones over every pair, i, then j, rising. Refusals 1, 2, 3, 5.")

tyn_coulomb_pairs = Call("tyn_coulomb_pairs", Summed, (
    plain("units", Units), plain("cutoff", c_double), plain("cell", Cell), lent("charges", "float64", False), lent("positions", "float64", False),
    lent("pairs", "uint32", False), lent("forces", "float64", True),
), "Coulomb over the listed pairs: forces overwritten, from zero. Refusals 1, 2, 3, 4.")

tyn_coulomb_all = Call("tyn_coulomb_all", Summed, (
    plain("units", Units), plain("cutoff", c_double), plain("cell", Cell), lent("charges", "float64", False), lent("positions", "float64", False),
    lent("forces", "float64", True),
), "Coulomb over every pair, i, then j, rising. Refusals 1, 2, 3.")

tyn_bonds_all = Call("tyn_bonds_all", Summed, (
    plain("bond", Bond), plain("cell", Cell), lent("bonds", "uint32", False), lent("lengths", "float64", False), lent("ks", "float64", False),
    lent("positions", "float64", False), lent("forces", "float64", True),
), "Harmonic bonds, two atoms a row: forces overwritten, from zero. A bond past the end of lengths or ks takes bond's own number. Refusals 1, 2, 3, 4.")

tyn_evaluate = Call("tyn_evaluate", Evaluated, (
    plain("setting", Setting), plain("s", State), lent("own_ids", "uint32", False), lent("own_params", "float64", False),
    lent("ids", "uint32", False), lent("params", "float64", False), lent("species", "uint32", False), lent("charges", "float64", False),
    lent("bonds", "uint32", False), lent("lengths", "float64", False), lent("ks", "float64", False), lent("angles", "uint32", False),
    lent("per_angle", "float64", False), lent("positions", "float64", False), lent("exclusions", "uint32", False), lent("pairs", "uint32", True),
    lent("references", "float64", True), lent("starts", "uint32", True), lent("items", "uint32", True), lent("forces", "float64", True),
), "The list brought up to date, then each present term, Lennard-Jones, Coulomb, bonds, angles, merged in this order into zero. Refusals 1, 2, 6, 3, 4, 5, 7, 8.")

tyn_uniform_angles = Call("tyn_uniform_angles", AngleAnswer, (
    plain("k", c_double), plain("rest", c_double),
), "Angle numbers, the same for each angle. Refusal 3.")

tyn_angles_all = Call("tyn_angles_all", Summed, (
    plain("angle", Angle), plain("cell", Cell), lent("angles", "uint32", False), lent("per_angle", "float64", False),
    lent("positions", "float64", False), lent("forces", "float64", True),
), "Cosine angles, three atoms a row, the apex second: forces overwritten, from zero. An angle past the end of per_angle, which has k and rest cosine a row, takes angle's own numbers. Refusals 1, 2, 3, 4.")

tyn_kinetic_energy = Call("tyn_kinetic_energy", Number, (
    plain("units", Units), lent("velocities", "float64", False), lent("masses", "float64", False),
), "The kinetic energy; velocities are three floats a mass. Refusals 1, 2, 3.")

tyn_temperature = Call("tyn_temperature", Number, (
    plain("units", Units), plain("dof", c_double), lent("velocities", "float64", False), lent("masses", "float64", False),
), "The temperature by dof degrees of freedom. Refusals 1, 2, 3.")

tyn_berendsen = Call("tyn_berendsen", Done, (
    plain("units", Units), plain("dt", c_double), plain("target_k", c_double), plain("tau_fs", c_double), lent("masses", "float64", False),
    lent("velocities", "float64", True),
), "The velocities rescaled by Berendsen's thermostat. Refusals 1, 2, 3.")

tyn_step = Call("tyn_step", Stepped, (
    plain("setting", Setting), plain("pace", Pace), plain("s", State), plain("potential", c_double), lent("own_ids", "uint32", False),
    lent("own_params", "float64", False), lent("ids", "uint32", False), lent("params", "float64", False), lent("species", "uint32", False),
    lent("charges", "float64", False), lent("bonds", "uint32", False), lent("lengths", "float64", False), lent("ks", "float64", False),
    lent("angles", "uint32", False), lent("per_angle", "float64", False), lent("masses", "float64", False), lent("exclusions", "uint32", False),
    lent("positions", "float64", True), lent("velocities", "float64", True), lent("pairs", "uint32", True), lent("references", "float64", True),
    lent("starts", "uint32", True), lent("items", "uint32", True), lent("forces", "float64", True),
), "One step of velocity Verlet: half a kick and the drift, the evaluation, half a kick, the thermostat. forces and potential are those at the positions. Where a 7 or 8 stopped it after the drift (stopped is 1), positions and velocities are drifted, forces and potential old: call tyn_finish with more room. Refusals 1, 2, 6, 3, 4, 5, the drift (3, place 1), 7, 8.")

tyn_finish = Call("tyn_finish", Stepped, (
    plain("setting", Setting), plain("pace", Pace), plain("s", State), plain("potential", c_double), lent("own_ids", "uint32", False),
    lent("own_params", "float64", False), lent("ids", "uint32", False), lent("params", "float64", False), lent("species", "uint32", False),
    lent("charges", "float64", False), lent("bonds", "uint32", False), lent("lengths", "float64", False), lent("ks", "float64", False),
    lent("angles", "uint32", False), lent("per_angle", "float64", False), lent("masses", "float64", False), lent("exclusions", "uint32", False),
    lent("positions", "float64", False), lent("velocities", "float64", True), lent("pairs", "uint32", True), lent("references", "float64", True),
    lent("starts", "uint32", True), lent("items", "uint32", True), lent("forces", "float64", True),
), "The rest of a step that a 7 or 8 stopped: the evaluation, the second half kick, the thermostat. Velocities to 2^500. Refusals 1, 2, 6, 3, 4, 5, 7, 8.")

tyn_fire = Call("tyn_fire", Fired, (
    plain("o", FireOptions), plain("setting", Setting), plain("s", State), lent("own_ids", "uint32", False), lent("own_params", "float64", False),
    lent("ids", "uint32", False), lent("params", "float64", False), lent("species", "uint32", False), lent("charges", "float64", False),
    lent("bonds", "uint32", False), lent("lengths", "float64", False), lent("ks", "float64", False), lent("angles", "uint32", False),
    lent("per_angle", "float64", False), lent("masses", "float64", False), lent("exclusions", "uint32", False), lent("positions", "float64", True),
    lent("velocities", "float64", True), lent("pairs", "uint32", True), lent("references", "float64", True), lent("starts", "uint32", True),
    lent("items", "uint32", True), lent("forces", "float64", True),
), "Relaxes the positions to a local minimum of the energy by damped steps: the first evaluation, the atoms at rest, then iterations until the largest force component is within the tolerance or the limit is reached. forces is a room. A refusal inside an iteration tells it and leaves what a step stopped there leaves. Refusals 1, 2, 6, 3, 4, 5, then 7, 8, in an iteration also the drift (3, place 1).")

tyn_strike = Call("tyn_strike", Struck, (
    lent("marks", "uint32", False), plain("s", State), lent("positions", "float64", True), lent("velocities", "float64", True),
    lent("masses", "float64", True), lent("charges", "float64", True), lent("species", "uint32", True), lent("bonds", "uint32", True),
    lent("lengths", "float64", True), lent("ks", "float64", True), lent("angles", "uint32", True), lent("per_angle", "float64", True),
    lent("exclusions", "uint32", True),
), "Strike the atoms whose mark is 1 (0 keeps one), with every bond, angle and exclusion that names one and the rows of lengths, ks and per_angle beside them; an exclusion that names no atom and rows past the last bond or angle go too. In place: survivors in their old order at the front, past the new counts everything as it came. The state has no pairs and no references then. Refusals 1, 2, 3 (a mark), 4 (a bond, then an angle), 5; nothing is moved then.")

tyn_put = Call("tyn_put", Entered, (
    whole("count", c_uint32), plain("new", NewAtom), plain("s", State), lent("positions", "float64", True), lent("velocities", "float64", True),
    lent("masses", "float64", True), lent("charges", "float64", True), lent("species", "uint32", True),
), "One atom more after the first count, with all its numbers. The state has no pairs and no references then. Refusals 1 (also where the room is full), 2, 3; nothing is stored then.")
