"""For ASE: a calculator, and a neighbor list with ASE's arguments and return shape.

>>> from tyngyrlak.ase import neighbor_list           # for: from ase.neighborlist import neighbor_list
>>> from tyngyrlak.ase import LennardJones            # for: from ase.calculators.lj import LennardJones

Which cell the library is handed (`Box`). It has one image a pair, the nearest, and on an open axis of a cell it folds positions all the same, so that a pair
across that face can be missed (docs/DIFFERENCES.md). Both are kept away from ASE's users:

- No axis is periodic: no cell is handed down, whatever atoms.cell says.
- Some axes are: these keep their vectors. Each open axis gets a vector of its own that stands at right angles to all others and is declared periodic, but is so
  long (the extent of the atoms plus the radius, three times the radius at least, twice the extent where there are bonds or angles, and some room to move) that
  nothing reaches across it. Positions are not shifted.
- A periodic width of at most twice the cutoff has more than one image of a pair in reach. The box is then repeated along that axis until it is wide enough, and
  what comes out is that of one copy. All copies together may have 16,384 atoms, the library's most; more is a ValueError."""
import numpy as np
from ase.calculators.calculator import Calculator as _Calculator
from ase.calculators.calculator import all_changes
from ase.data import atomic_numbers
from ase.stress import full_3x3_to_voigt_6_stress

from . import potentials
from .cell import Lattice
from .evaluate import Evaluator, Terms
from .neighbor import NeighborList

#: The most atoms, and the most cells of a grid.
_ATOMS, _CELLS = 16_384, 32_768
#: A radius is taken longer by this part where it decides which image or which bin a pair is in, so that no rounding does.
_SLACK = 1e-9


class Box:
    """The cell that the library is handed for atoms in a cell of ASE's (three rows) with three periodic flags, and what was chosen for it:

    lattice  a Lattice, or None
    radius   the search radius: cutoff and skin, less where the box has no room for the skin, more where the grid would have too many cells
    copies   how often the box is repeated along each axis

    `bonded` where there are terms whose distances are not bounded by the cutoff."""

    def __init__(self, positions, cell, pbc, cutoff, skin=0.0, bonded=False):
        self.pbc, self.rows = tuple(bool(p) for p in pbc), np.array(cell, dtype=np.float64)
        self.cutoff, self.bonded = float(cutoff), bonded
        periodic = self.rows[list(self.pbc)]
        if not 0 <= self.cutoff < np.inf:
            raise ValueError("a cutoff is a finite number, 0 or above; this is %g" % self.cutoff)
        if len(periodic) and np.linalg.matrix_rank(periodic) < len(periodic):
            raise ValueError("the cell's periodic vectors do not span so many directions: %s with pbc %s" % (self.rows.tolist(), list(self.pbc)))
        self._across = _across(self.rows, self.pbc)
        self._widths = np.array([_width(self.rows, self._across, self.pbc, k) if p else np.inf for k, p in enumerate(self.pbc)])
        least = self.cutoff * (1 + _SLACK)
        self.copies = tuple(int(2 * least // w) + 1 for w in self._widths)
        total = int(np.prod(self.copies)) * len(positions)
        if total > _ATOMS and max(self.copies) > 1:
            raise ValueError(
                "a cutoff of %g reaches further than half the box, which is %s wide: it would be repeated %s times, to %d atoms, and %d is the most"
                % (cutoff, " x ".join("%g" % w for w in self._widths), " x ".join(map(str, self.copies)), total, _ATOMS)
            )
        most = min(n * w for n, w in zip(self.copies, self._widths)) / 2 / (1 + _SLACK)
        self.radius = max(least, min(least + skin, most))
        self._lay(positions)
        # a longer radius lists more pairs, of which the terms take those within their cutoffs
        while len(positions) > 1 and self._cells(positions) > _CELLS and 1.26 * self.radius < most:
            self.radius *= 1.26
            self._lay(positions)

    def _needed(self, positions):
        """How long the vector of each axis must at least be, were it open."""
        extent = np.ptp(positions @ self._across.T, axis=0) if len(positions) else np.zeros(3)
        needed = np.maximum(extent + self.radius, 3 * self.radius)
        return (np.maximum(needed, 2 * extent + self.radius) if self.bonded else needed) * (1 + _SLACK) + _SLACK

    def _lay(self, positions):
        """The lattice at this radius. An open axis is longer than it must be, so that it need not change as soon as an atom moves."""
        self._lengths = np.where(self.pbc, self._widths * self.copies, self._needed(positions) + max(self.radius, 1.0))
        rows = np.where(np.array(self.pbc)[:, None], self.rows * np.array(self.copies)[:, None], self._across * self._lengths[:, None])
        self.lattice = Lattice(*rows) if any(self.pbc) else None

    def _cells(self, positions):
        """How many cells the library's grid would have; 0 where it lays none."""
        counts = (self._lengths if self.lattice else np.ptp(positions, axis=0)) // self.radius
        return 0 if self.lattice and min(counts) < 3 else np.prod(np.maximum(counts, 1.0))

    def still_holds(self, positions, cell, pbc, cutoff):
        """Whether the same box does for other positions: nothing else has changed, and along open axes the atoms still have their room."""
        if cutoff != self.cutoff or tuple(bool(p) for p in pbc) != self.pbc or not np.array_equal(self.rows, cell):
            return False
        if self.lattice is None:
            return len(positions) < 2 or bool(self._cells(positions) <= _CELLS)
        return bool(np.all((self._needed(positions) <= self._lengths) | np.array(self.pbc)))

    def shifts(self):
        """The copies' shifts, in vectors of the box: the first is zero."""
        return np.array(list(np.ndindex(*self.copies)))

    def repeated(self, positions):
        """The positions of all copies, the first copy first."""
        if self.copies == (1, 1, 1):
            return np.ascontiguousarray(positions, dtype=np.float64)
        return (positions[None, :, :] + (self.shifts() @ self.rows)[:, None, :]).reshape(-1, 3)


def _across(rows, pbc):
    """Unit vectors: for an open axis at right angles to the periodic vectors and to the other open ones; that of a periodic axis is not used."""
    directions = np.eye(3)
    periodic = [k for k in range(3) if pbc[k]]
    if len(periodic) == 2:
        k = 3 - sum(periodic)
        n = np.cross(rows[periodic[0]], rows[periodic[1]])
        directions[k] = n / np.linalg.norm(n)
    elif len(periodic) == 1:
        p = rows[periodic[0]] / np.linalg.norm(rows[periodic[0]])
        first, second = (k for k in range(3) if not pbc[k])
        u = np.eye(3)[np.argmin(np.abs(p))]
        u = u - (u @ p) * p
        u /= np.linalg.norm(u)
        directions[first], directions[second] = u, np.cross(p, u)
    return directions


def _width(rows, directions, pbc, k):
    """The distance between the faces of axis k."""
    full = np.where(np.array(pbc)[:, None], rows, directions)
    one, other = (full[j] for j in range(3) if j != k)
    area = np.cross(one, other)
    return abs(full[k] @ area) / np.linalg.norm(area)


def neighbor_list(quantities, a, cutoff, self_interaction=False, max_nbins=None):
    """ASE's neighbor_list (ase.neighborlist), found by the library: every pair both ways, sorted by the first atom.

    quantities  any of 'i', 'j', 'd', 'D', 'S' in any order: first atom, second atom, distance, vector positions[j] - positions[i] + S.dot(cell), and the
                number of cell boundaries that it crosses
    cutoff      a float; {('C', 'H'): 1.1, (1, 1): 1.0} by elements; or a radius for each atom, whose sum with the other atom's is the cutoff

    A pair is listed where its distance, computed as ASE computes it, is below the cutoff, so that the lists are equal as sets. Any cell and any pbc, as the
    module says; at most 16,384 atoms (of a box that must be repeated: copies included). max_nbins is ASE's and is not needed."""
    unknown = set(quantities) - set("ijdDS")
    if unknown:
        raise ValueError("quantities are of i, j, d, D, S; there is %s" % ", ".join(sorted(unknown)))
    n, positions, cell = len(a), np.ascontiguousarray(a.positions, dtype=np.float64), np.array(a.cell, dtype=np.float64)
    if isinstance(cutoff, dict):
        longest = max(cutoff.values(), default=0.0)
    elif np.isscalar(cutoff):
        longest = cutoff
    else:
        cutoff = np.asarray(cutoff, dtype=np.float64)
        longest = 2 * cutoff.max() if cutoff.size else 0.0
    i, j, s = _found(n, positions, cell, a.pbc, float(longest))
    if self_interaction:
        own = np.arange(n)
        i, j, s = np.concatenate([i, own]), np.concatenate([j, own]), np.concatenate([s, np.zeros((n, 3), int)])
    order = np.argsort(i, kind="stable")
    i, j, s = i[order], j[order], s[order]
    vectors = positions[j] - positions[i] + s.dot(cell)
    distances = np.sqrt(np.sum(vectors * vectors, axis=1))
    near = distances < longest
    if isinstance(cutoff, dict):
        near &= distances < _by_elements(cutoff, a.numbers, i, j)
    elif not np.isscalar(cutoff):
        near &= distances < cutoff[i] + cutoff[j]
    found = {"i": i, "j": j, "S": s, "D": vectors, "d": distances}
    answers = tuple(found[q][near] for q in quantities)
    return answers[0] if len(answers) == 1 else answers


def _found(n, positions, cell, pbc, cutoff):
    """Both ways round, the pairs that may be within the cutoff, and the cell boundaries that they cross."""
    if n == 0 or cutoff <= 0:
        return np.zeros(0, int), np.zeros(0, int), np.zeros((0, 3), int)
    box = Box(positions, cell, pbc, cutoff)
    all_positions = box.repeated(positions)
    found = NeighborList(box.radius)
    found.build(all_positions, box.lattice)
    pairs = found.pairs().astype(np.int64)
    # which copy, and which atom of it; only what starts in the first copy is one of the box's own
    p, q = pairs[:, 0], pairs[:, 1]
    i, j = np.concatenate([p, q]), np.concatenate([q, p])
    if box.copies != (1, 1, 1):
        first = i < n
        i, j = i[first], j[first]
    if box.lattice is None:
        return i, j, np.zeros((len(i), 3), int)
    fractional = all_positions @ np.linalg.inv(np.array((box.lattice.a, box.lattice.b, box.lattice.c)))
    over = np.rint(fractional[i] - fractional[j]).astype(int) * np.where(box.pbc, box.copies, 0)
    if box.copies != (1, 1, 1):
        over += box.shifts()[j // n]
    return i, j % n, over


def _by_elements(cutoff, numbers, i, j):
    limits = np.zeros(len(i))
    for (one, other), c in cutoff.items():
        one, other = atomic_numbers.get(one, one), atomic_numbers.get(other, other)
        either = (numbers[i] == one) & (numbers[j] == other) | (numbers[i] == other) & (numbers[j] == one)
        limits[either] = c
    return limits


class Calculator(_Calculator):
    """An ASE calculator over the library's evaluator: energy (eV), forces (eV/Å) and stress (eV/Å³, ASE's sign: -W / V) of the terms that it is given.

    lennard_jones  a tyngyrlak.LennardJones; species are the atomic numbers
    coulomb        a tyngyrlak.Coulomb; charges are the atoms' initial charges (e)
    bonds          (tyngyrlak.HarmonicBonds, [(i, j), ..])
    angles         a tyngyrlak.CosineAngles
    exclusions     [(i, j), ..]: pairs that Lennard-Jones and Coulomb leave out (bonds and angles leave nothing out by themselves)
    skin           how much further than the cutoff pairs are listed, so that a list can be kept (Å; a tenth of the longest cutoff where it is not given, and
                   less where the box has no room for it)

    Cells of any shape and any pbc, as the module says. A box that must be repeated cannot have bonds, angles or exclusions: a ValueError. Energies and stresses
    of single atoms are not implemented. There is no stress where the cell has no volume, as in ASE's own."""

    implemented_properties = ["energy", "free_energy", "forces", "stress"]
    nolabel = True

    def __init__(self, lennard_jones=None, coulomb=None, bonds=None, angles=None, exclusions=(), skin=None, **kwargs):
        super().__init__(**kwargs)
        self.lennard_jones, self.coulomb, self.bonds, self.angles = lennard_jones, coulomb, bonds, angles
        self.exclusions, self.skin = list(exclusions), skin
        self.box = self.evaluator = None

    def cutoff(self):
        """The longest cutoff of the terms over pairs, which the list is built for."""
        return max((float(t.cutoff) for t in (self.lennard_jones, self.coulomb) if t is not None), default=0.0)

    def calculate(self, atoms=None, properties=None, system_changes=all_changes):
        super().calculate(atoms, properties or self.implemented_properties, system_changes)
        atoms, cutoff = self.atoms, self.cutoff()
        positions, cell = atoms.positions, np.array(atoms.cell, dtype=np.float64)
        kept = self.box is not None and not {"numbers", "initial_charges"} & set(system_changes)
        if not kept or not self.box.still_holds(positions, cell, atoms.pbc, cutoff):
            skin = (0.1 * cutoff or 1.0) if self.skin is None else self.skin
            self._take(Box(positions, cell, atoms.pbc, cutoff, skin, bool(self.bonds or self.angles)), atoms, kept)
        copies = int(np.prod(self.box.copies))
        found = self.evaluator.evaluate(self.box.repeated(positions))
        energy = found.energy / copies
        self.results = {"energy": energy, "free_energy": energy, "forces": found.forces[: len(atoms)].copy()}
        if atoms.cell.rank == 3:
            self.results["stress"] = -full_3x3_to_voigt_6_stress(found.virial / copies) / atoms.get_volume()

    def _take(self, box, atoms, same_atoms):
        """The evaluator for a box. Where only the cell has changed the list and its room are kept: it is built anew by itself. Another skin wants another list,
        since one that was built with less would be kept for longer than it is good."""
        copies = int(np.prod(box.copies))
        if copies > 1 and (self.bonds or self.angles or self.exclusions):
            raise ValueError("bonds, angles and exclusions want a box that is wider than twice the cutoff of %g along each periodic axis" % self.cutoff())
        skin = max(box.radius - self.cutoff(), 0.0)
        if same_atoms and box.copies == self.box.copies and skin == self.evaluator.list.skin:
            self.evaluator.cell = box.lattice
        else:
            found = NeighborList(self.cutoff(), skin)
            found.set_exclusions(self.exclusions)
            lj, coulomb = self.lennard_jones, self.coulomb
            terms = Terms(
                lennard_jones=lj and (lj, np.tile(atoms.numbers, copies)),
                coulomb=coulomb and (coulomb, np.tile(atoms.get_initial_charges(), copies)),
                bonds=self.bonds,
                angles=self.angles,
            )
            self.evaluator = Evaluator(found, terms, box.lattice)
        self.box = box


class LennardJones(Calculator):
    """ASE's LennardJones calculator (ase.calculators.lj) by its parameters: one epsilon (eV) and sigma (Å) for all atoms, rc = 3 sigma where it is not given,
    shifted to 0 at rc. smooth=True is not carried over."""

    default_parameters = {"epsilon": 1.0, "sigma": 1.0, "rc": None, "smooth": False}

    def __init__(self, epsilon=1.0, sigma=1.0, rc=None, ro=None, smooth=False, **kwargs):
        super().__init__(**kwargs)
        self.set(epsilon=epsilon, sigma=sigma, rc=rc, smooth=smooth)
        self._renew()

    def set(self, **kwargs):
        """Other parameters from now on."""
        if kwargs.get("smooth"):
            raise NotImplementedError("smooth=True (a cutoff function) is not carried over: the potential is shifted at rc")
        changed = super().set(**kwargs)
        if changed:
            self._renew()
        return changed

    def _renew(self):
        p = self.parameters
        self.lennard_jones = potentials.LennardJones.monatomic(p.epsilon, p.sigma, 3 * p.sigma if p.rc is None else p.rc)
        self.box = self.evaluator = None
        self.reset()
