"""The calculator and the neighbor list beside ASE's own. Skipped, with one line, where ASE is not installed."""
import copy
import unittest

from common import np, say, tyngyrlak, want_library

try:
    import ase
except ImportError:
    say("skipped: ASE is not installed (Debian: python3-ase), so the calculator and the neighbor list are not compared with it")
    raise unittest.SkipTest("ASE is not installed") from None

import ase.neighborlist
from ase import units
from ase.build import bulk, molecule
from ase.calculators.lj import LennardJones as Theirs
from ase.lattice.cubic import FaceCenteredCubic
from ase.md.velocitydistribution import MaxwellBoltzmannDistribution, Stationary
from ase.md.verlet import VelocityVerlet

from tyngyrlak.ase import Calculator, LennardJones, neighbor_list


def setUpModule():
    want_library()


CELLS = {
    "cube": np.diag([14.0, 14.0, 14.0]),
    "brick": np.diag([12.0, 15.0, 19.0]),
    "tilted": np.array([[13.0, 0, 0], [4.0, 12.0, 0], [-3.0, 5.0, 14.0]]),
    "turned": np.array([[9.0, 9.0, 0], [-9.0, 9.0, 1.0], [0.5, -2.0, 13.0]]),
}
PBC = [tuple(bool(k >> a & 1) for a in range(3)) for k in range(8)]


def random_atoms(cell, pbc, n, seed, spread=1.0, apart=2.2):
    """Atoms at random in a cell, some of them outside of it, no two closer than `apart`."""
    rng = np.random.default_rng(seed)
    inverse, kept = np.linalg.inv(cell), []
    while len(kept) < n:
        r = rng.uniform(0.5 - spread / 2, 0.5 + spread / 2, 3) @ cell
        far = True
        for q in kept:
            s = (r - q) @ inverse
            s -= np.where(pbc, np.round(s), 0)
            # the nearest image of a skewed cell is one of these
            shifts = np.array(np.meshgrid(*[(-1, 0, 1) if p else (0,) for p in pbc])).reshape(3, -1).T
            if np.min(np.linalg.norm((s + shifts) @ cell, axis=1)) < apart:
                far = False
                break
        if far:
            kept.append(r)
    return ase.Atoms("Ar%d" % n, positions=kept, cell=cell, pbc=pbc)


def listed(quantities):
    """A list as a set: atoms and shift; and the vectors by these."""
    i, j, d, D, S = quantities
    rows = [(int(a), int(b), *map(int, s)) for a, b, s in zip(i, j, S)]
    return rows, {r: (x, tuple(v)) for r, x, v in zip(rows, d, D)}


class NeighborLists(unittest.TestCase):
    def same(self, atoms, cutoff, **named):
        theirs = ase.neighborlist.neighbor_list("ijdDS", atoms, cutoff, **named)
        ours = neighbor_list("ijdDS", atoms, cutoff, **named)
        for a, b in zip(ours, theirs):
            self.assertEqual((a.dtype, a.shape), (b.dtype, b.shape))
        rows, vectors = listed(ours)
        their_rows, their_vectors = listed(theirs)
        self.assertEqual(len(rows), len(set(rows)))
        self.assertEqual(set(rows), set(their_rows))
        self.assertEqual(vectors, their_vectors)
        self.assertTrue(np.all(np.diff(ours[0]) >= 0))
        return len(rows)

    def test_every_cell_and_every_pbc(self):
        found = 0
        for seed, (name, cell) in enumerate(CELLS.items()):
            for pbc in PBC:
                for cutoff in (2.6, 4.1, 5.9, 8.0):
                    with self.subTest(cell=name, pbc=pbc, cutoff=cutoff):
                        # a spread above 1: atoms lie outside of the cell, on open axes too
                        found += self.same(random_atoms(cell, pbc, 40, seed, spread=1.6 if cutoff < 5 else 1.0, apart=1.2), cutoff)
        self.assertGreater(found, 40_000)

    def test_across_an_open_face(self):
        """The pair that the library's own folding would miss (docs/DIFFERENCES.md)."""
        for pbc in PBC:
            self.assertGreater(self.same(ase.Atoms("Ar2", [[-0.25, 0, 0], [0.25, 0, 0]], cell=np.eye(3) * 3, pbc=pbc), 1.0), 0)

    def test_small_boxes_are_repeated(self):
        self.assertEqual(self.same(bulk("Cu"), 5.0), 42)
        self.same(bulk("Cu", cubic=True), 8.0)
        self.same(bulk("Ti"), 6.0)
        self.same(ase.Atoms("H", pbc=(True, False, False), cell=(1.1, 0, 0)), 3.5)
        self.same(ase.Atoms("HO", [[0, 0, 0], [0.4, 0.3, 0.9]], pbc=(False, True, True), cell=[[0, 0, 0], [0, 2, 1], [0, -1, 2]]), 5.0)
        # exactly half the edge, exactly a lattice distance
        self.same(ase.Atoms("Ar2", [[0, 0, 0], [5, 0, 0]], cell=np.eye(3) * 10, pbc=True), 5.0)
        self.same(bulk("Po", "sc", a=3.0), 3.0)

    def test_cutoffs_by_elements_and_by_atoms(self):
        water = molecule("CH3CH2OH")
        water.center(vacuum=3.0)
        for pbc in (False, True):
            water.pbc = pbc
            self.same(water, {("C", "H"): 1.3, ("O", 1): 1.1, (6, 6): 1.7})
            self.same(water, ase.neighborlist.natural_cutoffs(water))
        self.same(water, 3.0, self_interaction=True)
        self.same(bulk("NaCl", "rocksalt", a=5.64), {("Na", "Cl"): 3.0, ("Na", "Na"): 4.0}, self_interaction=True)

    def test_shapes(self):
        atoms = bulk("Ar", "fcc", a=5.26, cubic=True) * (3, 3, 3)
        i = neighbor_list("i", atoms, 4.0)
        self.assertEqual(np.bincount(i).tolist(), [12] * 108)
        D, j = neighbor_list("Dj", atoms, 4.0)
        self.assertEqual((D.shape, j.shape), ((1296, 3), (1296,)))
        for empty in (ase.Atoms(), ase.Atoms("Ar"), ase.Atoms("Ar2", [[0, 0, 0], [9, 0, 0]])):
            self.assertEqual(self.same(empty, 3.0), 0)
        self.assertRaises(ValueError, neighbor_list, "ix", atoms, 4.0)

    def test_far_apart(self):
        """A grid of cells as wide as the cutoff would be too large: the list is found all the same. (Beside plain distances: ASE's own wants gigabytes.)"""
        rng = np.random.default_rng(2)
        r = np.concatenate([rng.uniform(0, 900, (150, 3)), rng.uniform(440, 460, (150, 3)), [[0.5, 1, 1], [899.5, 1, 1], [1, 0.5, 1], [1, 899.5, 1]]])
        for pbc in (False, (True, False, True)):
            i, j, S = neighbor_list("ijS", ase.Atoms("Ar304", r, cell=[900] * 3, pbc=pbc), 3.0)
            d = r[None] - r[:, None]
            shifts = np.where(pbc, -np.round(d / 900), 0)
            near = np.linalg.norm(d + 900 * shifts, axis=2) < 3.0
            np.fill_diagonal(near, False)
            want = {(a, b, *map(int, shifts[a, b])) for a, b in zip(*np.nonzero(near))}
            self.assertEqual({(a, b, *s) for a, b, s in zip(i, j, S.tolist())}, want)
            self.assertGreater(len(want), 100)

    def test_what_cannot_be(self):
        with self.assertRaisesRegex(ValueError, "it would be repeated 2 x 2 x 2 times, to 32000 atoms, and 16384 is the most"):
            neighbor_list("ij", bulk("Ar", "fcc", a=5.26, cubic=True) * (10, 10, 10), 30.0)
        self.assertRaisesRegex(ValueError, "a finite number", neighbor_list, "ij", bulk("Ar"), np.inf)
        with self.assertRaisesRegex(ValueError, "periodic vectors do not span"):
            neighbor_list("ij", ase.Atoms("H", pbc=True), 3.0)
        with self.assertRaises(tyngyrlak.Error) as caught:
            neighbor_list("ij", ase.Atoms("H16385", positions=np.random.default_rng(1).uniform(0, 90, (16385, 3))), 2.0)
        self.assertEqual((caught.exception.number, caught.exception.place), (2, 16385))


class Calculators(unittest.TestCase):
    def same(self, atoms, **numbers):
        """Energy, forces and stress to 1e-10 beside ASE's own."""
        ours, theirs = atoms.copy(), atoms.copy()
        ours.calc, theirs.calc = LennardJones(**numbers), Theirs(**numbers)
        energy = theirs.get_potential_energy()
        self.assertLessEqual(abs(ours.get_potential_energy() - energy), 1e-10 * abs(energy))
        forces = theirs.get_forces()
        self.assertLessEqual(np.abs(ours.get_forces() - forces).max(), 1e-10 * np.abs(forces).max() + 1e-14)
        if atoms.cell.rank == 3:
            stress = theirs.get_stress()
            self.assertLessEqual(np.abs(ours.get_stress() - stress).max(), 1e-10 * np.abs(stress).max())
        return energy

    def test_every_cell_and_every_pbc(self):
        for seed, (name, cell) in enumerate(CELLS.items()):
            for pbc in PBC:
                with self.subTest(cell=name, pbc=pbc):
                    atoms = random_atoms(cell, pbc, 24, 10 + seed, spread=1.3)
                    self.assertNotEqual(self.same(atoms, epsilon=0.0103, sigma=3.0, rc=5.0), 0)

    def test_small_boxes_and_numbers_that_are_not_given(self):
        self.same(bulk("Ar", "fcc", a=5.26), epsilon=0.0103, sigma=3.4, rc=9.0)
        self.same(bulk("Ar", "fcc", a=5.13) * (2, 1, 1), epsilon=0.0103, sigma=3.4)
        chain = ase.Atoms("Ar2", [[0, 0, 0], [1.1, 0.2, 0]], cell=[2.4, 0, 0], pbc=(True, False, False))
        self.same(chain, epsilon=1.0, sigma=1.0)
        self.same(molecule("C60"), epsilon=0.5, sigma=1.2)

    def test_stress_is_the_derivative_of_the_energy(self):
        atoms = random_atoms(CELLS["tilted"], (True, True, True), 30, 5)
        atoms.calc = LennardJones(epsilon=0.0103, sigma=3.0, rc=5.5)
        stress, numeric = atoms.get_stress(), atoms.calc.calculate_numerical_stress(atoms, d=1e-5)
        np.testing.assert_allclose(stress, numeric, rtol=1e-4, atol=1e-8)

    def test_energy_is_conserved_as_by_theirs(self):
        """1,000 steps of ASE's VelocityVerlet, from the same start."""
        spreads = []
        for kind in (LennardJones, Theirs):
            atoms = FaceCenteredCubic(symbol="Ar", size=(3, 3, 3), latticeconstant=5.6, pbc=True)
            MaxwellBoltzmannDistribution(atoms, temperature_K=60, rng=np.random.RandomState(7))
            Stationary(atoms)
            atoms.calc = kind(epsilon=0.0103, sigma=3.4, rc=7.0)
            energies = []
            with VelocityVerlet(atoms, 4 * units.fs) as run:
                run.attach(lambda: energies.append(atoms.get_total_energy()), interval=10)
                run.run(1000)
            self.assertEqual(len(energies), 101)
            spreads.append((np.std(energies), np.ptp(energies), energies[0], atoms.get_temperature()))
            if kind is LennardJones:
                self.assertGreater(atoms.calc.evaluator.list.builds(), 3)
                self.assertLess(atoms.calc.evaluator.list.builds(), 500)
        ours, theirs = spreads
        self.assertLessEqual(abs(ours[2] - theirs[2]), 1e-10 * abs(theirs[2]))
        self.assertLessEqual(ours[0], 1.05 * theirs[0])
        self.assertLessEqual(ours[1], 1.10 * theirs[1])
        self.assertAlmostEqual(ours[3], theirs[3], delta=0.5)

    def test_an_open_axis_and_a_cell_that_change(self):
        atoms = random_atoms(CELLS["brick"], (True, True, False), 40, 3)
        atoms.calc = LennardJones(epsilon=0.0103, sigma=3.0, rc=5.0)
        for k in range(30):
            atoms.positions += np.random.default_rng(k).normal(0, 0.05, (40, 3))
            atoms.positions[0, 2] += 1.0  # flies away: the open axis is made longer
            if k % 7 == 6:
                atoms.set_cell(atoms.cell * 1.01, scale_atoms=True)
            fresh = atoms.copy()
            fresh.calc = Theirs(epsilon=0.0103, sigma=3.0, rc=5.0)
            energy, forces = fresh.get_potential_energy(), fresh.get_forces()
            self.assertLessEqual(abs(atoms.get_potential_energy() - energy), 1e-10 * abs(energy))
            self.assertLessEqual(np.abs(atoms.get_forces() - forces).max(), 1e-10 * np.abs(forces).max())

    def test_atoms_that_fly_apart(self):
        """A cluster with no cell, of which an atom flies off: the grid would have too many cells, and the list is searched further."""
        atoms = random_atoms(CELLS["cube"], (False, False, False), 30, 4)
        atoms.calc = LennardJones(epsilon=0.0103, sigma=3.0, rc=5.0)
        radii = set()
        for k in range(40):
            atoms.positions += np.random.default_rng(k).normal(0, 0.05, (30, 3))
            atoms.positions[7] += [10.0 * k, 11.0 * k, 12.0 * k]
            fresh = atoms.copy()
            fresh.calc = LennardJones(epsilon=0.0103, sigma=3.0, rc=5.0)
            energy = tyngyrlak.LennardJones.monatomic(0.0103, 3.0, 5.0).compute_all(np.zeros(30, np.uint32), atoms.positions).energy
            for a in (atoms, fresh):
                self.assertLessEqual(abs(a.get_potential_energy() - energy), 1e-10 * abs(energy))
            radii.add(atoms.calc.box.radius)
        self.assertGreater(len(radii), 3)

    def test_parameters_that_change(self):
        atoms = random_atoms(CELLS["cube"], (True, True, True), 20, 8)
        atoms.calc = LennardJones(epsilon=0.0103, sigma=3.0, rc=5.0)
        first = atoms.get_potential_energy()
        atoms.calc.set(epsilon=0.0206)
        self.assertAlmostEqual(atoms.get_potential_energy(), 2 * first, places=12)
        self.assertEqual(atoms.calc.parameters["rc"], 5.0)
        atoms.calc.set(rc=4.0)
        fresh = atoms.copy()
        fresh.calc = Theirs(epsilon=0.0206, sigma=3.0, rc=4.0)
        self.assertAlmostEqual(atoms.get_potential_energy(), fresh.get_potential_energy(), places=11)
        twin = copy.deepcopy(atoms)
        twin.calc = copy.deepcopy(atoms.calc)
        twin.positions[0] += 0.3
        self.assertNotEqual(twin.get_potential_energy(), atoms.get_potential_energy())

    def test_the_other_terms(self):
        """Two species, charges, bonds and angles: as the package's own evaluator has them; forces are minus the gradient."""
        t = tyngyrlak
        atoms = random_atoms(CELLS["cube"], (True, True, True), 20, 8)
        atoms.set_chemical_symbols(["Na", "Cl"] * 10)
        atoms.set_initial_charges([0.3, -0.3] * 10)
        numbers = dict(
            lennard_jones=t.LennardJones({11: (0.01, 2.4), 17: (0.02, 3.1)}, cutoff=5.0),
            coulomb=t.Coulomb(6.0),
            bonds=(t.HarmonicBonds(0.5, 2.0), [(0, 1), (1, 2)]),
            angles=t.CosineAngles.uniform([(0, 1, 2)], 0.7, 0.1),
            exclusions=[(0, 1), (1, 2), (0, 2)],
        )
        atoms.calc = Calculator(**numbers)
        cell = t.Lattice.cubic(14.0)
        l = t.NeighborList(6.0, 0.5)
        l.set_exclusions(numbers["exclusions"])
        eval = t.Evaluator(l, t.Terms((numbers["lennard_jones"], atoms.numbers), (numbers["coulomb"], atoms.get_initial_charges()),
                                      numbers["bonds"], numbers["angles"]), cell)
        want = eval.evaluate(atoms.positions)
        self.assertAlmostEqual(atoms.get_potential_energy() / want.energy, 1, places=12)
        np.testing.assert_allclose(atoms.get_forces(), want.forces, atol=1e-12)
        numeric = atoms.calc.calculate_numerical_forces(atoms, d=1e-4)
        np.testing.assert_allclose(atoms.get_forces(), numeric, atol=2e-6)
        before = atoms.get_potential_energy()
        atoms.set_initial_charges([0.0] * 20)
        self.assertNotAlmostEqual(atoms.get_potential_energy(), before, places=6)
        small = bulk("NaCl", "rocksalt", a=5.64)
        small.calc = Calculator(**numbers)
        self.assertRaisesRegex(ValueError, "wider than twice the cutoff of 6", small.get_potential_energy)
        self.assertRaises(NotImplementedError, LennardJones, smooth=True)

    def test_long_bonds_and_no_pairs(self):
        """Bonds alone, longer than any cutoff, along an open axis and across a periodic face."""
        t = tyngyrlak
        r = np.array([[0.5, 1, 0], [11.5, 1, 0], [0.5, 1, 40.0]])
        atoms = ase.Atoms("Ar3", r, cell=[12, 12, 0], pbc=(True, True, False))
        for more in ({}, dict(lennard_jones=t.LennardJones.monatomic(0.0, 1.0, 3.0))):
            atoms.calc = Calculator(bonds=(t.HarmonicBonds(2.0, 0.0), [(0, 1), (0, 2)]), **more)
            self.assertAlmostEqual(atoms.get_potential_energy(), 0.5 * 2.0 * (1.0**2 + 40.0**2), places=9)
            atoms.positions[2, 2] = 90.0
            self.assertAlmostEqual(atoms.get_potential_energy(), 0.5 * 2.0 * (1.0**2 + 90.0**2), places=8)
            atoms.positions[2, 2] = 40.0
        none = ase.Atoms()
        none.calc = LennardJones()
        self.assertEqual((none.get_potential_energy(), none.get_forces().shape), (0.0, (0, 3)))

    def test_forces_are_handed_out_for_good(self):
        atoms = random_atoms(CELLS["cube"], (True, True, True), 20, 8)
        atoms.calc = LennardJones(epsilon=0.0103, sigma=3.0, rc=5.0)
        first = atoms.get_forces()
        kept = first.copy()
        atoms.positions[0] += 0.1
        atoms.get_forces()
        np.testing.assert_array_equal(first, kept)


if __name__ == "__main__":
    unittest.main()
