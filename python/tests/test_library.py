"""The package over the library: answers beside plain numpy and beside a program in C, arrays that do not fit, refusals, rooms that grow."""
import itertools
import os
import shutil
import struct
import subprocess
import tempfile
import unittest

from common import ROOT, liquid, np, refused, tyngyrlak as t, want_library

from tyngyrlak import _library, _raw


def setUpModule():
    want_library()


def plain_pairs(positions, edge, radius):
    """The pairs within a radius in a cube, as a set."""
    found = set()
    for i, j in itertools.combinations(range(len(positions)), 2):
        d = positions[i] - positions[j]
        d -= edge * np.round(d / edge)
        if d @ d <= radius * radius:
            found.add((i, j))
    return found


def plain_lj(positions, pairs, edge, epsilon, sigma, cutoff):
    energy, forces, virial = 0.0, np.zeros_like(positions), np.zeros((3, 3))
    at = lambda r2: 4 * epsilon * ((sigma**2 / r2) ** 6 - (sigma**2 / r2) ** 3)
    for i, j in pairs:
        d = positions[i] - positions[j]
        d -= edge * np.round(d / edge)
        r2 = d @ d
        if r2 <= cutoff * cutoff:
            energy += at(r2) - at(cutoff**2)
            f = 24 * epsilon * (2 * (sigma**2 / r2) ** 6 - (sigma**2 / r2) ** 3) / r2 * d
            forces[i] += f
            forces[j] -= f
            virial += np.outer(d, f)
    return energy, forces, virial


class Answers(unittest.TestCase):
    def test_list_and_lennard_jones(self):
        p, edge = liquid(150, 20.0), 20.0
        cell = t.Lattice.cubic(edge)
        l = t.NeighborList(5.5, 0.5)
        l.build(p, cell)
        pairs = [tuple(r) for r in l.pairs().tolist()]
        self.assertEqual(len(set(pairs)), len(pairs))
        self.assertEqual(set(pairs), plain_pairs(p, edge, 6.0))
        lj = t.LennardJones({18: (0.0103, 3.4)}, (1.0, 1.0), 5.5)
        numbers = np.full(150, 18, np.uint32)
        energy, forces, virial = plain_lj(p, pairs, edge, 0.0103, 3.4, 5.5)
        for c in (lj.compute_pairs(numbers, p, l, cell), lj.compute_pairs(numbers, p, l.pairs(), cell), lj.compute_pairs(numbers, p, pairs, cell),
                  lj.compute_all(numbers, p, cell)):
            self.assertAlmostEqual(c.energy / energy, 1, places=12)
            np.testing.assert_allclose(c.forces, forces, rtol=1e-10, atol=1e-13)
            np.testing.assert_allclose(c.virial, virial, rtol=1e-10, atol=1e-12)
        self.assertEqual(lj.compute(numbers, p, cell)[0], lj.compute_all(numbers, p, cell).energy)
        self.assertAlmostEqual(c.scalar_virial(), np.trace(virial), places=10)

    def test_a_house_table(self):
        """A species' row is the potential's own, else the house's, else the default."""
        house = {18: (0.01, 3.4), 36: (0.02, 3.6)}
        lj = t.LennardJones({36: (0.03, 3.7)}, (0.5, 1.0), 8.0).over(house)
        self.assertEqual([lj.row(z) for z in (18, 36, 54)], [(0.01, 3.4), (0.03, 3.7), (0.5, 1.0)])
        both = t.LennardJones({18: (0.01, 3.4), 36: (0.03, 3.7)}, (0.5, 1.0), 8.0)
        p, numbers = liquid(60, 16.0), np.array([18, 36, 54] * 20, np.uint32)
        self.assertEqual(lj.compute_all(numbers, p).forces.tobytes(), both.compute_all(numbers, p).forces.tobytes())
        one, other = (t.Evaluator(t.NeighborList(8.0, 1.0), t.Terms(lennard_jones=(x, numbers))).evaluate(p).energy for x in (lj, both))
        self.assertEqual(one, other)
        self.assertEqual(house, {18: (0.01, 3.4), 36: (0.02, 3.6)})

    def test_mixing_rules(self):
        """Rule 1 takes the half sum of two sigmas, rule 2 the root of their product; epsilons mix alike."""
        rows, numbers, p = {1: (0.01, 2.0), 2: (0.04, 4.5)}, np.array([1, 2], np.uint32), np.array([[0.0, 0, 0], [3.1, 1.2, -0.7]])
        lj = t.LennardJones(rows, (0.0, 0.0), 9.0)
        self.assertEqual((t.LennardJones.argon().rule, lj.mixed_by(2).over({}).rule), (1, 2))
        for rule, sigma in ((1, 3.25), (2, 3.0)):
            two, one = lj.mixed_by(rule).compute_all(numbers, p), t.LennardJones.monatomic(0.02, sigma, 9.0).compute_all(numbers, p)
            self.assertAlmostEqual(two.energy, one.energy, places=15)
            np.testing.assert_allclose(two.forces, one.forces, rtol=1e-12)
            listed = t.Evaluator(t.NeighborList(9.0, 1.0), t.Terms(lennard_jones=(lj.mixed_by(rule), numbers))).evaluate(p)
            self.assertEqual(listed.energy, two.energy)
        for rule in (-1, (1 << 32) + 1):
            with self.assertRaises(ValueError):
                lj.mixed_by(rule).compute_all(numbers, p)
        for rule in (0, 3):
            with self.assertRaises(t.Error) as refused:
                lj.mixed_by(rule).compute_all(numbers, p)
            self.assertEqual(refused.exception.number, 3)

    def test_forces_that_are_lent(self):
        p = liquid(30, 12.0)
        forces = np.full((30, 3), 7.0)
        c = t.LennardJones.argon().compute_all(np.zeros(30, np.uint32), p, None, forces=forces)
        self.assertIs(c.forces, forces)
        self.assertTrue(np.array_equal(forces, t.LennardJones.argon().compute_all(np.zeros(30, np.uint32), p).forces))

    def test_coulomb_bonds_angles(self):
        p = np.array([[0.0, 0, 0], [1.5, 0, 0], [1.5, 2.0, 0]])
        c = t.Coulomb(10.0).compute_all(np.array([1.0, -1.0, 0.0]), p)
        self.assertAlmostEqual(c.energy, -t.units.KE_COULOMB / 1.5, places=12)
        np.testing.assert_allclose(c.forces[0], [t.units.KE_COULOMB / 1.5**2, 0, 0])
        b = t.HarmonicBonds(2.0, 1.0, per_bond=[1.4], per_bond_k=[3.0]).compute_all([(0, 1), (1, 2)], p)
        self.assertAlmostEqual(b.energy, 0.5 * 3.0 * 0.1**2 + 0.5 * 2.0 * 1.0**2, places=12)
        a = t.CosineAngles.uniform([(0, 1, 2)], 4.0, 0.5)
        self.assertAlmostEqual(a.compute_all(p).energy, 0.5 * 4.0 * 0.25, places=12)
        both = t.Evaluator(t.NeighborList(10.0, 0.0), t.Terms(coulomb=(t.Coulomb(10.0), [1.0, -1.0, 0.0]),
                           bonds=(t.HarmonicBonds(2.0, 1.0, [1.4], [3.0]), [(0, 1), (1, 2)]), angles=a)).evaluate(p)
        self.assertAlmostEqual(both.energy, c.energy + b.energy + a.compute(p)[0], places=12)
        c.merge(b)
        np.testing.assert_allclose(both.forces, c.forces + a.compute(p)[1], atol=1e-13)

    def test_cells(self):
        l = t.Lattice((10, 0, 0), (2, 9, 0), (1, -1, 8), (True, True, False))
        np.testing.assert_allclose(l.inverse() @ l.matrix(), np.eye(3), atol=1e-14)
        self.assertAlmostEqual(l.volume(), np.linalg.det(l.matrix()), places=10)
        r = np.array((3.0, 20.0, -4.0))
        np.testing.assert_allclose(l.to_cartesian(l.to_fractional(r)), r)
        np.testing.assert_allclose(l.perp_widths(), 1 / np.linalg.norm(np.linalg.inv(l.matrix()), axis=1))
        self.assertTrue(np.all((l.to_fractional(l.wrap(r))[:2] >= 0) & (l.to_fractional(l.wrap(r))[:2] < 1)))
        self.assertFalse(l.is_orthorhombic())
        self.assertIsNone(t.Lattice((1, 0, 0), (2, 0, 0), (0, 0, 1)).inverse())
        diff, boxes = t.min_image_counted((-9.5, 0.0, 0.5), t.Lattice.cubic(10.0))
        self.assertEqual((diff.tolist(), boxes), ([0.5, 0.0, 0.5], (-1, 0, 0)))
        self.assertEqual(t.min_image_counted((1, 1, 1), t.Lattice((1, 0, 0), (2, 0, 0), (0, 0, 1)))[1], "no inverse")
        self.assertEqual(t.min_image((1, 2, 3)).tolist(), [1, 2, 3])

    @unittest.skipUnless(shutil.which("gcc"), "there is no gcc")
    def test_as_the_program_in_c(self):
        """c/list_and_step.c, linked against the same library, prints the same bits."""
        with tempfile.TemporaryDirectory() as folder:
            program = os.path.join(folder, "list_and_step")
            source = os.path.join(ROOT, "c", "list_and_step.c")
            subprocess.run(["gcc", "-std=c99", "-I", os.path.join(ROOT, "include"), source, _library.path(), "-lm", "-o", program], check=True)
            said = subprocess.run([program], check=True, capture_output=True, text=True).stdout.splitlines()
        self.assertEqual([9.648533212331e-3, 8.617333262e-5, 14.3996454784936, 160.2176634],
                         [t.units.FORCE_TO_ACCEL, t.units.KB_EV_PER_K, t.units.KE_COULOMB, t.units.EV_PER_A3_TO_GPA])
        seed = 1

        def shake():
            nonlocal seed
            seed = (seed * 1664525 + 1013904223) % 2**32
            return (seed >> 8) / 16777216.0 - 0.5

        p, v = np.zeros((216, 3)), np.zeros((216, 3))
        for i, k in itertools.product(range(216), range(3)):
            p[i, k] = 3.8 * ((i // 36, i // 6 % 6, i % 6)[k] + 0.5) + 0.4 * shake()
            v[i, k] = 0.004 * shake()
        edge, masses = 6 * 3.8, np.full(216, 39.948)
        cell, l = t.Lattice.cubic(edge), t.NeighborList(5.0, 0.6)
        l.exclude(1, 0)
        ours = [("radius", l.search_radius()), ("image y", t.min_image((edge, 0.75 * edge, 0.0), cell)[1])]
        l.build(p, cell)
        counts = "pairs %d, checks %d, fallback %d, builds %d, first %d %d" % (len(l.pairs()), l.checks(), l.used_fallback(), l.builds(), *l.pairs()[0])
        eval = t.Evaluator(l, t.Terms(lennard_jones=(t.LennardJones.monatomic(0.0103, 3.4, 5.0), [0] * 216)), cell)
        start = eval.evaluate(p)
        ours += [("potential", start.energy), ("virial xx", start.virial[0, 0])]
        potential, rebuilt = t.verlet_step(2.0, t.Berendsen(120.0, 100.0), p, v, masses, start.forces, start.energy, eval)
        ours += [("potential", potential), ("kinetic", t.kinetic_energy(v, masses)), ("temperature", t.temperature(v, masses, 648.0)),
                 ("x of atom 0", p[0, 0]), ("force on 0", start.forces[0, 0])]
        shown = ["%-12s %s" % (n, struct.pack(">d", x).hex()) for n, x in ours]
        self.assertEqual([line for line in said if line in shown], shown)
        self.assertIn(counts, said)
        self.assertIn("stopped 0, rebuilt %d" % rebuilt, said)

    def test_a_run_keeps_its_energy(self):
        n, edge = 216, 6 * 3.8
        p, cell, masses = liquid(n, edge, 0.05), t.Lattice.cubic(edge), np.full(n, 39.948)
        v = np.random.default_rng(3).normal(0, 0.002, (n, 3))
        eval = t.Evaluator(t.NeighborList(8.5, 1.0), t.Terms(lennard_jones=(t.LennardJones.argon(), [18] * n)), cell)
        start = eval.evaluate(p)
        forces, potential = start.forces, start.energy
        before = potential + t.kinetic_energy(v, masses)
        for _ in range(200):
            potential, rebuilt = t.verlet_step(2.0, None, p, v, masses, forces, potential, eval)
        self.assertAlmostEqual(potential + t.kinetic_energy(v, masses), before, delta=1e-3 * abs(before))
        self.assertGreater(eval.list.builds(), 1)
        pv = t.pressure(t.kinetic_energy(v, masses), eval.evaluate(p).scalar_virial(), cell.volume())
        self.assertAlmostEqual(np.trace(t.pressure_tensor(v, masses, eval.evaluate(p).virial, cell.volume())) / 3, pv, places=14)
        self.assertAlmostEqual(t.to_gpa(pv), pv * t.units.EV_PER_A3_TO_GPA, places=14)
        t.apply_berendsen(2.0, t.Berendsen(200.0, 2.0), v, masses)
        self.assertAlmostEqual(t.temperature(v, masses, 3.0 * n), 200.0, places=6)


class Rooms(unittest.TestCase):
    def test_pairs_grow(self):
        p = liquid(200, 12.0)
        l = t.NeighborList(20.0, 1.0)
        self.assertTrue(l.needs_rebuild(p))
        l.build(p)
        self.assertEqual((len(l.pairs()), l.checks(), l.builds()), (19_900, 19_900, 1))
        self.assertFalse(l.needs_rebuild(p))
        self.assertFalse(l.maybe_build(p))
        self.assertTrue(l.outdated(p, t.Lattice.cubic(99.0)))
        self.assertEqual(l.builds_since(2**32 - 1), 2)
        kept = l.pairs()
        with self.assertRaises(ValueError):
            kept[0, 0] = 1
        l.build(p, t.Lattice.cubic(99.0))
        self.assertEqual(l.built_in(), t.Lattice.cubic(99.0))
        l.build(p[:1])
        self.assertEqual((l.pairs().shape, l.builds(), l.built_in()), ((0, 2), 3, None))
        l.build(np.zeros((0, 3)))
        self.assertEqual(len(l.pairs()), 0)

    def test_a_step_is_finished_with_more_room(self):
        def step(eval):
            p, v, f = liquid(200, 12.0), np.tile([1e-3, 0.0, -1e-3], (200, 1)), np.tile([0.01, 0.02, 0.03], (200, 1))
            got = t.verlet_step(1.0, t.Berendsen(90.0, 100.0), p, v, np.full(200, 39.948), f, 5.0, eval)
            return got, p.tobytes(), v.tobytes(), f.tobytes(), eval.list.pairs().tobytes()

        def fresh():
            return t.Evaluator(t.NeighborList(20.0, 0.0), t.Terms(lennard_jones=(t.LennardJones.argon(), np.full(200, 18))))

        wide = fresh()
        wide.evaluate(liquid(200, 12.0))
        narrow = step(fresh())
        self.assertEqual(narrow, step(wide))
        self.assertTrue(narrow[0].rebuilt)

    def test_a_step_that_stopped_goes_on(self):
        p, v, f = np.array([[0.0, 0, 0], [4, 0, 0], [900, 900, 900]]), np.zeros((3, 3)), np.zeros((3, 3))
        v[2] = 600
        terms = t.Terms(lennard_jones=(t.LennardJones.argon(), [18] * 3))
        eval = t.Evaluator(t.NeighborList(10.0, 30.0), terms)
        with self.assertRaises(t.Error) as caught:
            t.verlet_step(1.0, None, p, v, np.full(3, 40.0), f, 0.25, eval)
        self.assertEqual((caught.exception.number, caught.exception.stopped), (7, True))
        self.assertEqual((p[2].tolist(), f[0, 0]), ([1500.0] * 3, 0.0))
        eval.list = t.NeighborList(10.0, 500.0)
        potential, rebuilt = t.verlet_finish(1.0, None, p, v, np.full(3, 40.0), f, 0.25, eval)
        self.assertTrue(rebuilt and potential < 0 and f[0, 0] != 0 and f[0, 0] == -f[1, 0] and p[2, 0] == 1500)

    def test_exclusions_are_a_set(self):
        l = t.NeighborList(3.0, -1.0)
        self.assertEqual((l.skin, l.search_radius()), (0.0, 3.0))
        for i, j in [(5, 1), (1, 5), (2, 2), (0, 9)]:
            l.exclude(i, j)
        self.assertEqual(l.exclusions(), {(1, 5), (0, 9)})
        l.set_exclusions([(4, 3), (3, 4), (7, 7), (0, 1)])
        self.assertEqual(l.exclusions(), {(3, 4), (0, 1)})
        l.exclude(1, 2)
        l.build(np.array([[i, 0.0, 0.0] for i in range(4)]))
        self.assertEqual((l.pairs().tolist(), l.checks()), ([[0, 2], [0, 3], [1, 3], [2, 3]], 4))
        l.set_exclusions([])
        self.assertEqual(l.exclusions(), set())


class Fire(unittest.TestCase):
    def settled(self, room):
        p = liquid(27, 12.0)
        # a cutoff that no pair crosses on the way, where the force jumps
        eval = t.Evaluator(t.NeighborList(40.0, 1.0), t.Terms(lennard_jones=(t.LennardJones.monatomic(0.0103, 3.4, 40.0), [18] * 27)))
        if room:
            eval.list._pairs = np.zeros((room, 2), np.uint32)
        before = eval.evaluate(p).energy if not room else None
        v = np.zeros((27, 3))
        return t.fire(p, v, np.full(27, 39.948), t.FireOptions(max_iters=1000, force_tol=1e-3), eval), p, v, eval, before

    def test_a_box_settles(self):
        r, p, v, eval, before = self.settled(0)
        self.assertTrue(r.converged and r.max_force <= 1e-3 and r.energy < before and 0 < r.iters <= 1000, r)
        end = eval.evaluate(p)
        self.assertEqual((end.energy, np.abs(end.forces).max()), (r.energy, r.max_force))

    def test_more_room_on_the_way_and_the_same_answer(self):
        a, b = self.settled(0), self.settled(1)
        self.assertEqual((a[0], a[1].tobytes(), a[2].tobytes()), (b[0], b[1].tobytes(), b[2].tobytes()))

    def test_refusals(self):
        eval = t.Evaluator(t.NeighborList(8.0, 0.5), t.Terms(lennard_jones=(t.LennardJones.argon(), [18] * 2)))
        p, v, m = np.array([[0.0, 0, 0], [3.0, 0, 0]]), np.zeros((2, 3)), np.ones(2)
        self.assertEqual(refused(self, t.fire, p, v, m, t.FireOptions(max_iters=100_001), eval), (3, 0))
        self.assertEqual(refused(self, t.fire, p, v, m[:1].copy(), t.FireOptions(), eval), (1, 0))
        self.assertEqual(str(t.Error("tyn_fire", 7, 0, True, 4)),
                         "tyn_fire: refusal 7, place 0: the grid needs more than 32,768 cells (in iteration 4) (the step stopped after its drift)")


class Melts(unittest.TestCase):
    def melt(self, n):
        p = liquid(n, 24.0)
        species, charges = np.arange(n, dtype=np.uint32) % 2, 0.01 * (np.arange(n) % 3 - 1.0)
        bonds = [(i, i + 1) for i in range(0, n - 1, 2)]
        terms = t.Terms(
            lennard_jones=(t.LennardJones({0: (0.01, 3.4), 1: (0.02, 3.0)}, (1.0, 1.0), 6.0), species), coulomb=(t.Coulomb(6.0), charges),
            bonds=(t.HarmonicBonds(0.5, 3.0, per_bond=np.linspace(2.5, 3.5, 9)), bonds),
        )
        list = t.NeighborList(6.0, 1.0)
        list.set_exclusions(bonds)
        return t.Melt(t.Evaluator(list, terms, t.Lattice.cubic(24.0)), p, np.zeros((n, 3)), np.linspace(12.0, 40.0, n))

    def test_struck_and_put(self):
        m = self.melt(60)
        for _ in range(5):
            m.step(1.0)
        before, masses = m.positions.copy(), m.masses.copy()
        marks = np.arange(60) % 7 == 3
        left = m.strike(marks)
        self.assertEqual(left.atoms, 60 - marks.sum())
        self.assertTrue(np.array_equal(m.positions, before[~marks]) and np.array_equal(m.masses, masses[~marks]))
        stay = np.cumsum(~marks) - 1
        pairs = [(int(stay[i]), int(stay[i + 1])) for i in range(0, 59, 2) if not marks[i] and not marks[i + 1]]
        self.assertEqual(m.evaluator.list.exclusions(), set(pairs))
        self.assertEqual(left.bonds, len(pairs))
        self.assertEqual(m.put(t.NewAtom((1.0, 2.0, 3.0), (0.0, 0.0, 0.0), 18.0, 0.01, 1)), left.atoms)
        self.assertEqual((m.positions[-1].tolist(), m.masses[-1]), ([1.0, 2.0, 3.0], 18.0))
        m.step(0.01)

    def test_refusals(self):
        m = self.melt(8)
        before = m.positions.copy()
        self.assertEqual(refused(self, m.strike, np.zeros(7, bool)), (1, 0))
        self.assertEqual(refused(self, m.put, t.NewAtom((1e9, 0.0, 0.0), (0.0, 0.0, 0.0), 18.0)), (3, 0))
        self.assertTrue(np.array_equal(m.positions, before))
        with self.assertRaises(TypeError):
            m.strike([1] * 8)


class Sheets(unittest.TestCase):
    SHEET = (
        b"020003000000050000000500000008\n0300020000\n0100040000000a0000000a0000000a0700000003\n"
        b"020000000000000000000000000000\n020002000000050000000500000005\n020001000000090000000000000000\n"
    )

    def test_forms(self):
        two = t.sheet.to_two(self.SHEET)
        self.assertEqual(t.sheet.to_one(two), t.sheet.rewrite(self.SHEET))
        self.assertEqual(t.sheet.pairs(two), t.sheet.solve(self.SHEET))
        read = t.Sheet.read(two)
        self.assertEqual((read.form, read.species.tolist(), t.Sheet.read(self.SHEET).form), (2, [0] * 4, 1))
        self.assertTrue(np.array_equal(read.snapshot.atoms, t.Snapshot.from_sheet(self.SHEET).atoms))
        typed = two.replace(b"00000000\n120002", b"00000007\n120002")
        self.assertEqual(t.Sheet.read(typed).species.tolist(), [0, 7, 0, 0])
        self.assertEqual(refused(self, t.sheet.to_one, typed), (12, 1))

    def test_rule(self):
        two = t.sheet.to_two(self.SHEET)
        head = two.split(b"\n")[0]
        self.assertEqual((len(head), head[-2:], t.Sheet.read(self.SHEET).rule), (42, b"01", 1))
        for end, rule in ((b"", 1), (b"01", 1), (b"02", 2)):
            said = two.replace(head, head[:40] + end)
            self.assertEqual((t.Sheet.read(said).rule, t.sheet.pairs(said)), (rule, t.sheet.pairs(two)))
        self.assertEqual(refused(self, t.sheet.to_one, said), (12, 0xffffffff))
        self.assertEqual(refused(self, t.Sheet.read, two.replace(head, head[:40] + b"03")), (9, 1))


class Refusals(unittest.TestCase):
    def test_numbers_places_words(self):
        p, cell = liquid(30, 12.0), t.Lattice.cubic(12.0)
        l = t.NeighborList(3.0, 0.5)
        l.build(p, cell)
        kept = l.pairs().copy()
        lj, z = t.LennardJones.argon(), np.zeros(30, np.uint32)
        no = lambda *a, **k: refused(self, *a, **k)
        self.assertEqual(no(l.build, np.zeros((16_385, 3))), (2, 16_385))
        self.assertEqual(no(l.build, np.array([[np.nan, 0.0, 0.0]])), (3, 0))
        self.assertEqual(no(l.build, p, t.Lattice.cubic(np.inf)), (3, 0))
        self.assertEqual(no(t.NeighborList(1e-3).build, np.array([[0.0] * 3, [90.0] * 3])), (7, 0))
        self.assertEqual(no(t.NeighborList(-1.0).build, p), (3, 0))
        self.assertEqual(no(t.NeighborList(1.0, np.nan).needs_rebuild, p), (3, 0))
        self.assertEqual(l.builds(), 1)
        np.testing.assert_array_equal(l.pairs(), kept)
        self.assertEqual(no(lj.compute_pairs, z, p, [(0, 1), (3, 30)]), (4, 1))
        self.assertEqual(no(lj.compute_pairs, z[:29].copy(), p, l), (1, 0))
        self.assertEqual(no(t.HarmonicBonds(np.nan, 1.0).compute, [], p), (3, 0))
        self.assertEqual(no(t.min_image, (np.nan, 0, 0)), (3, 0))
        self.assertEqual(no(t.kinetic_energy, p, np.ones(29)), (1, 0))
        self.assertEqual(no(t.Contribution.zeros(1).add_pair_force, 0, 1, (0, 0, 0), (0, 0, 0)), (4, 0))
        self.assertEqual(no(t.apply_berendsen, 1.0, t.Berendsen(1.0, 0.0), p, np.ones(30)), (3, 0))
        q, v, f = p.copy(), np.full((30, 3), 1e6), np.zeros((30, 3))
        eval = t.Evaluator(l, t.Terms(lennard_jones=(lj, z)), cell)
        self.assertEqual(no(t.verlet_step, 2.0, None, q, v, np.ones(30), f, 0.0, eval), (3, 1))
        np.testing.assert_array_equal(q, p)


class Arrays(unittest.TestCase):
    """What does not fit is a TypeError that says so; nothing is copied in secret."""

    def wrong(self, what, call, *given, **named):
        with self.assertRaises(TypeError) as caught:
            call(*given, **named)
        self.assertRegex(str(caught.exception), what)

    def test_types_and_order(self):
        p = liquid(30, 12.0)
        l, lj = t.NeighborList(3.0, 0.5), t.LennardJones.argon()
        self.wrong("positions has numbers of type float32: .*np.ascontiguousarray", l.build, p.astype(np.float32))
        self.wrong("positions has numbers of type >f8", l.build, p.astype(">f8"))
        self.wrong("positions is not in C order", l.build, np.asfortranarray(p))
        self.wrong("positions is not in C order", l.build, np.zeros((30, 6))[:, ::2])
        self.wrong("this is a list", l.build, p.tolist())
        self.wrong(r"shape \(atoms, 3\); this is of shape \(90,\)", l.build, p.ravel())
        self.wrong("positions is a MaskedArray", l.build, np.ma.array(p, mask=False))
        self.wrong("species has numbers of type int64", lj.compute_all, np.zeros(30, np.int64), p)
        self.wrong("species is a list", lj.compute_all, [18] * 30, p)
        self.wrong("a cell is a Lattice or None", l.build, p, 12.0)
        self.wrong("pairs are rows of 2 whole numbers", lj.compute_pairs, np.zeros(30, np.uint32), p, [(0.5, 1.0)])

    def test_what_is_written(self):
        p = liquid(30, 12.0)
        eval = t.Evaluator(t.NeighborList(3.0, 0.5), t.Terms(lennard_jones=(t.LennardJones.argon(), [18] * 30)))
        f, m = eval.evaluate(p).forces, np.ones(30)
        still = p.copy()
        still.flags.writeable = False
        step = lambda *a: t.verlet_step(1.0, None, a[0], a[1], m, a[2], 0.0, eval)
        self.wrong("positions is to be written and is read-only: .*a copy would be lost", step, still, p.copy(), f)
        self.wrong("velocities is not in C order.*which can be written", step, p, np.asfortranarray(p), f)
        self.wrong("forces has numbers of type float32", step, p, p.copy(), f.astype(np.float32))
        with self.assertRaisesRegex(ValueError, "share memory"):
            step(p, p, f)
        with self.assertRaisesRegex(ValueError, "share memory"):
            t.LennardJones.argon().compute_all(np.zeros(30, np.uint32), p, None, forces=p)
        c = t.Contribution.zeros(3)
        with self.assertRaisesRegex(ValueError, "share memory"):
            c.merge(c)
        l = t.NeighborList(3.0, 0.5)
        l.build(still)  # to be read alone: fits

    def test_whole_numbers_are_not_cut_off(self):
        with self.assertRaisesRegex(ValueError, "i is 4294967297: a whole number from 0 to 4294967295"):
            t.NeighborList(1.0).exclude(2**32 + 1, 2)
        with self.assertRaisesRegex(ValueError, "there is -1"):
            t.NeighborList(1.0).set_exclusions([(-1, 2)])
        with self.assertRaisesRegex(ValueError, "an edge is 4294967306"):
            t.Frame((2**32 + 10, 10, 10)).build(np.zeros((1, 3), np.uint32))
        with self.assertRaises(TypeError):
            t.NeighborList(1.0).exclude(0.5, 2)

    def test_arguments_by_name(self):
        self.assertEqual(_raw.tyn_pressure(volume=3.0, kinetic=1.0, scalar=1.0).value, _raw.tyn_pressure(1.0, 1.0, 3.0).value)
        for bad in (dict(kinetic=1.0, scalar=1.0), dict(kinetic=1.0, scalar=1.0, volume=1.0, more=2)):
            self.assertRaises(TypeError, _raw.tyn_pressure, **bad)
        self.assertRaises(TypeError, _raw.tyn_pressure, 1.0, 1.0, 1.0, kinetic=1.0)
        self.assertRaises(TypeError, _raw.tyn_pressure, 1.0, 1.0, "x")
        self.assertRaises(TypeError, _raw.tyn_volume, 3.0)


SHEET = b"""020003000000050000000500000008
0300020000
0100040000000a0000000a0000000a0700000003
020000000000000000000000000000
020002000000050000000500000005
020001000000090000000000000000
"""


class WholeNumbers(unittest.TestCase):
    def test_the_sheet_of_the_readme(self):
        self.assertEqual(t.sheet.solve(SHEET).decode().split(), ["81000000020000000500", "8200020003", "8200000001"])
        self.assertEqual(t.sheet_clumps(SHEET).split(), ["8300000002", "8300020002"])
        s = t.Snapshot.from_sheet(SHEET)
        self.assertEqual((s.frame, len(s.atoms), s.exclusions), (t.Frame((10, 10, 10), (True, True, True), 3), 4, {(0, 2)}))
        self.assertEqual(t.sheet.write(s.frame, s.atoms, sorted(s.exclusions)), t.sheet.rewrite(SHEET))
        built = s.frame.build(s.atoms, sorted(s.exclusions))
        self.assertEqual((built.pairs.tolist(), built.checks), ([[2, 3], [0, 1]], 5))
        self.assertEqual(refused(self, t.Snapshot.from_sheet, SHEET[:-1] + b"0\n"), (9, 6))
        self.assertTrue(t.sheet.rewrite(b"").startswith(b"8f"))

    def test_shells_and_skin(self):
        rng = np.random.default_rng(5)
        atoms = rng.integers(0, 40, (100, 3), dtype=np.uint32)
        frame = t.Frame((40, 40, 40), (True, True, True), 12)
        snapshot = t.Snapshot(frame, atoms)
        snapshot.exclude(7, 3)
        shells = t.Shells(10, 16)
        listed = shells.add(snapshot)
        want = [0] * 16
        for i, j in itertools.combinations(range(100), 2):
            d = (atoms[i].astype(int) - atoms[j] + 20) % 40 - 20
            if d @ d <= 144 and (i, j) != (3, 7):
                want[min(int(d @ d) // 10, 15)] += 1
        self.assertEqual((shells.totals().tolist(), shells.sum(), listed.pairs), (want, sum(want), sum(want)))
        self.assertEqual(frame.squared_distance((0, 0, 0), (39, 0, 38)), 5)
        moved = (atoms + 1) % 40
        self.assertTrue(frame.within_skin(4, atoms, moved.astype(np.uint32)))
        self.assertFalse(frame.within_skin(3, atoms, moved.astype(np.uint32)))
        self.assertEqual(frame.widened(4).radius, 16)
        self.assertEqual(refused(self, t.Shells(0, 3).add, snapshot), (3, 0))
        self.assertEqual(refused(self, t.Shells(10, totals=[2**64 - 1] * 4).add, snapshot)[0], 13)

    def test_clumps(self):
        c = t.clumps(6, [(4, 2), (2, 4), (5, 5), (0, 2)])
        self.assertEqual((c.labels.tolist(), c.count), ([0, 1, 0, 3, 0, 5], 4))
        self.assertEqual(refused(self, t.clumps, 3, [(0, 1), (1, 3)]), (4, 1))


if __name__ == "__main__":
    unittest.main()
