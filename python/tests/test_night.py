"""The example night and extended XYZ: ASE reads what it wrote, and it reads what ASE writes. It must be built before (rust/, `cargo build --release --example
night`); TYNGYRLAK_NIGHT names it where it is elsewhere. Skipped, with one line, where it is not built or ASE is not installed."""
import os
import re
import subprocess
import tempfile
import unittest

from common import ROOT, np, say, tyngyrlak

NIGHT = os.environ.get("TYNGYRLAK_NIGHT") or os.path.join(ROOT, "rust", "target", "release", "examples", "night")
try:
    import ase.io
except ImportError:
    say("skipped: ASE is not installed (Debian: python3-ase), so no extended XYZ is compared with it")
    raise unittest.SkipTest("ASE is not installed") from None
if not os.access(NIGHT, os.X_OK):
    say("skipped: there is no %s, so no extended XYZ is tried with it" % NIGHT)
    raise unittest.SkipTest("night is not built")

from ase.build import bulk
from ase.calculators.lj import LennardJones as Theirs
from ase.md.velocitydistribution import MaxwellBoltzmannDistribution

RUN = "list 6 1\nlj 0.0103 3.4 6\nsteps 20 2 5\n"


class Night(unittest.TestCase):
    def setUp(self):
        self.folder = tempfile.TemporaryDirectory()
        self.addCleanup(self.folder.cleanup)

    def path(self, name):
        return os.path.join(self.folder.name, name)

    def night(self, run, status=0):
        with open(self.path("run"), "w") as f:
            f.write(run)
        done = subprocess.run([NIGHT, self.path("run")], capture_output=True, text=True, cwd=self.folder.name)
        self.assertEqual(done.returncode, status, done.stderr)
        return done.stdout if status == 0 else done.stderr

    def argon(self, edge=5.6):
        atoms = bulk("Ar", "fcc", a=edge, cubic=True) * (3, 3, 3)
        atoms.rattle(0.1, seed=4)
        return atoms

    def test_what_it_writes_ase_reads(self):
        said = self.night("cell 17 17 17\ngrid 4 4 4 39.948 18 90\n%swrite run.xyz 8\n" % RUN)
        self.assertIn("trajectory   4 frames in run.xyz", said)
        self.assertEqual(sorted(os.listdir(self.folder.name)), ["run", "run.xyz"])
        frames = ase.io.read(self.path("run.xyz"), ":")
        self.assertEqual([f.info["step"] for f in frames], [0, 8, 16, 20])
        self.assertEqual([f.info["time"] for f in frames], [0, 16, 32, 40])
        for f in frames:
            self.assertEqual((f.get_chemical_formula(), f.cell.cellpar().tolist(), f.pbc.tolist()), ("Ar64", [17, 17, 17, 90, 90, 90], [True] * 3))
        last = frames[-1]
        kelvin = float(re.search(r"^temperature +(\S+) K", said, re.M).group(1))
        # ASE's constants are of another year in the ninth digit
        self.assertAlmostEqual(last.get_temperature() / kelvin, 1, places=6)
        shown = float(re.findall(r"^step .*? (\S+) eV", said, re.M)[-1])
        self.assertAlmostEqual(last.get_potential_energy() + last.get_kinetic_energy(), shown, places=5)

    def test_what_ase_writes_it_reads(self):
        atoms = self.argon()
        atoms.set_initial_charges(np.tile([0.1, -0.1], 54))
        MaxwellBoltzmannDistribution(atoms, temperature_K=80, rng=np.random.RandomState(3))
        masses = atoms.get_masses()
        masses[5] = 20.25
        atoms.set_masses(masses)
        atoms.positions[3] += atoms.cell[0]
        ase.io.write(self.path("start.xyz"), atoms, format="extxyz")
        self.night("read start.xyz\ncoulomb 6\n%swrite out.xyz 20\n" % RUN.replace("steps 20", "steps 0"))
        back = ase.io.read(self.path("out.xyz"))
        given = ase.io.read(self.path("start.xyz"))
        self.assertTrue(np.array_equal(back.numbers, given.numbers) and np.array_equal(back.pbc, given.pbc))
        for name in ("positions", "masses", "initial_charges"):
            np.testing.assert_array_equal(back.arrays[name], given.arrays[name], name)
        np.testing.assert_array_equal(back.cell, given.cell)
        np.testing.assert_allclose(back.get_momenta(), given.get_momenta(), rtol=1e-14)

    def test_a_tilted_open_and_a_plain_file(self):
        atoms = self.argon(5.8)
        atoms.set_cell(atoms.cell + [[0, 0, 0], [3, 0, 0], [0, 0, 0]], scale_atoms=True)
        atoms.pbc = (True, True, False)
        ase.io.write(self.path("slab.xyz"), atoms)
        self.night("read slab.xyz 40\n%swrite out.xyz 10\n" % RUN)
        frames = ase.io.read(self.path("out.xyz"), ":")
        self.assertEqual((len(frames), frames[0].pbc.tolist()), (3, [True, True, False]))
        np.testing.assert_array_equal(frames[0].cell, ase.io.read(self.path("slab.xyz")).cell)
        self.assertAlmostEqual(frames[0].get_temperature(), 40, delta=6)
        ase.io.write(self.path("plain.xyz"), atoms, format="xyz")
        self.assertIn("no cell: no density", self.night("read plain.xyz\n%swrite out2.xyz 10\n" % RUN))
        self.assertEqual(ase.io.read(self.path("out2.xyz")).cell.rank, 0)

    def test_a_run_goes_on_from_its_trajectory(self):
        self.night("cell 17 17 17\ngrid 4 4 4 39.948 18 90\n%swrite one.xyz 20\n" % RUN)
        self.night("read one.xyz\n%swrite two.xyz 20\n" % RUN)
        one, two = ase.io.read(self.path("one.xyz")), ase.io.read(self.path("two.xyz"), 0)
        np.testing.assert_array_equal(one.positions, two.positions)
        self.assertAlmostEqual(one.get_total_energy(), two.get_total_energy(), places=10)

    def test_the_same_energy_as_from_python(self):
        atoms = self.argon()
        ase.io.write(self.path("start.xyz"), atoms)
        atoms = ase.io.read(self.path("start.xyz"))
        self.night("read start.xyz\n%swrite out.xyz 20\n" % RUN.replace("steps 20", "steps 0"))
        from tyngyrlak.ase import LennardJones

        try:
            atoms.calc = LennardJones(epsilon=0.0103, sigma=3.4, rc=6.0)
            energy = atoms.get_potential_energy()
        except ImportError as e:
            self.skipTest(str(e))
        self.assertAlmostEqual(ase.io.read(self.path("out.xyz")).get_potential_energy() / energy, 1, places=13)

    def test_open_axes(self):
        """A pair across an open face, atoms that fly apart, and a slab: energies as ASE has them at each frame."""
        for pbc in ((True, True, False), (False, True, True), (False, True, False), (False, False, False)):
            atoms = self.argon(5.8)[:60]
            atoms.set_cell(atoms.cell + [[0, 0, 0], [3, 0, 0], [0, 1, 0]], scale_atoms=True)
            atoms.positions -= 5.0  # most of them outside of the cell
            atoms.pbc = pbc
            MaxwellBoltzmannDistribution(atoms, temperature_K=3000, rng=np.random.RandomState(3))
            ase.io.write(self.path("slab.xyz"), atoms)
            self.night("read slab.xyz\n%swrite out.xyz 50\n" % RUN.replace("steps 20 2 5", "steps 400 5"))
            frames = ase.io.read(self.path("out.xyz"), ":")
            self.assertEqual((len(frames), frames[0].pbc.tolist()), (9, list(pbc)))
            for f in frames:
                energy = f.get_potential_energy()
                f.calc = Theirs(epsilon=0.0103, sigma=3.4, rc=6.0)
                self.assertAlmostEqual(f.get_potential_energy(), energy, delta=1e-10 * abs(energy) + 1e-12)

    def test_bad_files_are_one_line_and_nothing_is_written(self):
        good = "1\nLattice=\"17 0 0 0 17 0 0 0 17\"\nAr 0 0 0\n"
        with open(self.path("out.xyz"), "w") as f:
            f.write("kept\n")
        for text, says in [
            ("", "bad.xyz, line 1: expected the number of atoms, found the end of the file"),
            (good.replace("Ar 0 0 0", "Ar 0 0"), "bad.xyz, line 3: expected 4 words, as Properties says, found 3"),
            (good.replace("Ar", "Qq"), "bad.xyz, line 3: expected the symbol of an element, found `Qq`"),
            (good + "1\n", "bad.xyz, line 5: expected a line of key=value pairs, found the end of the file"),
        ]:
            with open(self.path("bad.xyz"), "w") as f:
                f.write(text)
            said = self.night("%swrite out.xyz 5\nread bad.xyz\n" % RUN, status=1)
            self.assertEqual(said, "night: %s, line 5: %s\n" % (self.path("run"), says))
        self.assertIn("no.xyz: No such file", self.night("read no.xyz\n", status=1))
        with open(self.path("bad.xyz"), "w") as f:
            f.write(good)
        self.assertIn("bad.xyz is read: the trajectory wants another name", self.night("read bad.xyz\n%swrite bad.xyz 5\n" % RUN, status=1))
        self.assertIn("is no number of steps", self.night("read bad.xyz\n%swrite out.xyz 0\n" % RUN, status=1))
        # refused at its start, and no element
        self.assertIn("refusal 3", self.night("read bad.xyz\nlist -1 0\nlj 1 1 1\nsteps 5 1\nwrite out.xyz 5\n", status=1))
        self.assertIn("species 200 is no element", self.night("cell 17 17 17\ngrid 1 1 2 30 200 9\n%swrite out.xyz 5\n" % RUN, status=1))
        self.assertEqual(sorted(os.listdir(self.folder.name)), ["bad.xyz", "out.xyz", "run"])
        with open(self.path("out.xyz")) as f:
            self.assertEqual(f.read(), "kept\n")

    def test_a_run_that_stops_leaves_whole_frames_beside(self):
        with open(self.path("fast.xyz"), "w") as f:
            f.write("2\nProperties=species:S:1:pos:R:3:velo:R:3\nAr 0 0 0 0 0 0\nAr 0 0 900000 0 0 90000\n")
        said = self.night("read fast.xyz\nlist 6 900000\nlj 0.01 3 6\nsteps 20 1\nwrite out.xyz 1\n", status=1)
        self.assertRegex(said, r"its \d+ frames so far are in out.xyz.part\nnight: step \d+: tyn_step: refusal 3, place 1: a coordinate would drift")
        frames = ase.io.read(self.path("out.xyz.part"), ":", format="extxyz")
        self.assertIn("its %d frames" % len(frames), said)
        self.assertNotIn("out.xyz", os.listdir(self.folder.name))

    def test_shells(self):
        said = self.night("cell 17 17 17\ngrid 4 4 4 39.948 18 90\n%sshells 12\n" % RUN)
        rows = re.findall(r"^ +\d+ +([0-9.]+) +([0-9.]+) +(\d+) +\S+$", said, re.M)
        self.assertEqual((len(rows), rows[0][0], rows[-1][1]), (12, "0.0000", "6.0000"))
        total = int(re.search(r"^shells +(\d+) pairs in 4 frames, distances in A", said, re.M).group(1))
        self.assertEqual(sum(int(r[2]) for r in rows), total)
        self.assertIn("want a cell", self.night("atom 39.9 18 0 0 0 0\n%sshells 12\n" % RUN, status=1))


if __name__ == "__main__":
    unittest.main()
