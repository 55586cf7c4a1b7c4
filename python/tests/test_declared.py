"""The declarations are those of the header: by the generator's own check, and by a C compiler's sizes and offsets."""
import ctypes
import os
import re
import shutil
import subprocess
import sys
import tempfile
import unittest

from common import ROOT, tyngyrlak

from tyngyrlak import _raw

HEADER = os.path.join(ROOT, "include", "tyngyrlak.h")


class Declared(unittest.TestCase):
    def test_made_of_the_header(self):
        done = subprocess.run([sys.executable, os.path.join(ROOT, "python", "declare.py"), "--check"], capture_output=True, text=True)
        self.assertEqual((done.returncode, done.stderr), (0, ""))

    def test_every_function(self):
        with open(HEADER, encoding="utf-8") as f:
            names = re.findall(r"^\w+ (tyn_\w+)\(", f.read(), re.M)
        self.assertGreater(len(names), 60)
        for name in names:
            self.assertTrue(getattr(_raw, name).__doc__, name)
        self.assertEqual(sorted(names), sorted(n for n in vars(_raw) if n.startswith("tyn_")))

    def test_words(self):
        numbers = set(_raw.REFUSALS.values()) - {0}
        self.assertEqual(numbers, {n for n, _, _ in _raw.WORDS})
        self.assertEqual(str(tyngyrlak.Error("tyn_step", 7, 0, True)),
                         "tyn_step: refusal 7, place 0: the grid needs more than 32,768 cells (the step stopped after its drift)")
        self.assertEqual(tyngyrlak.Error("tyn_read", 11, 0xFFFFFFFF).words, "the sheet has no header")

    @unittest.skipUnless(shutil.which("gcc"), "there is no gcc to ask for sizes and offsets")
    def test_laid_out_as_c_does(self):
        kinds = {n: k for n, k in vars(_raw).items() if isinstance(k, type) and issubclass(k, ctypes.Structure) and k is not ctypes.Structure}
        c = {n: "tyn_" + re.sub(r"(?<=[a-z0-9])(?=[A-Z])", "_", n).lower() for n in kinds}
        lines = ['#include <stdio.h>', '#include "tyngyrlak.h"', "int main(void) {"]
        for n, k in kinds.items():
            lines.append('printf("%s %%zu %%zu\\n", sizeof(%s), _Alignof(%s));' % (n, c[n], c[n]))
            for field, *_ in k._fields_:
                lines.append('printf("%s.%s %%zu %%zu\\n", offsetof(%s, %s), sizeof(((%s *)0)->%s));' % (n, field, c[n], field, c[n], field))
        lines.append("return 0; }")
        with tempfile.TemporaryDirectory() as folder:
            with open(os.path.join(folder, "sizes.c"), "w") as f:
                f.write("\n".join(lines))
            program = os.path.join(folder, "sizes")
            subprocess.run(["gcc", "-std=c11", "-I", os.path.dirname(HEADER), f.name, "-o", program], check=True)
            said = subprocess.run([program], check=True, capture_output=True, text=True).stdout
        ours = []
        for n, k in kinds.items():
            ours.append("%s %d %d\n" % (n, ctypes.sizeof(k), ctypes.alignment(k)))
            ours += ["%s.%s %d %d\n" % (n, f, getattr(k, f).offset, getattr(k, f).size) for f, *_ in k._fields_]
        self.assertGreater(len(kinds), 40)
        self.assertEqual(said, "".join(ours))


if __name__ == "__main__":
    unittest.main()
