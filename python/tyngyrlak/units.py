"""The four unit constants, as the crate for Rust has them: the doubles nearest to the CODATA figures, or those of TYNGYRLAK_UNITS in the environment when the
package is imported (the bits of the four, 16 hexadecimal digits each, between commas)."""
import os
import struct

from . import _raw


def _read(text):
    try:
        values = [struct.unpack(">d", bytes.fromhex(w.strip()))[0] for w in text.split(",")]
    except (ValueError, struct.error):
        values = []
    if len(values) != 4:
        raise ValueError("TYNGYRLAK_UNITS is not four words of 16 hexadecimal digits between commas: %s" % text)
    return values


#: Å amu / (eV fs²): what makes an acceleration of a force over a mass.
FORCE_TO_ACCEL: float
#: Boltzmann's constant in eV/K.
KB_EV_PER_K: float
#: Coulomb's constant in eV Å / e².
KE_COULOMB: float
#: GPa in one eV/Å³.
EV_PER_A3_TO_GPA: float
FORCE_TO_ACCEL, KB_EV_PER_K, KE_COULOMB, EV_PER_A3_TO_GPA = _read(os.environ.get("TYNGYRLAK_UNITS") or _raw.UNITS)

#: The four as the library takes them.
RAW = _raw.Units(FORCE_TO_ACCEL, KB_EV_PER_K, KE_COULOMB, EV_PER_A3_TO_GPA)
