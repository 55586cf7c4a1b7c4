//! The four unit constants, which the original keeps in a module of this name.
//!
//! Its text has other bits, perhaps: build with `TYNGYRLAK_UNITS` set to the bits of the four, in the order below, 16 hexadecimal digits each, with commas
//! between. A run then uses them in every call.
use crate::raw;

include!(concat!(env!("OUT_DIR"), "/units.rs"));

pub(crate) const RAW: raw::Units =
    raw::Units { force_to_accel: FORCE_TO_ACCEL, kb_ev_per_k: KB_EV_PER_K, ke_coulomb: KE_COULOMB, ev_per_a3_to_gpa: EV_PER_A3_TO_GPA };
