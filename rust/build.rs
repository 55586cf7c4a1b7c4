// Where the static library is, the four unit constants, and, for the tests, the module tree of the original.
//   TYNGYRLAK_LIB_DIR  the folder of libfield.a; without it ../crates/field/out, where `rt lib` in crates/field writes it
//   TYNGYRLAK_UNITS    the bits of the four constants of `units`, 16 hexadecimal digits each, between commas
//   FIELD_SRC          the folder of the original's cell.rs, neighbor.rs, ..; without it the tests that compare are marked ignored
// A folder is an absolute path, or one from this folder.
mod original;

use std::path::PathBuf;
use std::{env, fs};

/// FORCE_TO_ACCEL, KB_EV_PER_K, KE_COULOMB, EV_PER_A3_TO_GPA: the doubles nearest to the CODATA figures.
const UNITS: &str = "3f83c29c34cf86e0,3f1696fe94e12d2c,402ccc9e55083fa2,406406f7193c1128";

fn main() {
    println!("cargo::rustc-check-cfg=cfg(no_archive)");
    println!("cargo::rustc-check-cfg=cfg(original)");
    println!("cargo::rerun-if-changed=build.rs");
    println!("cargo::rerun-if-changed=original.rs");
    archive();
    let units = units();
    if original::write(&units) {
        println!("cargo::rustc-cfg=original");
    }
}

fn archive() {
    println!("cargo::rerun-if-env-changed=TYNGYRLAK_LIB_DIR");
    let named = env::var_os("TYNGYRLAK_LIB_DIR").map(PathBuf::from);
    let arch = env::var("CARGO_CFG_TARGET_ARCH").expect("cargo sets it");
    if arch != "x86_64" && named.is_none() {
        println!("cargo::warning=libfield.a is for x86-64, this is {arch}: nothing of it is linked, every call panics and every test that needs it is ignored");
        println!("cargo::rustc-cfg=no_archive");
        return;
    }
    let here = PathBuf::from(env::var_os("CARGO_MANIFEST_DIR").expect("cargo sets it"));
    let folder = here.join(named.unwrap_or("../crates/field/out".into()));
    let file = folder.join("libfield.a");
    println!("cargo::rerun-if-changed={}", file.display());
    if !file.is_file() {
        println!(
            "cargo::error=there is no {}: `rt lib` in crates/field makes it, or TYNGYRLAK_LIB_DIR names its folder",
            file.display()
        );
        return;
    }
    println!("cargo::rustc-link-search=native={}", folder.display());
    println!("cargo::rustc-link-lib=static=field");
}

/// Writes OUT_DIR/units.rs and hands back its text.
fn units() -> String {
    println!("cargo::rerun-if-env-changed=TYNGYRLAK_UNITS");
    let given = env::var("TYNGYRLAK_UNITS").unwrap_or(UNITS.to_string());
    let bits: Vec<u64> = given.split(',').filter_map(|w| u64::from_str_radix(w.trim(), 16).ok()).collect();
    if bits.len() != 4 || given.split(',').count() != 4 {
        println!("cargo::error=TYNGYRLAK_UNITS is not four words of hexadecimal digits between commas: {given}");
    }
    let named = [
        ("FORCE_TO_ACCEL", "Å amu / (eV fs²): what makes an acceleration of a force over a mass."),
        ("KB_EV_PER_K", "Boltzmann's constant in eV/K."),
        ("KE_COULOMB", "Coulomb's constant in eV Å / e²."),
        ("EV_PER_A3_TO_GPA", "GPa in one eV/Å³."),
    ];
    let mut text = String::new();
    for (k, (name, what)) in named.iter().enumerate() {
        let x = bits.get(k).copied().unwrap_or(0);
        text += &format!("/// {what} {:e}.\npub const {name}: f64 = f64::from_bits({x:#018x});\n", f64::from_bits(x));
    }
    let out = PathBuf::from(env::var_os("OUT_DIR").expect("cargo sets OUT_DIR"));
    fs::write(out.join("units.rs"), &text).expect("OUT_DIR can be written");
    text
}
