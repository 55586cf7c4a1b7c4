// For build scripts: the module tree of the unchanged Rust original, written where the tests or the bench include it.
use std::path::{Path, PathBuf};
use std::{env, fs};

/// Writes OUT_DIR/original.rs, a module `original` with the files of the folder that FIELD_SRC names, copied as they are, and `units`: the folder's own
/// units.rs where it has one, else `units`, the text of a module with the four constants. False where FIELD_SRC is not set.
pub fn write(units: &str) -> bool {
    println!("cargo::rerun-if-env-changed=FIELD_SRC");
    let Some(folder) = env::var_os("FIELD_SRC").map(PathBuf::from) else {
        return false;
    };
    let out = PathBuf::from(env::var_os("OUT_DIR").expect("cargo sets OUT_DIR")).join("original");
    fs::create_dir_all(&out).expect("OUT_DIR can be written");
    let mut tree = String::from("/// The Rust original.\n#[allow(unexpected_cfgs, dead_code, missing_docs, rustdoc::all, clippy::all)]\npub mod original {\n");
    for name in ["cell", "neighbor", "potentials", "virial", "verlet", "fire"] {
        let from = folder.join(format!("{name}.rs"));
        let text = fs::read_to_string(&from).unwrap_or_else(|e| panic!("FIELD_SRC names a folder without {name}.rs: {e}"));
        tree += &module(&out, name, &text);
        println!("cargo::rerun-if-changed={}", from.display());
    }
    let own = folder.join("units.rs");
    let text = fs::read_to_string(&own).unwrap_or_else(|_| units.to_string());
    tree += &module(&out, "units", &text);
    tree += "}\n";
    fs::write(out.with_extension("rs"), tree).expect("OUT_DIR can be written");
    true
}

fn module(out: &Path, name: &str, text: &str) -> String {
    let to = out.join(format!("{name}.rs"));
    fs::write(&to, text).expect("OUT_DIR can be written");
    format!("    #[path = {to:?}]\n    pub mod {name};\n")
}
