// The module tree of the original, whose folder FIELD_SRC names; its units are those that the library is handed, unless the folder has its own.
// An absolute path, or one from this folder.
#[path = "../rust/original.rs"]
mod original;

fn main() {
    println!("cargo::rerun-if-changed=../rust/original.rs");
    if !original::write("pub use tyngyrlak::field::units::*;\n") {
        println!("cargo::error=FIELD_SRC does not name the folder of the original (cell.rs, neighbor.rs, ..)");
    }
}
