//! The extended XYZ of the example `night`: what is read, what is refused and in which words, and what is written is read back to the bit. Nothing here needs
//! the library.
#[allow(dead_code)]
#[path = "../examples/night/xyz.rs"]
mod xyz;
use tyngyrlak::{units, Lattice};
use xyz::{read, written, Atom};

const TWO: &str = "2\nLattice=\"12 0 0 0 13 0 1 0 14\" Properties=species:S:1:pos:R:3:momenta:R:3:tag:L:1:initial_charges:R:1 pbc=\"T T F\" note='a b'\n\
    Ar 0.5 0 -1e-3 0.1 0 0 T 0.25\nna 3.8 0 0 0 0.2 0 F -0.25\n";

#[test]
fn a_frame_is_read() {
    let f = read("two.xyz", TWO).unwrap();
    let cell = Lattice { a: [12.0, 0.0, 0.0], b: [0.0, 13.0, 0.0], c: [1.0, 0.0, 14.0], periodic: [true, true, false] };
    assert_eq!((f.cell, f.moving, f.atoms.len()), (Some(cell), true, 2));
    let root = units::FORCE_TO_ACCEL.sqrt();
    let ar = Atom { number: 18, mass: 39.948, charge: 0.25, position: [0.5, 0.0, -1e-3], velocity: [0.1 / 39.948 * root, 0.0, 0.0] };
    assert_eq!(f.atoms[0], ar);
    assert_eq!((f.atoms[1].number, f.atoms[1].charge), (11, -0.25));
}

#[test]
fn a_plain_file_and_the_last_frame() {
    let f = read("plain.xyz", "1\nwhat it's made of\nAr 1 2 3\n1\n\nHe 4 5 6\n\n").unwrap();
    assert_eq!((f.cell, f.moving, f.atoms[0].number, f.atoms[0].position), (None, false, 2, [4.0, 5.0, 6.0]));
    let z = read("z.xyz", "1\nProperties=Z:I:1:pos:R:3:velo:R:3:masses:R:1 pbc=\"F F F\"\n6 1 2 3 0.1 0.2 0.3 13\n").unwrap();
    assert_eq!((z.atoms[0].number, z.atoms[0].mass, z.atoms[0].velocity, z.cell), (6, 13.0, [0.1, 0.2, 0.3], None));
    assert_eq!(read("t.xyz", "1\nLattice=\"9 0 0 0 9 0 0 0 9\"\nAr 1 2 3\n").unwrap().cell, Some(Lattice::cubic(9.0)));
    assert!(read("none.xyz", "0\nx\n").unwrap().atoms.is_empty());
}

/// One line each: the file, the line and what was expected.
#[test]
fn bad_files() {
    for (text, says) in [
        ("", "bad.xyz, line 1: expected the number of atoms, found the end of the file"),
        ("two\n\nAr 0 0 0\n", "bad.xyz, line 1: expected the number of atoms, found `two`"),
        ("-1\n\n", "bad.xyz, line 1: expected the number of atoms, found `-1`"),
        ("1\n", "bad.xyz, line 2: expected a line of key=value pairs, found the end of the file"),
        ("2\n\nAr 0 0 0\n", "bad.xyz, line 4: expected atom 2 of 2, found the end of the file"),
        ("1\n\nAr 0 0 0\nAr 0 0 0\n", "bad.xyz, line 4: expected the number of atoms, found `Ar 0 0 0`"),
        ("1\n\nAr 0 0\n", "bad.xyz, line 3: expected 4 words, as Properties says, found 3"),
        ("1\n\nAr 0 0 0 0\n", "bad.xyz, line 3: expected 4 words, as Properties says, found 5"),
        ("1\n\nAr 0 zero 0\n", "bad.xyz, line 3: expected a finite number, found `zero`"),
        ("1\n\nAr 0 inf 0\n", "bad.xyz, line 3: expected a finite number, found `inf`"),
        ("1\n\nQq 0 0 0\n", "bad.xyz, line 3: expected the symbol of an element, found `Qq`"),
        ("1\nLattice=\"1 0 0 0 1 0 0 0\"\nAr 0 0 0\n", "bad.xyz, line 2: expected nine numbers in Lattice, found `1 0 0 0 1 0 0 0`"),
        ("1\npbc=\"T T T\"\nAr 0 0 0\n", "bad.xyz, line 2: expected a Lattice, since an axis is periodic"),
        ("1\npbc=\"T T\"\nAr 0 0 0\n", "bad.xyz, line 2: expected three of T and F in pbc, found `T T`"),
        ("1\nProperties=species:S:1\nAr\n", "bad.xyz, line 2: expected species:S:1 (or Z:I:1) and pos:R:3 in Properties"),
        ("1\nProperties=species:S:1:pos:R\nAr\n", "bad.xyz, line 2: expected name:kind:count in Properties, found `pos:R`"),
        ("1\nProperties=species:S:1:pos:Q:3\nAr\n", "bad.xyz, line 2: expected a kind of S, R, I, L and a count of columns in Properties, found `pos:Q:3`"),
        ("1\nProperties=Z:I:1:pos:R:3\n119 0 0 0\n", "bad.xyz, line 3: expected 0 to 118, found `119`"),
        ("1\nProperties=species:S:1:pos:R:3:masses:R:1\nAr 0 0 0 0\n", "bad.xyz, line 3: expected a mass above 0, found 0"),
        ("18446744073709551615\n\nAr 0 0 0\n", "bad.xyz, line 4: expected atom 2 of 18446744073709551615, found the end of the file"),
    ] {
        assert_eq!(read("bad.xyz", text).unwrap_err(), says, "{text:?}");
    }
}

#[test]
fn what_is_written_is_read_back() {
    let awkward = [0.1, -1.0 / 3.0, 1e-7, -0.0, 5e-324, 123456.789, 1e15, 1048576.0, 36.183];
    let atoms: Vec<Atom> = (0..60)
        .map(|k| Atom {
            number: 1 + k as u32,
            mass: 1.5 + k as f64 / 7.0,
            charge: awkward[k % 4],
            position: [awkward[k % 9], awkward[(k + 4) % 9], -awkward[(k + 7) % 9]],
            velocity: [0.0; 3],
        })
        .collect();
    for (cell, open) in [(None, true), (Some(Lattice { a: awkward[..3].try_into().unwrap(), periodic: [true, false, true], ..Lattice::cubic(7.1) }), false)] {
        let text = written(cell.as_ref(), &atoms, "step=3");
        let back = read("own.xyz", &text).unwrap();
        assert_eq!((back.cell, back.cell.is_none(), &back.atoms), (cell, open, &atoms));
        assert!(back.atoms.iter().zip(&atoms).all(|(a, b)| a.position.map(f64::to_bits) == b.position.map(f64::to_bits)));
    }
    // momenta go through a division and a multiplication by the root
    let moving = Atom { velocity: [0.01, -0.02, 3e-9], number: 18, mass: 39.948, ..Default::default() };
    let back = read("own.xyz", &written(None, &[moving], "")).unwrap().atoms[0];
    assert!((0..3).all(|k| (back.velocity[k] / moving.velocity[k] - 1.0).abs() < 1e-15), "{back:?}");
}
