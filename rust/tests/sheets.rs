//! Written sheets: one form for each meaning; sheets of either form, there and back.
#[macro_use]
mod common;
use tyngyrlak::field::potentials::Mixing;
use tyngyrlak::frame::{Frame, Snapshot};
use tyngyrlak::sheet::{pairs, read, rewrite, to_one, to_two, write};

const TYPED: &str = "020003000000050000000500000008\n0300020000\n0100040000000a0000000a0000000a0700000003\n020000000000000000000000000000\n\
                     020002000000050000000500000005\n020001000000090000000000000000\n";
const WRITTEN: &str = "0100040000000a0000000a0000000a0700000003\n020000000000000000000000000000\n020001000000090000000000000000\n\
                       020002000000050000000500000005\n020003000000050000000500000008\n0300000002\n";
const SECOND: &str = "1100040000000a0000000a0000000a070000000301\n12000000000000000000000000000000000000\n12000100000009000000000000000000000000\n\
                      12000200000005000000050000000500000000\n12000300000005000000050000000800000000\n0300000002\n";
const BOX: Frame = Frame { edges: [10; 3], periodic: [true; 3], radius: 3 };
const ATOMS: [[u32; 3]; 4] = [[0, 0, 0], [9, 0, 0], [5, 5, 5], [5, 5, 8]];

fn refused(frame: Frame, atoms: &[[u32; 3]], exclusions: &[(u32, u32)]) -> (u32, u64) {
    let e = write(&frame, atoms, exclusions).expect_err("refused");
    (e.number, e.place)
}

tests! {
    fn a_typed_sheet_and_its_frame_have_one_written_form() {
        assert_eq!(rewrite(TYPED.as_bytes()), WRITTEN.as_bytes());
        assert_eq!(rewrite(WRITTEN.as_bytes()), WRITTEN.as_bytes());
        assert_eq!(write(&BOX, &ATOMS, &[(0, 2)]).unwrap(), WRITTEN.as_bytes());
        let again = format!("{TYPED}0300000002\n0300010001\n");
        assert_eq!(rewrite(again.as_bytes()), WRITTEN.as_bytes());
        assert_ne!(rewrite(format!("{TYPED}0300000001\n").as_bytes()), WRITTEN.as_bytes());
    }

    fn flags_are_the_mask() {
        for mask in 0..8u32 {
            let frame = Frame { periodic: [0, 1, 2].map(|k| mask >> k & 1 == 1), ..BOX };
            let text = write(&frame, &[], &[]).unwrap();
            assert_eq!(text, format!("010000{}{mask:02x}00000003\n", "0000000a".repeat(3)).into_bytes());
        }
    }

    fn the_longest_form_fits() {
        let atoms: Vec<[u32; 3]> = (0..1024).map(|k| [k % 10, k / 10 % 10, k / 100 % 10]).collect();
        let rows: Vec<(u32, u32)> = (0..1024).map(|k| (k, 0xffff)).collect();
        let text = write(&BOX, &atoms, &rows).unwrap();
        assert_eq!(text.len(), 43_049);
        assert_eq!(rewrite(&text), text);
    }

    fn refusals() {
        assert_eq!(refused(BOX, &[[0; 3]; 1025], &[]), (2, 1025));
        assert_eq!(refused(Frame { radius: 6, ..BOX }, &ATOMS, &[]), (3, 0));
        assert_eq!(refused(BOX, &[[10, 0, 0]], &[(1, 0)]), (3, 0));
        assert_eq!(refused(BOX, &ATOMS, &[(1, 0)]), (5, 0));
        assert_eq!(refused(BOX, &ATOMS, &[(0, 0x10000)]), (5, 0));
        assert_eq!(rewrite(b""), b"8f0bffffffff\n");
        assert_eq!(rewrite(TYPED.replace("0700000003", "0700000006").as_bytes()), b"8f0300000000\n");
        assert_eq!(rewrite(&vec![b'0'; 65_537]), b"8f0100000000\n");
    }

    fn there_and_back_is_the_written_form() {
        assert_eq!(to_two(TYPED.as_bytes()).unwrap(), SECOND.as_bytes());
        assert_eq!(to_one(SECOND.as_bytes()).unwrap(), WRITTEN.as_bytes());
        let atoms: Vec<[u32; 3]> = (0..1024).map(|k| [k % 10, k / 10 % 10, k / 100 % 10]).collect();
        let rows: Vec<(u32, u32)> = (0..1024).map(|k| (k, 0xffff)).collect();
        let long = write(&BOX, &atoms, &rows).unwrap();
        let two = to_two(&long).unwrap();
        assert_eq!(two.len(), 51_243);
        assert_eq!(to_one(&two).unwrap(), long);
    }

    fn either_form_is_read() {
        let (one, two) = (read(TYPED.as_bytes()).unwrap(), read(SECOND.as_bytes()).unwrap());
        assert_eq!(one.snapshot, Snapshot::from_sheet(TYPED.as_bytes()).unwrap());
        assert_eq!((one.snapshot, one.species, one.form), (two.snapshot, vec![0; 4], 1));
        assert_eq!((two.species, two.form), (vec![0; 4], 2));
        let typed = SECOND.replace("120002000000050000000500000005000000", "1200020000000500000005000000050000ff");
        assert_eq!(read(typed.as_bytes()).unwrap().species, [0, 0, 0xff00, 0]);
        assert_eq!(pairs(typed.as_bytes()), b"81000000020000000500\n8200020003\n8200000001\n");
        assert_eq!(pairs(TYPED.as_bytes()), pairs(SECOND.as_bytes()));
    }

    fn a_header_names_the_rule() {
        let ending = |end: &str| SECOND.replace("070000000301\n", &format!("0700000003{end}\n"));
        assert_eq!(read(TYPED.as_bytes()).unwrap().mixing, Mixing::HalfSum);
        for (end, mixing) in [("", Mixing::HalfSum), ("01", Mixing::HalfSum), ("02", Mixing::Geometric)] {
            let told = read(ending(end).as_bytes()).unwrap();
            assert_eq!((told.mixing, told.form), (mixing, 2));
            assert_eq!(pairs(ending(end).as_bytes()), pairs(SECOND.as_bytes()));
        }
        assert_eq!(to_one(ending("").as_bytes()).unwrap(), WRITTEN.as_bytes());
        for sheet in [ending("02"), ending("02").replace("0700000003", "0700000006"), ending("02").replace("00000000\n120002", "00000007\n120002"), format!("110000{}000000000002\n", "0000000a".repeat(3))] {
            let e = to_one(sheet.as_bytes()).unwrap_err();
            assert_eq!((e.number, e.place, e.words()), (12, 0xffff_ffff, "the sheet can't go back to the first form: its rule is 2"));
        }
        for end in ["00", "03", "0a", "1", "001", "0102"] {
            assert_eq!(read(ending(end).as_bytes()).unwrap_err().number, 9);
            assert_eq!(to_one(ending(end).as_bytes()).unwrap_err().number, 9);
        }
        assert_eq!(read(TYPED.replace("0700000003", "070000000301").as_bytes()).unwrap_err().number, 9);
    }

    fn refusals_of_the_second_form() {
        let place = |r: Result<Vec<u8>, _>| { let e: tyngyrlak::Error = r.expect_err("refused"); (e.number, e.place) };
        let typed = SECOND.replace("120002000000050000000500000005000000", "1200020000000500000005000000050000ff");
        assert_eq!(place(to_one(typed.as_bytes())), (12, 2));
        assert_eq!(place(to_one(TYPED.as_bytes())), (9, 1));
        assert_eq!(place(to_two(SECOND.as_bytes())), (9, 1));
        assert_eq!(place(to_one(typed.replace("0700000003", "0700000006").as_bytes())), (12, 2));
        assert_eq!(place(to_one(SECOND.replace("0700000003", "0700000006").as_bytes())), (3, 0));
        let mixed = format!("0300000001\n{SECOND}020004000000050000000500000008\n");
        assert_eq!((read(mixed.as_bytes()).unwrap_err().number, read(mixed.as_bytes()).unwrap_err().place), (9, 8));
        assert_eq!(pairs(mixed.as_bytes()), b"8f0900000008\n");
        assert!(Snapshot::from_sheet(SECOND.as_bytes()).is_err());
    }
}
