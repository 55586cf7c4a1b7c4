//! Shell counts over a run: totals against a plain count, refusals, rooms that grow.
#[macro_use]
mod common;
use common::Rng;
use tyngyrlak::*;

fn axis(a: u32, b: u32, edge: u32, periodic: bool) -> u64 {
    let d = u64::from(a.abs_diff(b));
    if periodic {
        d.min(u64::from(edge) - d)
    } else {
        d
    }
}

/// The totals by trying all pairs.
fn counted(frames: &[Snapshot], width: u64, shells: usize) -> Vec<u64> {
    let mut totals = vec![0; shells];
    for f in frames {
        for j in 0..f.atoms.len() {
            for i in 0..j {
                let square: u64 = (0..3).map(|k| axis(f.atoms[i][k], f.atoms[j][k], f.frame.edges[k], f.frame.periodic[k]).pow(2)).sum();
                if square <= u64::from(f.frame.radius).pow(2) && !f.exclusions.contains(&(i as u32, j as u32)) {
                    totals[((square / width) as usize).min(shells - 1)] += 1;
                }
            }
        }
    }
    totals
}

fn below(r: &mut Rng, n: u32) -> u32 {
    (r.next() % u64::from(n)) as u32
}

fn random(r: &mut Rng, atoms: usize) -> Snapshot {
    let edges = [0; 3].map(|_| 20 + below(r, 40));
    let periodic = [0; 3].map(|_| below(r, 2) == 1);
    let mut one = Snapshot {
        frame: Frame { edges, periodic, radius: [0, 2, 3, 5, 7, 10][below(r, 6) as usize] },
        atoms: (0..atoms).map(|_| edges.map(|e| below(r, e))).collect(),
        ..Default::default()
    };
    for _ in 0..20 {
        one.exclude(below(r, 200), below(r, 200));
    }
    one
}

tests! {
    fn a_run_counts_all_pairs_of_its_frames() {
        let mut r = Rng(12);
        for width in [1, 3, 7, 50, 1000] {
            let frames: Vec<Snapshot> = (0..20).map(|k| random(&mut r, 30 * k)).collect();
            let mut shells = Shells::new(width, 9);
            let mut listed = 0;
            for f in &frames {
                listed += u128::from(shells.add(f).unwrap().pairs);
            }
            assert_eq!(shells.totals(), counted(&frames, width, 9));
            assert_eq!((shells.sum(), shells.width()), (listed, width));
        }
    }

    fn a_refused_frame_adds_nothing() {
        let mut r = Rng(13);
        let good = random(&mut r, 200);
        let mut shells = Shells::new(5, 4);
        shells.add(&good).unwrap();
        let before = shells.totals().to_vec();
        let wide = Frame { radius: 21 + good.frame.edges[0] / 2, periodic: [true; 3], ..good.frame };
        let far = Snapshot { frame: wide, ..good.clone() };
        let e = shells.add(&far).unwrap_err();
        assert_eq!((e.call, e.number, e.place), ("tyn_add_shells", 3, 0));
        assert_eq!(shells.totals(), before);
        assert_eq!(Shells::new(0, 4).add(&good).unwrap_err().number, 3);
        assert_eq!(Shells::new(1, 0).add(&good).unwrap_err().number, 3);
    }

    fn refusals_come_in_their_order() {
        let open = Frame { edges: [40; 3], periodic: [false; 3], radius: 3 };
        let mut one = Snapshot { frame: open, atoms: vec![[1; 3]; 16_385], ..Default::default() };
        let refused = |width, one: &Snapshot| {
            let mut shells = Shells::new(width, 2);
            let e = shells.add(one).unwrap_err();
            assert_eq!(shells.totals(), [0, 0]);
            (e.number, e.place)
        };
        one.exclusions.insert((5, 2));
        assert_eq!(refused(0, &one), (2, 16_385));
        one.atoms.truncate(16_384);
        assert_eq!(refused(0, &one), (3, 0));
        assert_eq!(refused(1, &one), (5, 0));
        one.exclusions.clear();
        one.frame.radius = 1;
        assert_eq!(refused(1, &one), (7, 0));
        one.atoms.truncate(1);
        assert_eq!(refused(0, &one), (3, 0));
        assert_eq!(Shells::new(1, 2).add(&one).unwrap().pairs, 0);
    }

    fn a_full_total_leaves_all_as_they_were() {
        let open = Frame { edges: [40; 3], periodic: [false; 3], radius: 3 };
        let line = |n: u32| Snapshot { frame: open, atoms: (0..n).map(|k| [3 * k, 0, 0]).collect(), ..Default::default() };
        let totals = vec![0, u64::MAX - 2, 7];
        let mut shells = Shells::with_totals(9, totals.clone());
        let e = shells.add(&line(4)).unwrap_err();
        assert_eq!((e.number, e.place, e.words()), (13, 0, "a total would pass 2^64 - 1"));
        assert_eq!(shells.totals(), totals);
        shells.add(&line(3)).unwrap();
        assert_eq!(shells.totals(), [0, u64::MAX, 7]);
        assert_eq!(shells.add(&line(2)).unwrap_err().number, 13);
    }

    fn a_sheet_is_a_frame() {
        let sheet = b"020003000000050000000500000008\n0300020000\n0100040000000a0000000a0000000a0700000003\n\
            020000000000000000000000000000\n020002000000050000000500000005\n020001000000090000000000000000\n";
        let from = Snapshot::from_sheet(sheet).unwrap();
        let frame = from.frame;
        assert_eq!((frame.edges, frame.periodic, frame.radius), ([10; 3], [true; 3], 3));
        assert_eq!((from.atoms.as_slice(), from.exclusions.len()), (&[[0; 3], [9, 0, 0], [5; 3], [5, 5, 8]][..], 1));
        let mut shells = Shells::new(1, 10);
        let listed = shells.add(&from).unwrap();
        assert_eq!((listed.pairs, listed.checks, listed.fallback), (2, 5, false));
        assert_eq!(shells.totals(), [0, 1, 0, 0, 0, 0, 0, 0, 0, 1]);
        let e = Snapshot::from_sheet(&sheet[1..]).unwrap_err();
        assert_eq!((e.call, e.number, e.place), ("tyn_read", 9, 1));
    }
}
