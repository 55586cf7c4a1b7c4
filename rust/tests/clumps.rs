//! Clumps: labels by lists and by pairs, refusals, and the text of a sheet.
#[macro_use]
mod common;
use common::{liquid, Rng};
use tyngyrlak::clumps::label;
use tyngyrlak::*;

/// By a plain search from atom to atom.
fn searched(atoms: usize, pairs: &[(usize, usize)]) -> Clumps {
    let mut labels = vec![u32::MAX; atoms];
    let mut count = 0;
    for low in 0..atoms {
        if labels[low] != u32::MAX {
            continue;
        }
        count += 1;
        let mut waiting = vec![low];
        while let Some(a) = waiting.pop() {
            if labels[a] != u32::MAX {
                continue;
            }
            labels[a] = low as u32;
            waiting.extend(pairs.iter().filter_map(|&(x, y)| if x == a { Some(y) } else { (y == a).then_some(x) }));
        }
    }
    Clumps { labels, count }
}

tests! {
    fn labels_are_those_of_a_plain_search() {
        let mut rng = Rng(13);
        for _ in 0..200 {
            let n = 1 + rng.below(60);
            let pairs: Vec<_> = (0..rng.below(2 * n)).map(|_| (rng.below(n), rng.below(n))).collect();
            assert_eq!(clumps(n, &pairs).unwrap(), searched(n, &pairs), "{n} {pairs:?}");
        }
    }

    fn a_list_or_its_pairs() {
        let p = liquid(&mut Rng(3), 300, 40.0);
        let mut list = NeighborList::new(4.0, 0.0);
        list.build(&p, None).unwrap();
        let by_list = clumps(300, &list).unwrap();
        assert_eq!(by_list, clumps(300, list.pairs()).unwrap());
        assert_eq!(by_list, searched(300, list.pairs()));
        assert!(by_list.count > 1 && by_list.count < 300);
    }

    fn no_atoms_and_no_pairs() {
        assert_eq!(clumps(0, &[]).unwrap(), Clumps { labels: vec![], count: 0 });
        assert_eq!(clumps(3, &[]).unwrap(), Clumps { labels: vec![0, 1, 2], count: 3 });
        assert_eq!(clumps(16_384, &[(16_383, 0)]).unwrap().count, 16_383);
    }

    fn refusals_leave_the_labels() {
        let of = |rows: &[u32], n: usize| {
            let mut labels = vec![9; n];
            let e = label(rows, &mut labels).unwrap_err();
            assert!(labels.iter().all(|l| *l == 9));
            (e.number, e.place)
        };
        assert_eq!(of(&[0, 1, 1], 2), (1, 0));
        assert_eq!(of(&[0, 1], 16_385), (2, 16_385));
        assert_eq!(of(&[0, 1, 1, 2, 3, 0], 3), (4, 2));
        assert_eq!(of(&[u32::MAX, 0], 3), (4, 0));
    }

    fn the_text_of_a_sheet() {
        let sheet = "020003000000050000000500000008\n0300020000\n0100040000000a0000000a0000000a0700000003\n020000000000000000000000000000\n\
            020002000000050000000500000005\n020001000000090000000000000000\n";
        assert_eq!(sheet_clumps(sheet.as_bytes()), "8300000002\n8300020002\n");
        assert_eq!(sheet_clumps(b"0100000000000a0000000a0000000a0700000003\n"), "");
        assert_eq!(sheet_clumps(b""), "8f0bffffffff\n");
    }
}
