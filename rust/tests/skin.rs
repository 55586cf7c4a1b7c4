//! The whole-number frame and its skin: a random walk in which a list is kept while `within_skin` says yes, held against all pairs.
#[macro_use]
mod common;
use common::Rng;
use tyngyrlak::frame::Frame;
use tyngyrlak::Error;

fn refused<T: std::fmt::Debug>(r: Result<T, Error>) -> (u32, u64) {
    let e = r.expect_err("refused");
    (e.number, e.place)
}

/// The squared distance of nearest images, by trying the three images of each axis.
fn squared(f: &Frame, a: [u32; 3], b: [u32; 3]) -> u64 {
    (0..3)
        .map(|k| {
            let (d, e) = (a[k] as i64 - b[k] as i64, f.edges[k] as i64);
            let images: &[i64] = if f.periodic[k] { &[-1, 0, 1] } else { &[0] };
            images.iter().map(|i| ((d + i * e) * (d + i * e)) as u64).min().unwrap()
        })
        .sum()
}

/// All unexcluded pairs within the radius, by trying all.
fn all_within(f: &Frame, p: &[[u32; 3]], excluded: &[[u32; 2]]) -> Vec<[u32; 2]> {
    let n = p.len() as u32;
    let pairs = (0..n).flat_map(|i| (i + 1..n).map(move |j| [i, j]));
    pairs.filter(|r| !excluded.contains(r) && squared(f, p[r[0] as usize], p[r[1] as usize]) <= (f.radius as u64).pow(2)).collect()
}

/// A step of at most `reach` on each axis: round a periodic axis, and no further than the end of an open one.
fn walk(r: &mut Rng, f: &Frame, p: &mut [[u32; 3]], reach: i64) {
    for a in p {
        for (k, x) in a.iter_mut().enumerate() {
            let (to, e) = (*x as i64 + r.below(2 * reach as usize + 1) as i64 - reach, f.edges[k] as i64);
            *x = if f.periodic[k] { to.rem_euclid(e) } else { to.clamp(0, e - 1) } as u32;
        }
    }
}

/// Walks so many frames; gives how many were kept, how many pairs within the cutoff a kept list was asked for, and how many frames past the skin a list
/// that was kept all the same would have missed a pair in.
fn kept_walk(seed: u64, f: &Frame, skin: u32, atoms: usize, frames: usize, reach: i64) -> (usize, usize, usize) {
    let r = &mut Rng(seed);
    let mut p: Vec<[u32; 3]> = (0..atoms).map(|_| [0, 1, 2].map(|k| r.below(f.edges[k] as usize) as u32)).collect();
    let excluded: Vec<[u32; 2]> = (0..atoms as u32 / 4).map(|i| [4 * i, 4 * i + 1]).collect();
    let mut old = p.clone();
    let mut list = f.widened(skin).build(&old, &excluded).unwrap().pairs;
    assert_eq!(
        {
            let mut l = list.clone();
            l.sort();
            l
        },
        all_within(&f.widened(skin), &old, &excluded)
    );
    let (mut kept, mut asked, mut missed) = (0, 0, 0);
    for frame in 0..frames {
        walk(r, f, &mut p, reach);
        let little = p.iter().zip(&old).all(|(a, b)| 4 * squared(f, *b, *a) <= (skin as u64).pow(2));
        assert_eq!(f.within_skin(skin, &old, &p).unwrap(), little, "frame {frame}");
        let now = all_within(f, &p, &excluded);
        if little {
            kept += 1;
            asked += now.len();
            assert!(now.iter().all(|row| list.contains(row)), "a pair is missing in frame {frame}");
            // the rows that are within the cutoff now are what a new build would list
            let mut still: Vec<[u32; 2]> =
                list.iter().copied().filter(|w| squared(f, p[w[0] as usize], p[w[1] as usize]) <= (f.radius as u64).pow(2)).collect();
            still.sort();
            assert_eq!(still, now);
        } else {
            missed += !now.iter().all(|row| list.contains(row)) as usize;
            old = p.clone();
            list = f.widened(skin).build(&old, &excluded).unwrap().pairs;
        }
    }
    (kept, asked, missed)
}

tests! {
    fn a_kept_list_misses_nothing() {
        let round = Frame { edges: [60, 48, 54], periodic: [true; 3], radius: 7 };
        let (kept, asked, _) = kept_walk(1, &round, 9, 120, 1000, 1);
        assert!(kept > 700 && kept < 1000 && asked > 30_000, "{kept} {asked}");
        let open = Frame { edges: [40, 40, 30], periodic: [false, true, false], radius: 5 };
        let (kept, asked, _) = kept_walk(2, &open, 8, 100, 1000, 1);
        assert!(kept > 600 && kept < 1000 && asked > 20_000, "{kept} {asked}");
        // no grid: a radius of half an edge
        let narrow = Frame { edges: [30, 30, 30], periodic: [true, true, false], radius: 8 };
        let (kept, asked, _) = kept_walk(3, &narrow, 7, 60, 1000, 1);
        assert!(kept > 500 && kept < 1000 && asked > 20_000, "{kept} {asked}");
        // skin 0 bears no move, and a list that is kept all the same misses pairs
        let (kept, _, missed) = kept_walk(4, &round, 0, 120, 200, 1);
        assert!(kept == 0 && missed > 150, "{kept} {missed}");
    }

    fn the_condition_is_tight() {
        let f = Frame { edges: [10; 3], periodic: [true; 3], radius: 3 };
        let (old, new) = ([[0, 0, 0], [5, 0, 0]], [[1, 0, 0], [4, 0, 0]]);
        assert!(f.within_skin(2, &old, &new).unwrap());
        assert_eq!(f.widened(2).build(&old, &[]).unwrap().pairs, [[0, 1]]);
        assert!(!f.within_skin(1, &old, &new).unwrap());
        assert_eq!(f.widened(1).build(&old, &[]).unwrap().pairs.len(), 0);
        assert_eq!(f.build(&new, &[]).unwrap().pairs, [[0, 1]]);
        assert!(f.within_skin(0, &new, &new).unwrap());
        // the way through the end of a periodic axis counts
        assert!(f.within_skin(2, &[[0, 9, 0]], &[[9, 9, 0]]).unwrap());
        assert!(!Frame { periodic: [false; 3], ..f }.within_skin(2, &[[0, 9, 0]], &[[9, 9, 0]]).unwrap());
    }

    fn refusals_are_those_of_a_build_at_radius_and_skin() {
        let f = Frame { edges: [10; 3], periodic: [true; 3], radius: 3 };
        let p = [[0, 0, 0], [9, 9, 9]];
        assert_eq!(refused(f.within_skin(2, &p, &p[..1])), (1, 0));
        assert_eq!(refused(f.within_skin(2, &vec![[0; 3]; 16_385], &vec![[0; 3]; 16_385])), (2, 16_385));
        assert!(f.within_skin(2, &vec![[0; 3]; 16_384], &vec![[1, 0, 0]; 16_384]).unwrap());
        assert!(!f.within_skin(2, &vec![[0; 3]; 16_384], &vec![[2, 0, 0]; 16_384]).unwrap());
        assert_eq!(refused(f.within_skin(3, &p, &p)), (3, 0));
        assert_eq!(refused(f.within_skin(3, &[], &[])), (3, 0));
        assert_eq!(refused(f.within_skin(2, &p, &[[0, 0, 0], [9, 10, 9]])), (3, 0));
        assert_eq!(refused(f.within_skin(2, &[[0, 0, 0], [9, 9, 10]], &p)), (3, 0));
        let open = Frame { edges: [10; 3], periodic: [false; 3], radius: 0 };
        assert!(open.within_skin(1 << 20, &p, &p).unwrap());
        assert_eq!(refused(open.within_skin((1 << 20) + 1, &p, &p)), (3, 0));
        assert_eq!(refused(Frame { radius: u32::MAX, ..open }.within_skin(1, &p, &p)), (3, 0));
        assert_eq!(f.squared_distance([0; 3], [9, 9, 5]).unwrap(), 27);
    }
}
