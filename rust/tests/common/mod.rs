//! Marks for tests, and random systems.
#![allow(dead_code, unused_macros)]

/// Tests of the library. Where nothing of it is linked they are marked ignored, and panic if they are run all the same.
macro_rules! tests {
    ($(fn $name:ident() $body:block)*) => { $(
        #[test]
        #[cfg_attr(no_archive, ignore = "libfield.a is for x86-64: nothing of it is linked on this machine")]
        fn $name() $body
    )* };
}

/// Tests that hold the library against the original: without its source marked ignored, and they panic if they are run all the same.
macro_rules! compared {
    ($(fn $name:ident() $body:block)*) => { $(
        #[test]
        #[cfg_attr(no_archive, ignore = "libfield.a is for x86-64: nothing of it is linked on this machine")]
        #[cfg_attr(all(not(no_archive), not(original)), ignore = "FIELD_SRC does not name the folder of the original: nothing is compared")]
        fn $name() {
            #[cfg(not(original))]
            panic!("FIELD_SRC does not name the folder of the original: nothing is compared");
            #[cfg(original)]
            $body
        }
    )* };
}

/// A fixed run of numbers (splitmix64).
pub struct Rng(pub u64);

impl Rng {
    pub fn next(&mut self) -> u64 {
        self.0 = self.0.wrapping_add(0x9e3779b97f4a7c15);
        let mut z = self.0;
        z = (z ^ (z >> 30)).wrapping_mul(0xbf58476d1ce4e5b9);
        z = (z ^ (z >> 27)).wrapping_mul(0x94d049bb133111eb);
        z ^ (z >> 31)
    }

    pub fn below(&mut self, n: usize) -> usize {
        (self.next() % n as u64) as usize
    }

    pub fn range(&mut self, lo: f64, hi: f64) -> f64 {
        lo + (hi - lo) * ((self.next() >> 11) as f64 / (1u64 << 53) as f64)
    }

    pub fn three(&mut self, lo: f64, hi: f64) -> [f64; 3] {
        [(); 3].map(|()| self.range(lo, hi))
    }
}

/// Atoms on a shaken grid in a box of the given edge, so that no two are close.
pub fn liquid(r: &mut Rng, n: usize, edge: f64) -> Vec<[f64; 3]> {
    let k = (n as f64).cbrt().ceil() as usize;
    let a = edge / k as f64;
    (0..n).map(|i| [i / (k * k), i / k % k, i % k].map(|c| a * (c as f64 + 0.5 + r.range(-0.2, 0.2)))).collect()
}
