//! The chain table loaded as numbers and stored back.

use crate::rng::Rng;
use crate::tester::Tester;
use crate::{damage, images};
use reference::layout::{block_count, MAX_BLOCKS};

/// Sound images of any length, with runs that are just long enough and others.
pub fn run(rng: &mut Rng, _: u64, t: &mut Tester) {
    let image = images::any(rng);
    let n = block_count(&image);
    for count in [n, n, n - 1, n + 1, rng.below(2 * n), 0] {
        t.report.about(format!("n {n}, {count} numbers"));
        both(rng, t, &image, count);
    }
    let mut broken = image.clone();
    let clause = damage::any(rng, &mut broken);
    t.report.about(format!("stage {}: {}", clause.stage, clause.what));
    both(rng, t, &broken, n);
    there_and_back(t, &image);
}

/// The largest images, and one block more.
pub fn largest(rng: &mut Rng, _: u64, t: &mut Tester) {
    for n in [4095, 4096, 4097, MAX_BLOCKS - 1, MAX_BLOCKS] {
        let image = images::of(rng, n);
        t.report.about(format!("n {n}"));
        both(rng, t, &image, n);
        both(rng, t, &image, n - 1);
        there_and_back(t, &image);
    }
    let n = MAX_BLOCKS + 1;
    t.report.about(format!("n {n}"));
    both(rng, t, &vec![0; 512 * n], n);
}

/// A load into random numbers, and a store of random ones.
fn both(rng: &mut Rng, t: &mut Tester, image: &[u8], count: usize) {
    let numbers: Vec<u32> = (0..count).map(|_| rng.next() as u32 >> rng.below(32)).collect();
    t.load_table(image, &numbers);
    t.store_table(image, &numbers);
}

/// The image's own numbers: the store changes nothing.
fn there_and_back(t: &mut Tester, image: &[u8]) {
    let own = reference::load_table(image, block_count(image)).unwrap();
    let after = t.store_table(image, &own);
    t.report.agree("the image again", after == image, true);
}
