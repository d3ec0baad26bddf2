//! The library keeps nothing between calls: images and journals of one length
//! take turns in the same buffers.

use crate::arguments::{any_append, any_get, any_list, changes};
use crate::rng::Rng;
use crate::tester::Tester;
use crate::{damage, images, journals};
use reference::State;

pub fn run(rng: &mut Rng, _: u64, t: &mut Tester) {
    let n = images::small_n(rng);
    let sound: Vec<Vec<u8>> = (0..3).map(|_| images::of(rng, n)).collect();
    let journals = journals_of_one_length(rng, &sound);
    let first = State { image: sound[0].clone(), journal: journals[0].clone() };
    let mut pair = t.lend_pair(&first);
    for step in 0..40 {
        t.report.about(format!("n {n}, step {step} in the same buffers"));
        let mut state = State { image: rng.pick(&sound), journal: rng.pick(&journals) };
        let changes = changes(rng, &state.image);
        let list = any_list(rng, &state.image);
        let piece = any_append(rng, &state.image);
        let get = any_get(rng, &state.image);
        if rng.once_in(3) {
            damage_in_place(rng, &mut state.image);
        }
        pair.image.put(&state.image);
        pair.journal.put(&state.journal);
        match rng.below(6) {
            0 => t.check_in(&pair.image, &state.image),
            2 => {
                t.write_list_in(&mut pair, &state, &list);
            }
            3 => {
                t.append_in(&mut pair, &state, &piece);
            }
            4 => {
                t.get_in(&pair.image, &state.image, &get);
            }
            1 => {
                t.change_in(&mut pair, &state, &rng.pick(&changes));
            }
            _ => {
                t.undo_in(&mut pair, &state);
            }
        }
    }
}

/// An empty journal, one with records, and one that is not well formed.
fn journals_of_one_length(rng: &mut Rng, images: &[Vec<u8>]) -> Vec<Vec<u8>> {
    let records = journals::with_records(rng, &images[0], 2, 9000);
    let mut bad = records.clone();
    bad[0] = 0;
    vec![reference::start(records.len()).unwrap(), records, bad]
}

/// Damage that leaves the length as it is.
fn damage_in_place(rng: &mut Rng, image: &mut Vec<u8>) {
    let sound = image.clone();
    loop {
        damage::any(rng, image);
        if image.len() == sound.len() {
            return;
        }
        image.clone_from(&sound);
    }
}
