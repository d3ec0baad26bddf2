//! Two changes on different paths, made in both orders by the library, each
//! on a copy of one image and journal. Where both are accepted both times, the
//! two images must show the same by paths.

use crate::arguments::{changes, create, create_directory, good_kind};
use crate::images::{self, good_name};
use crate::lent::Lent;
use crate::library::{self, Pair};
use crate::rng::Rng;
use crate::tester::Tester;
use crate::{ffi, journals};
use reference::path::Want;
use reference::views::{difference, is_inside, views};
use reference::{Change, State};
use std::collections::BTreeSet;

pub fn run(rng: &mut Rng, _: u64, t: &mut Tester) {
    let n = images::small_n(rng);
    let image = images::of(rng, n);
    for _ in 0..6 {
        let (first, second) = two_changes(rng, &image);
        let paths: Vec<Vec<u8>> = first.paths().into_iter().chain(second.paths()).collect();
        if first.paths().iter().any(|path| second.paths().contains(path)) {
            continue;
        }
        let journal = if rng.once_in(6) {
            journals::any(rng, &image)
        } else {
            reference::start(2 * journals::room_for_all(&image)).unwrap()
        };
        let state = State { image: image.clone(), journal };
        t.report.about(format!("n {n}: {}, {}", brief(&first), brief(&second)));
        let one = both(t, &state, &first, &second);
        let other = both(t, &state, &second, &first);
        if let (Some(one), Some(other)) = (one, other) {
            let inside =
                |path: &Vec<u8>, other: &Vec<u8>| is_inside(path, other) || is_inside(other, path);
            let (these, those) = paths.split_at(first.paths().len());
            let inside = these.iter().any(|path| those.iter().any(|other| inside(path, other)));
            t.report.agree("accepted in both orders: one path inside the other", inside, false);
            same(t, &one, &other, &paths);
        }
    }
}

fn brief(change: &Change) -> String {
    let text = format!("{change:?}");
    let kind = text.split('(').next().unwrap_or_default();
    format!("{kind} {}", change.path().escape_ascii())
}

/// Two changes that the image accepts, mostly; now and then one of them where
/// the other is or will be.
fn two_changes(rng: &mut Rng, image: &[u8]) -> (Change, Change) {
    let first = any_accepted(rng, image);
    let second = if rng.once_in(8) {
        let path = [&first.path()[..], b"/", &good_name(rng)].concat();
        let (file, folder) = (good_kind(rng, Want::File), good_kind(rng, Want::Directory));
        match rng.below(2) {
            0 => create(rng, path, file, 0),
            _ => create_directory(rng, path, folder, 0, 1),
        }
    } else {
        any_accepted(rng, image)
    };
    (first, second)
}

/// A change of any kind, tried again a few times where it is refused.
fn any_accepted(rng: &mut Rng, image: &[u8]) -> Change {
    let kind = rng.below(12);
    let mut change = changes(rng, image)[kind].clone();
    for _ in 0..8 {
        if reference::volume::change(image, &change).is_ok() {
            break;
        }
        change = changes(rng, image)[kind].clone();
    }
    change
}

/// Both changes, one right after the other, by the library. Gives image and
/// journal if both were accepted.
fn both(t: &mut Tester, state: &State, first: &Change, second: &Change) -> Option<Pair> {
    let mut pair = t.lend_pair(state);
    let number = t.change_in(&mut pair, state, first);
    let between = pair.content();
    let then = t.change_in(&mut pair, &between, second);
    (number == 0 && then == 0).then_some(pair)
}

/// Two images show the same: all that is in them, read by the reference, and
/// what the library answers at every path and at those that were changed.
fn same(t: &mut Tester, one: &Pair, other: &Pair, changed: &[Vec<u8>]) {
    let shown = views(one.image.content());
    let unlike = difference(&shown, &views(other.image.content()));
    t.report.agree("either order", unlike, None);
    let paths: BTreeSet<&Vec<u8>> = shown.paths.keys().chain(changed).collect();
    for path in paths {
        let equal = answers(&one.image, path) == answers(&other.image, path);
        t.report.agree("answers after either order", equal, true);
    }
}

/// What the library answers about a path, but for the slot.
fn answers(image: &Lent, path: &[u8]) -> (ffi::Found, [(ffi::Filled, Vec<u8>); 2]) {
    let path = Lent::new(path, 0);
    let found = ffi::Found { slot: 0, ..library::lookup(image, &path) };
    let size = found.size as usize;
    let fill = |length: usize, call: &dyn Fn(&mut Lent) -> ffi::Filled| {
        let mut buffer = Lent::new(&vec![0xA5; length], 0);
        (call(&mut buffer), buffer.content().to_vec())
    };
    let bytes = fill(size, &|buffer| library::read(image, &path, 0, buffer));
    let attributes = fill(4096, &|buffer| library::read_attributes(image, &path, buffer));
    (found, [bytes, attributes])
}
