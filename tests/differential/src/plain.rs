//! The plain check beside the check. Every damaged image has it, of any length; a
//! sound one up to a bound. Those that take long run on a thread of their own beside
//! the suites: the library keeps nothing between calls.

use crate::lent::Lent;
use crate::library;
use crate::report::{Entry, Place, Report};
use crate::tester::unequal;
use std::collections::HashSet;
use std::sync::mpsc::{sync_channel, SyncSender};
use std::thread::{self, JoinHandle};

/// The most steps of a plain check that is waited for, a second or so. In stage 6 it
/// walks every chain once for each block.
const STEPS: usize = 1 << 28;

/// How many images may wait for the thread; the largest has 32 MiB.
const WAITING: usize = 24;

/// What has been checked. A damaged image is known by the key of its bytes.
#[derive(Default)]
pub struct Plain {
    damaged: HashSet<u64>,
    answered: HashSet<u64>,
    sound: u64,
    left_out: u64,
    beside: Option<Beside>,
}

struct Beside {
    images: SyncSender<Long>,
    answers: JoinHandle<Vec<Late>>,
}

/// An image on which the plain check takes long.
struct Long {
    image: Lent,
    key: u64,
    expected: u32,
    place: Place,
}

/// What came of it.
struct Late {
    key: u64,
    expected: u32,
    place: Place,
    troubles: [Option<String>; 2],
}

/// A number that tells images apart. It has four sums side by side, which is fast.
fn key(image: &[u8]) -> u64 {
    let parts = image.chunks_exact(32);
    let mut last = [0; 32];
    last[..parts.remainder().len()].copy_from_slice(parts.remainder());
    let mut sums = [image.len() as u64; 4];
    for part in parts.chain([&last[..]]) {
        for (sum, word) in sums.iter_mut().zip(part.chunks_exact(8)) {
            *sum = mixed(*sum, u64::from_le_bytes(word.try_into().expect("eight bytes")));
        }
    }
    sums.into_iter().fold(0, mixed)
}

fn mixed(sum: u64, word: u64) -> u64 {
    (sum ^ word).wrapping_mul(0x9E37_79B9_7F4A_7C15).rotate_left(29)
}

/// How many steps the plain check takes at most, but for small numbers: stage 6 has
/// one for each block and each entry of the table that is not 0.
fn steps(image: &[u8], stage: u32) -> usize {
    if (1..6).contains(&stage) {
        return 0;
    }
    let n = image.len() / 512;
    let entries = image[512..512 + 4 * n].chunks_exact(4);
    n * entries.filter(|entry| entry.iter().any(|&byte| byte != 0)).count()
}

fn troubles(lent: &Lent, image: &[u8], expected: u32) -> [Option<String>; 2] {
    [unequal(library::plain_check(lent), expected), lent.trouble("image", image)]
}

impl Plain {
    /// Whether the checks have had this damaged image.
    pub fn knows(&self, image: &[u8]) -> bool {
        self.damaged.contains(&key(image))
    }

    /// The plain check of a lent image for which the check must give `expected`:
    /// damaged, always; sound, up to the bound.
    pub fn check(&mut self, report: &mut Report, lent: &Lent, image: &[u8], expected: u32) {
        let short = steps(image, expected) <= STEPS;
        if short {
            report.call(Entry::PlainCheck, expected, troubles(lent, image, expected));
        }
        if expected == 0 {
            self.sound += 1;
            self.left_out += u64::from(!short);
            return;
        }
        let key = key(image);
        let new = self.damaged.insert(key);
        if short {
            self.answered.insert(key);
        } else if new {
            let image = Lent::new(image, self.damaged.len());
            self.wait_for(Long { image, key, expected, place: report.place() });
        }
    }

    fn wait_for(&mut self, long: Long) {
        let beside = self.beside.get_or_insert_with(|| {
            let (images, received) = sync_channel::<Long>(WAITING);
            let answers = thread::spawn(move || received.into_iter().map(Long::check).collect());
            Beside { images, answers }
        });
        // An image that is not taken has no answer, which the counts show.
        let _ = beside.images.send(long);
    }

    /// Waits for the answers of the thread. Gives how many there are.
    pub fn finish(&mut self, report: &mut Report) -> usize {
        let Some(Beside { images, answers }) = self.beside.take() else {
            return 0;
        };
        drop(images);
        let late = answers.join().unwrap_or_default();
        let count = late.len();
        for Late { key, expected, place, troubles } in late {
            report.back(place);
            report.call(Entry::PlainCheck, expected, troubles);
            self.answered.insert(key);
        }
        count
    }

    /// How many images had the plain check. One that is damaged and had none is a failure.
    pub fn counts(&self, report: &mut Report) {
        let (damaged, answered) = (self.damaged.len(), self.answered.len());
        println!("plain check: on {answered} of {damaged} damaged images");
        println!(
            "plain check: left out of {} of {} checks of sound ones",
            self.left_out, self.sound
        );
        if self.damaged != self.answered {
            report.fail("a damaged image had no plain check");
        }
    }
}

impl Long {
    fn check(self) -> Late {
        let Long { image: lent, key, expected, place } = self;
        let image = lent.content().to_vec();
        Late { key, expected, place, troubles: troubles(&lent, &image, expected) }
    }
}
