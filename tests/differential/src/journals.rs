//! Journals of every kind, and every way of not being well formed.

use crate::rng::Rng;
use reference::journal::{HEAD, SAVED, VERSION};
use reference::layout::{block_count, put_number, BLOCK};

/// One record; the saved bytes are the image's, or random.
pub fn record(rng: &mut Rng, image: &[u8], most_blocks: usize) -> Vec<u8> {
    let n = block_count(image);
    let count = rng.between(1, most_blocks.min(n));
    let mut blocks: Vec<usize> = (0..count).map(|_| rng.below(n)).collect();
    if rng.once_in(3) {
        blocks.push(n - 1);
    }
    blocks.sort_unstable();
    blocks.dedup();
    let own = rng.once_in(2);
    let mut record = ((4 + SAVED * blocks.len()) as u32).to_be_bytes().to_vec();
    for b in blocks {
        record.extend((b as u32).to_be_bytes());
        if own {
            record.extend(&image[b * BLOCK..(b + 1) * BLOCK]);
        } else {
            record.extend(rng.bytes(BLOCK));
        }
    }
    record
}

/// A journal with the given records, and `spare` random bytes past them.
pub fn of_records(rng: &mut Rng, records: &[Vec<u8>], spare: usize) -> Vec<u8> {
    let mut journal = vec![VERSION, 0, 0, 0, 0];
    journal.extend(records.concat());
    let used = journal.len();
    put_number(&mut journal, 1, used as u32);
    journal.extend(rng.bytes(spare));
    journal
}

pub fn with_records(rng: &mut Rng, image: &[u8], count: usize, spare: usize) -> Vec<u8> {
    let records: Vec<_> = (0..count).map(|_| record(rng, image, 6)).collect();
    of_records(rng, &records, spare)
}

/// The length of a journal that has room for a record of every block.
pub fn room_for_all(image: &[u8]) -> usize {
    HEAD + 4 + SAVED * block_count(image)
}

/// A well-formed journal of any kind.
pub fn any(rng: &mut Rng, image: &[u8]) -> Vec<u8> {
    let spare = match rng.below(9) {
        0 => 0,
        1 => rng.pick(&[1, 3, 4, 519, 520, 521]),
        2 => rng.pick(&[1035, 1036, 1037, 2067, 2068, 2069]),
        3 => rng.pick(&[2583, 2584, 2585]),
        4 => rng.below(6000),
        5 => room_for_all(image).min(200_000),
        _ => rng.between(12_000, 30_000),
    };
    match rng.below(4) {
        0 => reference::start(HEAD + spare).unwrap(),
        1 => with_records(rng, image, 0, spare),
        _ => {
            let count = rng.between(1, 4);
            with_records(rng, image, count, spare)
        }
    }
}

/// A way of not being well formed: from an image and some good records.
pub struct Fault {
    pub what: &'static str,
    pub make: fn(&mut Rng, &[u8]) -> Vec<u8>,
}

/// A good journal with at least one record, and some spare bytes.
fn good(rng: &mut Rng, image: &[u8]) -> Vec<u8> {
    let count = rng.between(1, 3);
    let spare = rng.pick(&[0, 1, 100, 3000]);
    with_records(rng, image, count, spare)
}

fn used(journal: &[u8]) -> usize {
    reference::journal::used(journal)
}

/// Good records before one bad record.
fn ending_in(rng: &mut Rng, image: &[u8], bad: Vec<u8>) -> Vec<u8> {
    let mut records: Vec<_> = (0..rng.below(3)).map(|_| record(rng, image, 4)).collect();
    records.push(bad);
    let spare = rng.pick(&[0, 3, 2000]);
    of_records(rng, &records, spare)
}

fn with_used(mut journal: Vec<u8>, used: u32) -> Vec<u8> {
    put_number(&mut journal, 1, used);
    journal
}

/// A record of these block numbers, whatever they are.
pub fn record_of(rng: &mut Rng, numbers: &[u32]) -> Vec<u8> {
    let mut record = ((4 + SAVED * numbers.len()) as u32).to_be_bytes().to_vec();
    for b in numbers {
        record.extend(b.to_be_bytes());
        record.extend(rng.bytes(BLOCK));
    }
    record
}

fn with_length(mut record: Vec<u8>, length: u32) -> Vec<u8> {
    put_number(&mut record, 0, length);
    record
}

pub const FAULTS: &[Fault] = &[
    Fault { what: "no bytes", make: |_, _| vec![] },
    Fault { what: "length 4", make: |_, _| vec![VERSION, 0, 0, 0] },
    Fault {
        what: "length 1 to 4",
        make: |rng, _| vec![VERSION, 0, 0, 5][..rng.between(1, 4)].to_vec(),
    },
    Fault {
        what: "version",
        make: |rng, image| {
            let mut journal = good(rng, image);
            journal[0] = rng.pick(&[0, 2, 3, 129, 255]);
            journal
        },
    },
    Fault {
        what: "version, no record",
        make: |rng, _| {
            let mut journal = reference::start(rng.between(5, 3000)).unwrap();
            journal[0] = rng.pick(&[0, 2, 255]);
            journal
        },
    },
    Fault {
        what: "used length below 5",
        make: |rng, image| with_used(good(rng, image), rng.below(5) as u32),
    },
    Fault {
        what: "used length above the length",
        make: |rng, image| {
            let journal = good(rng, image);
            let len = journal.len() as u32;
            let used = rng.pick(&[len + 1, len + 520, 0x8000_0000, u32::MAX]);
            with_used(journal, used)
        },
    },
    Fault {
        what: "used length above the length, records that go on",
        make: |rng, image| {
            let mut journal = with_records(rng, image, 2, 0);
            journal.truncate(journal.len() - rng.between(1, 516));
            journal
        },
    },
    Fault {
        what: "used length within a record",
        make: |rng, image| {
            let journal = good(rng, image);
            let less = rng.pick(&[1, 2, 3, 4, 516, 519]);
            let used = used(&journal) as u32 - less;
            with_used(journal, used)
        },
    },
    Fault {
        what: "one to four bytes at the end",
        make: |rng, image| {
            let odd = [0, 0, 0, 4][..rng.between(1, 4)].to_vec();
            ending_in(rng, image, odd)
        },
    },
    Fault {
        what: "record of no block",
        make: |rng, image| ending_in(rng, image, vec![0, 0, 0, 4]),
    },
    Fault {
        what: "record of no block, then a good one",
        make: |rng, image| {
            let mut records = vec![vec![0, 0, 0, 4]];
            records.push(record(rng, image, 3));
            of_records(rng, &records, 50)
        },
    },
    Fault {
        what: "record length below 4",
        make: |rng, image| {
            let bad = record(rng, image, 3);
            let length = rng.below(4) as u32;
            ending_in(rng, image, with_length(bad, length))
        },
    },
    Fault {
        what: "record length one off",
        make: |rng, image| {
            let bad = record(rng, image, 3);
            let length = bad.len() as u32;
            let length = rng.pick(&[length - 1, length + 1, length - 4, length + 4]);
            ending_in(rng, image, with_length(bad, length))
        },
    },
    Fault {
        what: "record of odd length that fills the used part",
        make: |rng, image| {
            let mut bad = record(rng, image, 3);
            let more = rng.between(1, 515);
            bad.extend(rng.bytes(more));
            let length = bad.len() as u32;
            ending_in(rng, image, with_length(bad, length))
        },
    },
    Fault {
        what: "record whose last block is cut short",
        make: |rng, image| {
            let mut bad = record_of(rng, &[0, block_count(image) as u32 - 1]);
            bad.truncate(bad.len() - rng.between(1, BLOCK));
            let length = bad.len() as u32;
            ending_in(rng, image, with_length(bad, length))
        },
    },
    Fault {
        what: "record longer than the used part",
        make: |rng, image| {
            let bad = record(rng, image, 3);
            let length = bad.len() as u32 + 516;
            ending_in(rng, image, with_length(bad, length))
        },
    },
    Fault {
        what: "huge record length",
        make: |rng, image| {
            let bad = record(rng, image, 3);
            // The last one is 4 + 516 * k and leaves a small rest beyond 32 bits.
            let length = rng.pick(&[u32::MAX, 0x8000_0208, 0xFFFF_FFFC, 4 + 516 * 8_323_580]);
            ending_in(rng, image, with_length(bad, length))
        },
    },
    Fault {
        what: "a number twice",
        make: |rng, image| {
            let b = rng.below(block_count(image)) as u32;
            let bad = record_of(rng, &[b, b]);
            ending_in(rng, image, bad)
        },
    },
    Fault {
        what: "block 0 twice",
        make: |rng, image| {
            let bad = record_of(rng, &[0, 0, 1]);
            ending_in(rng, image, bad)
        },
    },
    Fault {
        what: "numbers that fall",
        make: |rng, image| {
            let high = rng.between(1, block_count(image) - 1);
            let low = rng.below(high) as u32;
            let bad = record_of(rng, &[high as u32, low]);
            ending_in(rng, image, bad)
        },
    },
    Fault {
        what: "numbers that fall, at the record's end",
        make: |rng, image| {
            let last = block_count(image) as u32 - 1;
            let bad = record_of(rng, &[0, last, last - 1]);
            ending_in(rng, image, bad)
        },
    },
    Fault {
        what: "number n",
        make: |rng, image| {
            let bad = record_of(rng, &[0, block_count(image) as u32]);
            ending_in(rng, image, bad)
        },
    },
    Fault {
        what: "number above n",
        make: |rng, image| {
            let n = block_count(image) as u32;
            let number =
                rng.pick(&[n + 1, 4096.max(n), 0x0001_0000, 0x0100_0000, 0x8000_0000, u32::MAX]);
            let bad = record_of(rng, &[number.max(n)]);
            ending_in(rng, image, bad)
        },
    },
    Fault {
        what: "bad record before a good one",
        make: |rng, image| {
            let n = block_count(image) as u32;
            let records = [record_of(rng, &[n]), record(rng, image, 3)];
            of_records(rng, &records, 600)
        },
    },
    Fault { what: "all bytes 0", make: |rng, _| vec![0; rng.between(5, 3000)] },
    Fault { what: "all bytes 255", make: |rng, _| vec![255; rng.between(5, 3000)] },
];
