//! Buffers lent to the library, with guard bytes on both sides.

/// More than a block, so that a step one block too far meets a guard.
const GUARD: usize = 1024;

const GUARD_BYTES: [u8; GUARD] = guard_bytes();

pub struct Lent {
    bytes: Vec<u8>,
    at: usize,
    len: usize,
}

const fn guard_bytes() -> [u8; GUARD] {
    let mut bytes = [0; GUARD];
    let mut i = 0;
    while i < GUARD {
        bytes[i] = 0xA5 ^ (i as u8).wrapping_mul(29) ^ (i >> 8) as u8;
        i += 1;
    }
    bytes
}

impl Lent {
    /// A guarded copy of the content. `shift` moves it off any alignment.
    pub fn new(content: &[u8], shift: usize) -> Lent {
        let at = GUARD - shift % 16;
        let mut bytes = Vec::with_capacity(at + content.len() + GUARD);
        bytes.extend_from_slice(&GUARD_BYTES[..at]);
        bytes.extend_from_slice(content);
        bytes.extend_from_slice(&GUARD_BYTES);
        Lent { bytes, at, len: content.len() }
    }

    /// A guarded copy of numbers, as this machine holds them, aligned for them.
    pub fn numbers(numbers: &[u32]) -> Lent {
        let bytes: Vec<u8> = numbers.iter().flat_map(|x| x.to_ne_bytes()).collect();
        let lent = (0..4).map(|shift| Lent::new(&bytes, shift));
        let aligned = lent.into_iter().find(|l| l.bytes[l.at..].as_ptr() as usize % 4 == 0);
        aligned.expect("one of four places is aligned")
    }

    /// Puts other content of the same length at the same place.
    pub fn put(&mut self, content: &[u8]) {
        self.bytes[self.at..self.at + self.len].copy_from_slice(content);
    }

    pub fn content(&self) -> &[u8] {
        &self.bytes[self.at..self.at + self.len]
    }

    pub fn len(&self) -> usize {
        self.len
    }

    pub fn ptr(&self) -> *const u8 {
        if self.is_null() {
            std::ptr::null()
        } else {
            self.bytes[self.at..].as_ptr()
        }
    }

    pub fn mut_ptr(&mut self) -> *mut u8 {
        if self.is_null() {
            std::ptr::null_mut()
        } else {
            self.bytes[self.at..].as_mut_ptr()
        }
    }

    /// An empty buffer is lent as NULL half of the time.
    fn is_null(&self) -> bool {
        self.len == 0 && self.at & 1 == 0
    }

    /// What is wrong with the guards or the content, if anything.
    pub fn trouble(&self, what: &str, expected: &[u8]) -> Option<String> {
        let (before, after) = (&self.bytes[..self.at], &self.bytes[self.at + self.len..]);
        if let Some(i) = first_difference(before, &GUARD_BYTES[..self.at]) {
            return Some(format!("{what}: byte {} before it was written", self.at - i));
        }
        if let Some(i) = first_difference(after, &GUARD_BYTES) {
            return Some(format!("{what}: byte {i} after its end was written"));
        }
        difference(what, self.content(), expected)
    }
}

/// Where two runs of bytes of one length differ first.
fn first_difference(got: &[u8], expected: &[u8]) -> Option<usize> {
    assert_eq!(got.len(), expected.len());
    if got == expected {
        return None;
    }
    got.iter().zip(expected).position(|(g, e)| g != e)
}

/// The same in words.
pub fn difference(what: &str, got: &[u8], expected: &[u8]) -> Option<String> {
    let at = first_difference(got, expected)?;
    let count = got.iter().zip(expected).filter(|(g, e)| g != e).count();
    Some(format!(
        "{what}: {count} of {} bytes differ, the first at {at} (block {}, offset {}): got {:#04x}, expected {:#04x}",
        got.len(), at / 512, at % 512, got[at], expected[at]
    ))
}
