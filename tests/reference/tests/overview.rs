//! The volume's numbers and a directory's entries, on volumes made by hand.

use reference::layout::{name_field, slot};
use reference::worked::{create, create_directory, formatted, fresh, write};
use reference::{apply, info, next_entry, State};

/// A volume of 16 blocks with /A of 513 bytes in slot 1 and /dir with /dir/B.
fn sample() -> State {
    let changes = [
        create(b"/A"),
        write(b"/A", 0, &[7; 513]),
        create_directory(b"/dir", 1),
        create(b"/dir/B"),
    ];
    changes.iter().fold(fresh(16, 2), |state, change| apply(&state, change).unwrap().state)
}

#[test]
fn the_volume_is_told() {
    let image = formatted(16, 2).unwrap();
    let told = info(&image, 200).unwrap();
    assert_eq!(told.numbers, [0, 16, 4, 12, 2]);
    assert_eq!(told.bytes, image[112..256]);
    assert_eq!(info(&image, 20).unwrap().bytes, image[112..132]);
    assert_eq!(info(&image[1..], 20), Err(1));
}

#[test]
fn a_directory_is_told_slot_by_slot() {
    let image = sample().image;
    let slots = |path: &[u8], from: u64| next_entry(&image, path, from, 80).map(|e| e.numbers[1]);
    assert_eq!([0, 1, 2, 3].map(|from| slots(b"/", from)), [Ok(1), Ok(1), Ok(2), Ok(0)]);
    assert_eq!(slots(b"/dir", 1), Ok(1));
    assert_eq!(slots(b"/dir", 2), Ok(0));
    assert_eq!(slots(b"/", u64::MAX), Ok(0));
}

#[test]
fn an_entry_has_all_its_fields() {
    let image = sample().image;
    let file = next_entry(&image, b"/", 1, 100).unwrap();
    assert_eq!(file.bytes, name_field(b"A"));
    assert_eq!(file.numbers[9..12], [4, 513, 2]);
    let dir = next_entry(&image, b"/", 2, 3).unwrap();
    assert_eq!(dir.bytes, b"dir");
    assert_eq!(u8::try_from(dir.numbers[2]).unwrap(), image[3 * 512 - 256 + slot::TYPE]);
    assert_eq!(dir.numbers[9..12], [6, 0, 1]);
}

#[test]
fn refusals_come_in_order() {
    let image = sample().image;
    let number = |path: &[u8]| next_entry(&image, path, 1, 80).err();
    assert_eq!(number(b""), Some(9));
    assert_eq!(number(b"//"), Some(9));
    assert_eq!(number(b"dir"), Some(9));
    assert_eq!(number(b"/A"), Some(10));
    assert_eq!(number(b"/none"), Some(10));
    assert_eq!(number(b"/1/2/3/4/5/6/7/8/9"), Some(17));
    assert_eq!(next_entry(&image[512..], b"", 1, 80), Err(2));
}
