//! Marks of a journal: numbers worked out by hand from the rules.

use reference::layout::*;
use reference::worked::*;
use reference::*;

/// n = 8, d = 2: the start, then with "/A", with "/B" too, and with 513 bytes
/// in "/A". The records have 520, 520 and 2,584 bytes (blocks 0, 1, 2, 4, 5).
fn moments() -> Vec<State> {
    let mut all = vec![fresh(8, 2)];
    for change in [create(b"/A"), create(b"/B"), write(b"/A", 0, &[b'x'; 513])] {
        all.push(apply(all.last().unwrap(), &change).unwrap().state);
    }
    all
}

const MARKS: [u32; 4] = [5, 525, 1045, 3629];

fn told(state: &State) -> (u32, u32, u32) {
    let info = journal_info(state).unwrap();
    (info.used, info.records, info.last)
}

#[test]
fn an_info_at_each_moment() {
    let told: Vec<_> = moments().iter().map(told).collect();
    assert_eq!(told, [(5, 0, 0), (525, 1, 520), (1045, 2, 520), (3629, 3, 2584)]);
}

#[test]
fn every_mark_gives_its_moment() {
    let all = moments();
    for (now, state) in all.iter().enumerate() {
        for (to, &mark) in MARKS.iter().enumerate() {
            match undo_to(state, mark) {
                Ok(backed) => {
                    assert!(to <= now && backed.state == all[to]);
                    assert_eq!(backed.done as usize, now - to);
                }
                Err(number) => assert!(to > now && number == 27),
            }
        }
    }
}

#[test]
fn as_many_single_undos() {
    let all = moments();
    let two = undo(&undo(&all[3]).unwrap().state).unwrap().state;
    assert!(undo_to(&all[3], 525).unwrap().state == two && two == all[1]);
}

#[test]
fn what_is_no_mark() {
    let all = moments();
    let none = [0, 1, 4, 6, 524, 526, 1044, 1046, 3628, 3630, 4149, 131_072, u32::MAX];
    for mark in none {
        assert_eq!(undo_to(&all[3], mark), Err(27));
    }
    for mark in [0, 4, 6, 525] {
        assert_eq!(undo_to(&all[0], mark), Err(27));
    }
}

#[test]
fn a_mark_that_an_undo_went_below() {
    let all = moments();
    let gone = undo_to(&all[3], 525).unwrap().state;
    assert_eq!(undo_to(&gone, 1045), Err(27));
    // Another change ends there now.
    let other = apply(&gone, &create(b"/C")).unwrap().state;
    let backed = undo_to(&other, 1045).unwrap();
    assert!(backed.done == 0 && backed.state == other && other != all[2]);
}

#[test]
fn image_and_journal_come_first() {
    let good = moments().pop().unwrap();
    let mut image = good.clone();
    image.image[header::FREE + 3] ^= 1;
    let mut journal = good.clone();
    journal.journal[0] = 2;
    let mut both = image.clone();
    both.journal[0] = 2;
    for (state, number) in [(image, 7), (journal, 8), (both, 7)] {
        assert_eq!(journal_info(&state), Err(number));
        assert_eq!(undo_to(&state, 5), Err(number));
        assert_eq!(undo_to(&state, 6), Err(number));
    }
}

/// Two records of block 0: the later puts garbage there, the earlier the right
/// bytes. A single undo is refused between them, the call is not.
#[test]
fn no_check_between() {
    let start = fresh(8, 2);
    let record = |bytes: &[u8]| [&[0, 0, 2, 8, 0, 0, 0, 0], bytes].concat();
    let mut state = start.clone();
    let records = [record(&start.image[..512]), record(&[0xEE; 512])].concat();
    state.journal[5..1045].copy_from_slice(&records);
    put_number(&mut state.journal, 1, 1045);
    let one = undo(&state).unwrap().state;
    assert_eq!(undo(&one), Err(2));
    assert_eq!(undo_to(&state, 5), Ok(Backed { state: start, done: 2 }));
}

#[test]
fn a_run_is_gone_back_to_the_start() {
    let start = fresh(16, 2);
    let mut replay = Replay::new(start.clone());
    let calls = [create(b"/A"), write(b"/A", 0, b"abc"), create(b"/B"), delete(b"/A")];
    for call in calls {
        replay.call(&Call::Change(call));
    }
    let Answer::Journal(Ok(info)) = replay.call(&Call::JournalInfo) else { panic!() };
    assert_eq!(info.records, 4);
    replay.call(&Call::Change(write(b"/B", 0, &[7; 600])));
    assert_eq!(replay.call(&Call::UndoTo(info.used)), Answer::Backed { number: 0, done: 1 });
    assert_eq!(replay.call(&Call::UndoTo(info.used + 1)), Answer::Backed { number: 27, done: 0 });
    assert_eq!(replay.call(&Call::UndoTo(5)), Answer::Backed { number: 0, done: 4 });
    assert!(replay.replayed() == &start);
}
