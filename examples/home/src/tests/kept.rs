//! What home goes on from: a power cut at each step of saving, and folders that it refuses.

use super::{fault, Temporary};
use crate::call::Call;
use crate::kept::Kept;
use crate::saved::Saved;
use gudlemi::{Answer, Phase, Purpose, View};
use std::fs;

const WANT: Call = Call::Want(Purpose::SharedWrite);

/// Makes a call of lane 0 as its next one.
fn make(kept: &mut Kept, call: Call) {
    let number = kept.last(0).number + 1;
    kept.make(0, number, &call.bytes(0));
}

#[test]
fn a_call_that_was_not_saved_was_not_made() {
    let folder = Temporary::new();
    let mut kept = folder.kept().unwrap();
    make(&mut kept, WANT);
    assert_eq!(kept.last(0).answer, Answer::Holds { pointer: 0 });
    let kept = folder.kept().unwrap();
    assert_eq!(kept.last(0).number, 0);
    assert_eq!(kept.line().lane(0), Some(Phase::Idle));
}

#[test]
fn a_call_that_was_saved_was_made_with_its_answer() {
    let folder = Temporary::new();
    let mut kept = folder.kept().unwrap();
    make(&mut kept, WANT);
    make(&mut kept, Call::Take(1));
    kept.save().unwrap();
    let kept = folder.kept().unwrap();
    assert_eq!(kept.last(0).number, 2);
    assert_eq!(kept.last(0).answer, Answer::Region { start: 0, count: 1, wakes: None });
    assert!(kept.is_last_call(0, &Call::Take(1).bytes(0)));
    assert!(!kept.is_last_call(0, &Call::Take(2).bytes(0)));
    assert!(!kept.is_last_call(1, &Call::Take(1).bytes(0)));
}

/// The list is longer than the saved state says: the cut came between the two, in the midst of a call's bytes too.
#[test]
fn calls_past_the_saved_ones_are_dropped() {
    for length in 1..=3 {
        let folder = Temporary::new();
        drop(folder.kept().unwrap());
        let list = fs::read(folder.calls()).unwrap();
        fs::write(folder.calls(), [&list[..], &WANT.bytes(0)[..length]].concat()).unwrap();
        let mut kept = folder.kept().unwrap();
        assert_eq!(kept.line().lane(0), Some(Phase::Idle));
        make(&mut kept, Call::Want(Purpose::WholeBook));
        kept.save().unwrap();
        let added = Call::Want(Purpose::WholeBook).bytes(0);
        assert_eq!(fs::read(folder.calls()).unwrap(), [list, added].concat());
    }
}

/// The new file is written, or a part of it, and has not taken the old one's name.
#[test]
fn a_new_file_without_its_name_does_not_count() {
    let folder = Temporary::new();
    drop(folder.kept().unwrap());
    let saved = fs::read(folder.saved()).unwrap();
    for length in [0, 1, saved.len() / 2, saved.len()] {
        fs::write(folder.saved().with_extension("new"), &saved[..length]).unwrap();
        let mut kept = folder.kept().unwrap();
        make(&mut kept, WANT);
        kept.save().unwrap();
        assert!(!folder.saved().with_extension("new").exists());
        fs::write(folder.saved(), &saved).unwrap();
    }
}

/// The cut came before the first state was saved: nobody was answered, and home starts again.
#[test]
fn a_start_that_was_cut_off_is_made_again() {
    let folder = Temporary::new();
    let list = {
        drop(folder.kept().unwrap());
        fs::read(folder.calls()).unwrap()
    };
    for length in 0..=list.len() {
        fs::remove_file(folder.saved()).unwrap();
        fs::write(folder.calls(), &list[..length]).unwrap();
        fs::write(folder.book(), [0; 3]).unwrap();
        drop(folder.kept().unwrap());
        assert_eq!(fs::read(folder.calls()).unwrap(), list);
        assert_eq!(fs::read(folder.book()).unwrap(), [0; 64]);
    }
}

#[test]
fn a_folder_that_is_not_as_it_was_left() {
    let folder = Temporary::new();
    let mut kept = folder.kept().unwrap();
    make(&mut kept, WANT);
    kept.save().unwrap();
    let (list, saved) = (fs::read(folder.calls()).unwrap(), fs::read(folder.saved()).unwrap());
    fs::write(folder.calls(), &list[..list.len() - 1]).unwrap();
    assert_eq!(fault(folder.kept()), "the list of calls is cut short");
    fs::write(folder.calls(), [&list[..list.len() - 1], &[1]].concat()).unwrap();
    assert_eq!(fault(folder.kept()), "the calls give another state than the saved one");
    fs::write(folder.calls(), &list).unwrap();
    fs::write(folder.saved(), &saved[1..]).unwrap();
    assert!(fault(folder.kept()).ends_with("saved: not a saved line"));
    fs::remove_file(folder.saved()).unwrap();
    assert_eq!(fault(folder.kept()), "a list of calls with nothing saved");
    fs::remove_file(folder.calls()).unwrap();
    fs::write(folder.book(), [7; 64]).unwrap();
    assert_eq!(fault(folder.kept()), "a book with records and nothing saved");
    fs::write(folder.book(), [0; 64]).unwrap();
    fs::write(folder.calls(), &list).unwrap();
    fs::write(folder.saved(), &saved).unwrap();
    assert_eq!(folder.kept().unwrap().last(0).number, 1);
    assert_eq!(
        fault(Kept::open(&folder, 4, 64)),
        "the saved line has other lanes or another capacity"
    );
    assert_eq!(
        fault(Kept::open(&folder, 3, 72)),
        "the saved line has other lanes or another capacity"
    );
}

/// A state that is not the one of the list, though it is sound and its checksum is right.
#[test]
fn a_state_of_another_moment() {
    let folder = Temporary::new();
    let mut kept = folder.kept().unwrap();
    let earlier = Saved::from_bytes(&fs::read(folder.saved()).unwrap()).unwrap();
    make(&mut kept, WANT);
    kept.save().unwrap();
    let mut saved = Saved::from_bytes(&fs::read(folder.saved()).unwrap()).unwrap();
    saved.line = earlier.line;
    fs::write(folder.saved(), saved.to_bytes()).unwrap();
    assert_eq!(fault(folder.kept()), "the calls give another state than the saved one");
}

#[test]
fn a_record_that_was_told_must_be_in_the_book() {
    let folder = Temporary::new();
    let mut kept = folder.kept().unwrap();
    let record = *b"record 0";
    for call in [WANT, Call::Take(2), Call::Write(record)] {
        make(&mut kept, call);
    }
    kept.save().unwrap();
    assert_eq!(fault(folder.kept()), "byte 0 of the book is not as it was told");
    // The second one is not told yet: it may be there or not.
    let mut book = [0; 64];
    book[..8].copy_from_slice(&record);
    for second in [[0; 8], *b"record 1"] {
        book[8..16].copy_from_slice(&second);
        fs::write(folder.book(), book).unwrap();
        assert!(folder.kept().is_ok());
    }
    fs::write(folder.book(), &book[..63]).unwrap();
    assert_eq!(fault(folder.kept()), "the book has another length than the capacity");
}

/// The saved state is as it was, and the list is cut to it when home goes on.
#[test]
fn a_save_that_fails_loses_nothing() {
    let folder = Temporary::new();
    let mut kept = folder.kept().unwrap();
    make(&mut kept, WANT);
    fs::create_dir(folder.saved().with_extension("new")).unwrap();
    assert!(fault(kept.save()).contains("saved.new: Is a directory"));
    assert!(fault(folder.kept()).contains("saved.new: Is a directory"));
    fs::remove_dir(folder.saved().with_extension("new")).unwrap();
    let mut kept = folder.kept().unwrap();
    assert_eq!((kept.last(0).number, kept.line().lane(0)), (0, Some(Phase::Idle)));
    make(&mut kept, WANT);
    kept.save().unwrap();
    assert_eq!(folder.kept().unwrap().last(0).number, 1);
}

/// The view starts at byte 4, so that records lie across multiples of 8.
#[test]
fn a_region_at_odd_bytes_may_be_written_already() {
    let folder = Temporary::new();
    let mut kept = folder.kept().unwrap();
    let view = Call::View(View::new(4, 1, &[(0, 1)]).unwrap());
    kept.make_for_all(&[1, 1, 1], &view.bytes(0));
    make(&mut kept, WANT);
    make(&mut kept, Call::Take(2));
    kept.save().unwrap();
    let mut book = [0; 64];
    book[4..20].copy_from_slice(b"record 0record 1");
    fs::write(folder.book(), book).unwrap();
    assert!(folder.kept().is_ok());
    book[20] = 1;
    fs::write(folder.book(), book).unwrap();
    assert_eq!(fault(folder.kept()), "byte 20 of the book is not as it was told");
}

#[test]
fn openings_that_the_line_refuses() {
    for (lanes, capacity, number) in [(0, 64, 6), (129, 64, 6), (3, 7, 7), (3, 65_537, 7)] {
        let folder = Temporary::new();
        let opened = Kept::open(&folder, lanes, capacity);
        assert_eq!(fault(opened), format!("the opening is refused with {number}"));
        assert!(!folder.saved().exists());
    }
}

#[test]
fn a_folder_has_one_home() {
    let folder = Temporary::new();
    let lock = folder.lock().unwrap();
    assert_eq!(fault(folder.lock()), "another home has this folder");
    drop(lock);
    assert!(folder.lock().is_ok());
}
