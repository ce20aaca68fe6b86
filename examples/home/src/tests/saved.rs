//! The saved file: read back as it was written, and refused where anything of it is altered.

use super::fault;
use crate::saved::{Last, Saved};
use gudlemi::{Answer, Line};

fn saved() -> Saved {
    let mut line = Line::unopened();
    assert_eq!(line.open(&mut [0; 64], 2, 64), Answer::Open { lanes: 2, capacity: 64 });
    let last = vec![Last { number: 5, at: 6, answer: Answer::Waits }, Last::NONE];
    Saved { list_length: 9, line, last }
}

#[test]
fn it_is_read_back() {
    assert_eq!(Saved::from_bytes(&saved().to_bytes()).unwrap(), saved());
}

#[test]
fn any_altered_byte_is_noticed() {
    let bytes = saved().to_bytes();
    for index in 0..bytes.len() {
        let mut altered = bytes.clone();
        altered[index] ^= 1;
        assert!(Saved::from_bytes(&altered).is_err(), "byte {index}");
    }
}

#[test]
fn any_other_length_is_noticed() {
    let bytes = saved().to_bytes();
    for length in 0..bytes.len() {
        assert!(Saved::from_bytes(&bytes[..length]).is_err(), "{length} bytes");
    }
    assert!(Saved::from_bytes(&[&bytes[..], &[0]].concat()).is_err());
}

#[test]
fn as_many_entries_as_lanes() {
    let mut more = saved();
    more.last.push(Last::NONE);
    assert_eq!(fault(Saved::from_bytes(&more.to_bytes())), "not as many entries as lanes");
    more.last.truncate(1);
    assert_eq!(fault(Saved::from_bytes(&more.to_bytes())), "not as many entries as lanes");
}
