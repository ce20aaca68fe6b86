//! Requests and replies as bytes, and back.

use super::fault;
use crate::message::{Made, Reply, Request, Run};
use gudlemi::Answer;

#[test]
fn requests_are_read_one_after_the_other() {
    let first = Request { lane: 3, number: 0x0102_0304_0506_0708, call: vec![3, 3] };
    let second = Request { lane: 127, number: 2, call: Vec::new() };
    let bytes = [first.to_bytes(), second.to_bytes()].concat();
    assert_eq!(
        bytes,
        [&[3, 1, 2, 3, 4, 5, 6, 7, 8, 2, 3, 3], &[127, 0, 0, 0, 0, 0, 0, 0, 2, 0][..]].concat()
    );
    let mut source = bytes.as_slice();
    assert_eq!(Request::read_from(&mut source).unwrap(), Some(first));
    assert_eq!(Request::read_from(&mut source).unwrap(), Some(second));
    assert_eq!(Request::read_from(&mut source).unwrap(), None);
}

#[test]
fn a_request_that_is_cut_off_is_none() {
    let bytes = Request { lane: 3, number: 9, call: vec![3, 3] }.to_bytes();
    for length in 1..bytes.len() {
        assert!(Request::read_from(&mut &bytes[..length]).is_err());
    }
}

#[test]
fn a_reply_is_read_back() {
    let runs = vec![Run { position: 1 << 40, records: 2 }, Run { position: 24, records: 1 }];
    let answer = Answer::Region { start: 5, count: 3, wakes: Some(0) };
    let reply = Reply { made: Made::Before, number: 7, answer, runs };
    let bytes = reply.to_bytes();
    assert_eq!(Reply::read_from(&mut bytes.as_slice()).unwrap(), reply);
    for length in 0..bytes.len() {
        assert!(Reply::read_from(&mut &bytes[..length]).is_err());
    }
}

#[test]
fn a_reply_with_no_answer_is_none() {
    let reply = Reply { made: Made::Now, number: 7, answer: Answer::Waits, runs: Vec::new() };
    let mut bytes = reply.to_bytes();
    bytes[9] = 13;
    assert_eq!(fault(Reply::read_from(&mut bytes.as_slice())), "no answer");
    bytes[0] = 3;
    assert_eq!(fault(Reply::read_from(&mut bytes.as_slice())), "no reply");
}

#[test]
fn positions_of_runs() {
    let runs = [Run { position: 12, records: 2 }, Run { position: 36, records: 1 }];
    assert_eq!(Run::positions(&runs).collect::<Vec<_>>(), [12, 20, 36]);
}
