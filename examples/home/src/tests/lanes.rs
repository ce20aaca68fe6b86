//! Lanes over a socket: a turn, a lost reply, and what becomes of a lane that dies.

use super::{fault, Temporary};
use crate::call::{calls_in, Call};
use crate::finish::{finish, finish_all};
use crate::lane::Lane;
use crate::message::{Made, Reply, Request};
use crate::serve::serve;
use crate::trial::random::Random;
use gudlemi::{kind, Answer, Phase, Purpose};
use std::fs;
use std::io::Write;
use std::os::unix::fs::FileExt;
use std::os::unix::net::UnixStream;
use std::thread;

const WANT: Call = Call::Want(Purpose::SharedWrite);

/// A folder with a home of three lanes, which serves it till the tests end.
fn served() -> Temporary {
    let folder = Temporary::new();
    let shared = folder.clone();
    thread::spawn(move || serve(&shared, 3, 64));
    folder
}

fn answer(lane: &mut Lane, call: Call) -> Answer {
    lane.ask(&call).unwrap().answer
}

#[test]
fn a_turn_with_a_wait() {
    let folder = served();
    let (mut first, mut second) = (Lane::new(&folder, 0, 0), Lane::new(&folder, 1, 0));
    assert_eq!(answer(&mut first, WANT), Answer::Holds { pointer: 0 });
    assert_eq!(answer(&mut second, WANT), Answer::Waits);
    let waiter = thread::spawn(move || answer(&mut second, Call::Receive));
    assert_eq!(
        answer(&mut first, Call::Take(2)),
        Answer::Region { start: 0, count: 2, wakes: Some(1) }
    );
    assert_eq!(waiter.join().unwrap(), Answer::Holds { pointer: 2 });
}

/// The request is made, and its reply goes nowhere.
#[test]
fn a_lost_reply_is_asked_for_again() {
    let folder = served();
    let mut lane = Lane::new(&folder, 0, 0);
    assert_eq!(answer(&mut lane, WANT), Answer::Holds { pointer: 0 });
    send_late(&folder, &lane.next_request(&Call::Take(2)));
    let reply = lane.ask(&Call::Take(2)).unwrap();
    assert_eq!((reply.made, reply.number), (Made::Before, 2));
    assert_eq!(reply.answer, Answer::Region { start: 0, count: 2, wakes: None });
}

/// Sends a request as if a lane had done so before, and waits until home has answered it.
fn send_late(folder: &Temporary, request: &Request) {
    let mut connection = UnixStream::connect(folder.socket()).unwrap();
    connection.write_all(&request.to_bytes()).unwrap();
    let _ = Reply::read_from(&mut connection).unwrap();
}

/// Requests with the last number or the next and made-up calls, and then made-up bytes: home answers or drops each, goes on, and has made
/// calls alone.
#[test]
fn made_up_requests() {
    let folder = served();
    let mut random = Random::new(1, &[]);
    for _ in 0..600 {
        let lane = random.below(4) as u8;
        let next = Lane::resume(&folder, lane.min(2)).unwrap().next_request(&Call::Free).number;
        let number = next - random.below(2);
        let mut call: Vec<u8> = (0..random.below(12)).map(|_| random.below(6) as u8).collect();
        // A call that would be kept back is not waited for.
        call.retain(|&byte| byte != kind::RECEIVE);
        send_late(&folder, &Request { lane, number, call });
    }
    for _ in 0..100 {
        let bytes: Vec<u8> = (0..random.below(60)).map(|_| random.below(256) as u8).collect();
        UnixStream::connect(folder.socket()).unwrap().write_all(&bytes).unwrap();
    }
    let list = fs::read(folder.calls()).unwrap();
    assert!(calls_in(&list).unwrap().len() > 1);
    assert!(folder.kept().is_ok());
    assert!(Lane::resume(&folder, 0).is_ok());
    assert_eq!(fault(Lane::resume(&folder, 3)), "home has no lane 3");
}

/// A lane of the same number that starts to count anew does not get another call's answer.
#[test]
fn a_lane_that_counts_anew_is_told() {
    let folder = served();
    let mut lane = Lane::new(&folder, 0, 0);
    let _ = answer(&mut lane, WANT);
    let anew = Lane::new(&folder, 0, 0).ask(&Call::Want(Purpose::WholeBook));
    assert!(fault(anew).starts_with("call 1 was not made; home has 1 as the last one"));
    let _ = answer(&mut lane, Call::Take(2));
    let anew = Lane::new(&folder, 0, 0).ask(&WANT);
    assert!(fault(anew).starts_with("call 1 was not made; home has 2 as the last one"));
    let mut resumed = Lane::resume(&folder, 0).unwrap();
    assert_eq!(answer(&mut resumed, Call::Write(*b"record 0")), Answer::Wrote { position: 0 });
}

/// It held the whole book; the lane that waits gets its turn once that is finished.
#[test]
fn a_holder_that_dies() {
    let folder = served();
    let mut first = Lane::new(&folder, 0, 0);
    assert_eq!(answer(&mut first, Call::Want(Purpose::WholeBook)), Answer::Holds { pointer: 0 });
    drop(first);
    let mut second = Lane::new(&folder, 1, 0);
    assert_eq!(answer(&mut second, WANT), Answer::Waits);
    let waiter = thread::spawn(move || answer(&mut second, Call::Receive));
    assert_eq!(finish(&folder, 0).unwrap(), [(Call::Free, Answer::Freed { wakes: Some(1) })]);
    assert_eq!(waiter.join().unwrap(), Answer::Holds { pointer: 0 });
    assert_eq!(finish(&folder, 0).unwrap(), []);
}

/// It had the whole book, and had written a correction that it did not tell: the record is put back as it was told, and home can go
/// on from what it has. A record that another lane has written and not told yet is left as it is.
#[test]
fn a_corrector_that_dies() {
    let folder = served();
    let (mut first, mut second) = (Lane::new(&folder, 0, 0), Lane::new(&folder, 1, 0));
    let _ = (answer(&mut first, WANT), answer(&mut first, Call::Take(2)));
    let book = fs::File::options().write(true).open(folder.book()).unwrap();
    book.write_all_at(b"record 0record 1", 0).unwrap();
    let _ = answer(&mut first, Call::Write(*b"record 0"));
    let _ = answer(&mut second, Call::Want(Purpose::WholeBook));
    book.write_all_at(b"RECORD 0", 0).unwrap();
    drop(second);
    assert_eq!(finish(&folder, 1).unwrap(), [(Call::Free, Answer::Freed { wakes: None })]);
    assert_eq!(&fs::read(folder.book()).unwrap()[..16], b"record 0record 1");
    assert!(folder.kept().is_ok());
}

/// It was waiting; it is finished when its turn comes, and passes it on.
#[test]
fn a_waiting_lane_that_dies() {
    let folder = served();
    let (mut first, mut second) = (Lane::new(&folder, 0, 0), Lane::new(&folder, 1, 0));
    assert_eq!(answer(&mut first, WANT), Answer::Holds { pointer: 0 });
    assert_eq!(answer(&mut second, WANT), Answer::Waits);
    drop(second);
    let shared = folder.clone();
    let watchdog = thread::spawn(move || finish(&shared, 1).unwrap());
    assert_eq!(
        answer(&mut first, Call::Take(1)),
        Answer::Region { start: 0, count: 1, wakes: Some(1) }
    );
    let region = Answer::Region { start: 1, count: 0, wakes: None };
    let expected = [(Call::Receive, Answer::Holds { pointer: 1 }), (Call::Take(0), region)];
    assert_eq!(watchdog.join().unwrap(), expected);
}

/// It had three places, had told one record and written two: the second is told as it stands in the book, the third as zeros.
#[test]
fn a_writer_that_dies() {
    let folder = served();
    let mut lane = Lane::new(&folder, 2, 0);
    let _ = answer(&mut lane, WANT);
    let region = lane.ask(&Call::Take(3)).unwrap();
    assert_eq!(region.runs.len(), 1);
    let book = fs::File::options().write(true).open(folder.book()).unwrap();
    book.write_all_at(b"record 0record 1", 0).unwrap();
    assert_eq!(answer(&mut lane, Call::Write(*b"record 0")), Answer::Wrote { position: 0 });
    drop(lane);
    let told = [
        (Call::Write(*b"record 1"), Answer::Wrote { position: 8 }),
        (Call::Write([0; 8]), Answer::Wrote { position: 16 }),
    ];
    assert_eq!(finish(&folder, 2).unwrap(), told);
    assert_eq!(finish(&folder, 2).unwrap(), []);
}

/// Its last request comes in only after the lane was taken for dead: the first record is told by that, and finish tells the rest.
#[test]
fn a_late_request_of_a_writer_that_dies() {
    let folder = served();
    let mut lane = Lane::new(&folder, 2, 0);
    let _ = (answer(&mut lane, WANT), answer(&mut lane, Call::Take(2)));
    let book = fs::File::options().write(true).open(folder.book()).unwrap();
    book.write_all_at(b"record 0record 1", 0).unwrap();
    let late = lane.next_request(&Call::Write(*b"record 0"));
    let mut taken_for_dead = Lane::resume(&folder, 2).unwrap();
    send_late(&folder, &late);
    assert!(taken_for_dead.ask(&Call::Write(*b"record 1")).is_err());
    assert_eq!(
        finish(&folder, 2).unwrap(),
        [(Call::Write(*b"record 1"), Answer::Wrote { position: 8 })]
    );
    assert!(folder.kept().is_ok());
}

/// A holder and two that wait, all dead: finished together, whatever their order.
#[test]
fn all_lanes_die() {
    let folder = served();
    for lane in [2, 0, 1] {
        let _ = answer(&mut Lane::new(&folder, lane, 0), WANT);
    }
    let finished = finish_all(&folder, &[0, 1, 2]);
    let answers: Vec<usize> = finished.into_iter().map(|(_, made)| made.unwrap().len()).collect();
    assert_eq!(answers, [2, 2, 1]);
    assert!(folder.kept().unwrap().line().lane(2) == Some(Phase::Idle));
}

/// A gathered lane is left as it is.
#[test]
fn a_gathered_lane_that_dies() {
    let folder = served();
    let enter = |lane: u8, count: u16| {
        let folder = folder.clone();
        thread::spawn(move || {
            Lane::resume(&folder, lane).unwrap().ask(&Call::Enter(count)).unwrap()
        })
    };
    let (first, second) = (enter(0, 4), enter(1, 4));
    // Nine places do not fit, whichever lane comes first.
    assert_eq!(enter(2, 9).join().unwrap().answer, Answer::Refused(16));
    assert_eq!(finish(&folder, 0).unwrap(), []);
    let _ = enter(2, 0).join().unwrap();
    assert_eq!(first.join().unwrap().runs.len() + second.join().unwrap().runs.len(), 2);
    assert_eq!(finish(&folder, 0).unwrap().len(), 4);
}

#[test]
fn a_reader_that_dies() {
    let folder = served();
    let mut lane = Lane::new(&folder, 2, 0);
    let _ = answer(&mut lane, Call::Want(Purpose::SharedRead));
    let _ = answer(&mut lane, Call::Take(2));
    drop(lane);
    assert_eq!(
        finish(&folder, 2).unwrap(),
        [(Call::Read, Answer::None), (Call::Read, Answer::None)]
    );
}
