//! The rules of home: calls that are made at once, kept back, asked for again, or are none; and where regions lie.

use super::Temporary;
use crate::call::Call;
use crate::home::Home;
use crate::message::{Made, Reply, Request, Run};
use gudlemi::{Answer, Purpose, View, Whence};
use std::fs;

const WANT: Call = Call::Want(Purpose::SharedWrite);

/// A home whose lanes are told apart by numbers, each with the number of its last call.
struct Served {
    folder: Temporary,
    home: Home<u32>,
    number: [u64; 3],
}

impl Served {
    fn new() -> Served {
        let folder = Temporary::new();
        let home = Home::new(folder.kept().unwrap());
        Served { folder, home, number: [0; 3] }
    }

    /// A power cut: home goes on from what is saved, and whoever asked gets nothing.
    fn cut(&mut self) {
        self.home = Home::new(self.folder.kept().unwrap());
    }

    /// A lane asks for its next call; what is answered now, and by which connection.
    fn ask(&mut self, lane: u8, call: Call) -> Vec<(u32, Reply)> {
        self.number[usize::from(lane)] += 1;
        self.again(lane, call, lane.into())
    }

    /// A lane asks for its last call, by this connection.
    fn again(&mut self, lane: u8, call: Call, by: u32) -> Vec<(u32, Reply)> {
        self.send(
            Request { lane, number: self.number[usize::from(lane)], call: call.bytes(lane) },
            by,
        )
    }

    fn send(&mut self, request: Request, by: u32) -> Vec<(u32, Reply)> {
        self.home.take_in(request, by);
        self.home.answer().unwrap()
    }

    /// The answers that lanes get now.
    fn answers(&mut self, lane: u8, call: Call) -> Vec<(u32, Answer)> {
        answers(self.ask(lane, call))
    }

    fn list(&self) -> Vec<u8> {
        fs::read(self.folder.calls()).unwrap()
    }
}

fn answers(replies: Vec<(u32, Reply)>) -> Vec<(u32, Answer)> {
    replies.into_iter().map(|(by, reply)| (by, reply.answer)).collect()
}

fn run(position: u64, records: u32) -> Run {
    Run { position, records }
}

#[test]
fn a_receive_is_kept_back_until_the_lane_is_woken() {
    let mut served = Served::new();
    assert_eq!(served.answers(0, WANT), [(0, Answer::Holds { pointer: 0 })]);
    assert_eq!(served.answers(1, WANT), [(1, Answer::Waits)]);
    assert_eq!(served.answers(1, Call::Receive), []);
    let region = Answer::Region { start: 0, count: 2, wakes: Some(1) };
    let both = served.ask(0, Call::Take(2));
    assert_eq!(both[0].1.runs, [run(0, 2)]);
    assert_eq!(answers(both), [(0, region), (1, Answer::Holds { pointer: 2 })]);
}

/// The lane that waits is not told of its wake before the cut; after it, it asks again.
#[test]
fn a_wake_is_not_lost() {
    let mut served = Served::new();
    let _ = served.ask(0, WANT);
    let _ = served.ask(1, WANT);
    assert_eq!(served.answers(1, Call::Receive), []);
    served.cut();
    assert_eq!(served.answers(0, Call::Take(0)).len(), 1);
    assert_eq!(answers(served.again(1, Call::Receive, 7)), [(7, Answer::Holds { pointer: 0 })]);
}

#[test]
fn a_receive_that_never_fits_is_refused() {
    let mut served = Served::new();
    assert_eq!(served.answers(0, Call::Receive), [(0, Answer::Refused(13))]);
}

#[test]
fn a_call_asked_for_again_is_made_once() {
    let mut served = Served::new();
    let _ = served.ask(0, WANT);
    let first = served.ask(0, Call::Take(2));
    let list = served.list();
    served.cut();
    let second = served.again(0, Call::Take(2), 7);
    assert_eq!(second[0].0, 7);
    assert_eq!(second[0].1, Reply { made: Made::Before, ..first[0].1.clone() });
    assert_eq!(served.list(), list);
}

/// The first request comes in after the second one, or both wait: each connection gets the reply.
#[test]
fn both_connections_are_answered() {
    let mut served = Served::new();
    let _ = served.ask(0, WANT);
    let _ = served.ask(1, WANT);
    assert_eq!(served.answers(1, Call::Receive), []);
    assert_eq!(served.again(1, Call::Receive, 7), []);
    let all = served.answers(0, Call::Take(0));
    assert_eq!(all[1..], [(1, Answer::Holds { pointer: 0 }), (7, Answer::Holds { pointer: 0 })]);
}

/// A request of an older call comes late: it neither makes that call nor takes the place of the one that waits.
#[test]
fn an_old_request_changes_nothing() {
    let mut served = Served::new();
    let _ = served.ask(0, WANT);
    let _ = served.ask(1, WANT);
    assert_eq!(served.answers(1, Call::Receive), []);
    let old = Request { lane: 1, number: 1, call: WANT.bytes(1) };
    let late = served.send(old, 7);
    assert_eq!((late[0].0, late[0].1.made, late[0].1.answer), (7, Made::Before, Answer::Waits));
    let _ = served.ask(0, Call::Take(0));
    assert_eq!(
        served.answers(1, Call::Take(1)),
        [(1, Answer::Region { start: 0, count: 1, wakes: None })]
    );
    let list = served.list();
    let older = Request { lane: 1, number: 1, call: WANT.bytes(1) };
    let late = served.send(older, 7);
    assert_eq!((late[0].1.made, late[0].1.number), (Made::Not, 3));
    assert_eq!(served.list(), list);
}

#[test]
fn a_number_is_for_one_call() {
    let mut served = Served::new();
    let _ = served.ask(0, WANT);
    let list = served.list();
    for (number, call) in
        [(1, Call::Want(Purpose::WholeBook)), (3, Call::Take(1)), (0, WANT), (u64::MAX, WANT)]
    {
        let reply = served.send(Request { lane: 0, number, call: call.bytes(0) }, 7);
        assert_eq!((reply[0].1.made, reply[0].1.number), (Made::Not, 1));
    }
    assert_eq!(served.list(), list);
}

/// A lane asks for the number of its last call, under any number: also that of the last one.
#[test]
fn a_request_with_no_call() {
    let mut served = Served::new();
    let _ = served.ask(0, WANT);
    let list = served.list();
    for number in [0, 1, 2, u64::MAX] {
        let reply = served.send(Request { lane: 0, number, call: Vec::new() }, 7);
        assert_eq!((reply[0].1.made, reply[0].1.number), (Made::Not, 1));
    }
    assert_eq!(served.list(), list);
}

#[test]
fn bytes_that_are_no_call_of_the_lane() {
    let mut served = Served::new();
    let list = served.list();
    let cases = [
        (3, WANT.bytes(3), 8),
        (255, Vec::new(), 8),
        (0, WANT.bytes(1), 8),
        (0, vec![0x0D, 0], 2),
        (0, vec![0], 2),
        (0, vec![2, 0], 3),
        (0, vec![2], 3),
        (0, vec![2, 0, 0, 0], 3),
    ];
    for (lane, call, refusal) in cases {
        let reply = served.send(Request { lane, number: 1, call }, 7);
        assert_eq!(reply[0].1.made, Made::Not);
        assert_eq!(answers(reply), [(7, Answer::Refused(refusal))]);
    }
    assert_eq!(served.list(), list);
}

#[test]
fn a_refused_call_has_its_number_and_is_in_the_list() {
    let mut served = Served::new();
    let before = served.list();
    assert_eq!(served.answers(0, Call::Free), [(0, Answer::Refused(13))]);
    let open = Request { lane: 1, number: 1, call: vec![1, 3, 0, 0, 0, 64] };
    assert_eq!(answers(served.send(open.clone(), 1)), [(1, Answer::Refused(5))]);
    assert_eq!(served.list(), [before, Call::Free.bytes(0), open.call].concat());
    assert_eq!(served.answers(0, WANT), [(0, Answer::Holds { pointer: 0 })]);
}

#[test]
fn an_ordered_call_is_kept_back_until_all_have_asked() {
    let mut served = Served::new();
    let before = served.list();
    assert_eq!(served.answers(2, Call::Enter(3)), []);
    assert_eq!(served.answers(0, Call::Enter(2)), []);
    assert_eq!(served.list(), before);
    let all = served.ask(1, Call::Enter(0));
    assert_eq!(all.iter().map(|(by, _)| *by).collect::<Vec<_>>(), [0, 1, 2]);
    assert_eq!(all[0].1.runs, [run(0, 2)]);
    assert_eq!(all[1].1.runs, []);
    assert_eq!(all[1].1.answer, Answer::Ordered { before: 0, total: 5 });
    assert_eq!(all[2].1.runs, [run(16, 3)]);
}

/// Another lane wants meanwhile, and is not refused with 12.
#[test]
fn a_lane_that_does_not_enter_yet_goes_on() {
    let mut served = Served::new();
    assert_eq!(served.answers(0, Call::Enter(1)), []);
    assert_eq!(served.answers(1, WANT), [(1, Answer::Holds { pointer: 0 })]);
    assert_eq!(served.answers(2, Call::Enter(1)), []);
    assert_eq!(served.answers(1, Call::Take(0)).len(), 1);
    assert_eq!(served.answers(1, Call::Enter(1)).len(), 3);
}

/// The last one does not fit and is refused; the others are gathered till it enters for no place. A cut comes in between.
#[test]
fn an_ordered_call_that_does_not_fit() {
    let mut served = Served::new();
    assert_eq!(served.answers(0, Call::Enter(4)), []);
    assert_eq!(served.answers(1, Call::Enter(4)), []);
    assert_eq!(served.answers(2, Call::Enter(1)), [(2, Answer::Refused(16))]);
    served.cut();
    let list = served.list();
    assert_eq!(served.again(0, Call::Enter(4), 7), []);
    assert_eq!(served.list(), list);
    let done = served.ask(2, Call::Enter(0));
    assert_eq!((done[0].0, &done[0].1.runs[..]), (7, &[run(0, 4)][..]));
    assert_eq!((done[0].1.made, done[1].1.made), (Made::Before, Made::Now));
    assert_eq!(answers(done)[1], (2, Answer::Ordered { before: 0, total: 8 }));
    let late = served.again(1, Call::Enter(4), 8);
    assert_eq!((late[0].0, &late[0].1.runs[..]), (8, &[run(32, 4)][..]));
}

#[test]
fn a_view_and_a_seek_are_made_once_for_all() {
    let mut served = Served::new();
    let before = served.list();
    let view = Call::View(View::new(8, 5, &[(1, 2), (4, 1)]).unwrap());
    assert_eq!(served.answers(0, view), []);
    assert_eq!(served.answers(1, view), []);
    assert_eq!(served.answers(2, view), [(0, Answer::View), (1, Answer::View), (2, Answer::View)]);
    let seek = Call::Seek(Whence::Start, 1);
    assert_eq!(served.answers(0, seek), []);
    assert_eq!(served.answers(1, seek), []);
    assert_eq!(served.answers(2, seek).len(), 3);
    assert_eq!(served.list(), [before, view.bytes(0), seek.bytes(0)].concat());
    served.cut();
    let again = served.again(1, seek, 7);
    assert_eq!((again[0].1.made, again[0].1.answer), (Made::Before, Answer::Seek { pointer: 1 }));
    // Through the view places 0 to 3 lie at 16, 24, 40, 56.
    let _ = served.ask(1, WANT);
    assert_eq!(served.ask(1, Call::Take(3))[0].1.runs, [run(24, 1), run(40, 1), run(56, 1)]);
}

/// Lanes that ask for different seeks wait: home cannot know which one is meant.
#[test]
fn seeks_that_differ_wait() {
    let mut served = Served::new();
    assert_eq!(served.answers(0, Call::Seek(Whence::Start, 1)), []);
    assert_eq!(served.answers(1, Call::Seek(Whence::Start, 2)), []);
    assert_eq!(served.answers(2, Call::Seek(Whence::Start, 1)), []);
}

#[test]
fn a_look_tells_where_the_record_is() {
    let mut served = Served::new();
    let _ = served.ask(0, Call::Want(Purpose::WholeBook));
    let looked = served.ask(0, Call::Look(3));
    assert_eq!((looked[0].1.answer, &looked[0].1.runs[..]), (Answer::None, &[run(24, 1)][..]));
}

/// The lane asks for another call under the number of one that waits: whoever asked first is told that it is given up.
#[test]
fn a_call_that_is_given_up() {
    let mut served = Served::new();
    assert_eq!(served.answers(0, Call::Enter(1)), []);
    let replies = served.again(0, WANT, 7);
    assert_eq!((replies[0].0, replies[0].1.made), (0, Made::Not));
    assert_eq!((replies[1].0, replies[1].1.answer), (7, Answer::Holds { pointer: 0 }));
}

/// A gathered lane gets the reply to any other call at once.
#[test]
fn a_gathered_lane_that_asks_for_another_call() {
    let mut served = Served::new();
    let _ = (served.ask(0, Call::Enter(4)), served.ask(1, Call::Enter(4)));
    assert_eq!(served.answers(2, Call::Enter(1)), [(2, Answer::Refused(16))]);
    let replies = served.ask(0, Call::Receive);
    assert_eq!(replies[0].1.made, Made::Now);
    assert_eq!(answers(replies), [(0, Answer::Gathered), (0, Answer::Refused(13))]);
}

/// Of a lane that asks again and again only the last connections are kept.
#[test]
fn connections_that_are_long_gone() {
    let mut served = Served::new();
    let _ = (served.ask(0, WANT), served.ask(1, WANT), served.ask(1, Call::Receive));
    for by in 100..200 {
        assert_eq!(served.again(1, Call::Receive, by), []);
    }
    let by: Vec<u32> = served.ask(0, Call::Take(0)).iter().map(|(by, _)| *by).collect();
    assert_eq!(by, [0, 192, 193, 194, 195, 196, 197, 198, 199]);
}
