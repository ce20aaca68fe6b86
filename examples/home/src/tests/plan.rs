//! The sizes of a trial: bytes of calls as they are, and bounds that a plan keeps.

use crate::call::{open_bytes, Call};
use crate::trial::plan;
use gudlemi::{Purpose, View, Whence};

#[test]
fn bytes_of_calls() {
    let calls = [
        (Call::Want(Purpose::WholeBook), plan::WANT),
        (Call::Receive, plan::RECEIVE),
        (Call::Take(1), plan::TAKE),
        (Call::Write([1; 8]), plan::WRITE),
        (Call::Read, plan::READ),
        (Call::Put(1, [1; 8]), plan::PUT),
        (Call::Look(1), plan::LOOK),
        (Call::Free, plan::FREE),
        (Call::Enter(1), plan::ENTER),
        (Call::View(View::PLAIN), plan::VIEW),
        (Call::Seek(Whence::End, -1), plan::SEEK),
    ];
    for (call, length) in calls {
        assert_eq!(call.bytes(0).len(), length, "{call:?}");
    }
    assert_eq!(open_bytes(1, 64).len(), plan::OPEN);
}
