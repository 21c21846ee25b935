//! A limit of time for calls that must end at once.

use std::sync::mpsc::{RecvTimeoutError, channel};
use std::thread;
use std::time::Duration;

/// Much more than such a call takes on a busy machine.
const LIMIT: Duration = Duration::from_secs(60);

/// The answer of a call, which must come in time. A call that goes on is left
/// behind; the tests end without it.
pub fn in_time<T: Send + 'static>(call: impl FnOnce() -> T + Send + 'static) -> T {
    let (sender, receiver) = channel();
    thread::spawn(move || sender.send(call()));
    match receiver.recv_timeout(LIMIT) {
        Ok(answer) => answer,
        Err(RecvTimeoutError::Timeout) => panic!("no answer in time"),
        Err(RecvTimeoutError::Disconnected) => panic!("the call has panicked"),
    }
}
