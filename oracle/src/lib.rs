//! The answers of spacepackets 0.19.0: one line for each request.

mod answer;
mod request;

use std::panic::catch_unwind;

/// The answer to one line, which has no line end.
pub fn answer(line: &[u8]) -> String {
    match request::parse(line) {
        None => "bad-request".into(),
        // A panic anywhere is the whole answer.
        Some(request) => {
            catch_unwind(|| answer::answer(&request)).unwrap_or_else(|_| "panic".into())
        }
    }
}
