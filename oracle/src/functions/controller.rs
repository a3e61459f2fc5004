//! From controller.rs: request ids, and the requests that are settled.
use crate::input::u8_at;
use crate::outcome::Outcome;
use midici_pe::controller::{Caps, PeController};

pub fn first_request_id(_: &[u8], _: Vec<u8>) -> Outcome {
    Outcome::granted([PeController::new(0).counter()])
}

/// The id, and the counter after it.
pub fn alloc_out_request_id(input: &[u8], _: Vec<u8>) -> Outcome {
    let mut controller = PeController::with_counter(u8_at(input, 0));
    let id = controller.alloc();
    Outcome::granted([id, controller.counter()])
}

/// What `on_caps_inquiry` settles, and `on_caps_reply` too.
pub fn negotiated_requests(input: &[u8], _: Vec<u8>) -> Outcome {
    let (ours, theirs) = (u8_at(input, 0), u8_at(input, 1));
    let controller = PeController::new(ours);
    let negotiated = controller.negotiated_on_inquiry(Caps { simultaneous_requests: theirs });
    let on_reply = controller.negotiated_on_reply(Caps { simultaneous_requests: theirs });
    assert_eq!(negotiated, on_reply, "the original's two places, at {ours} and {theirs}");
    Outcome::granted([negotiated])
}
