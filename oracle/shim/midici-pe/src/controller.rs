//! What is compared of controller.rs, with as much around it as it needs. The parts that are included are the original's
//! text, cut out by layout.sh; the rest of controller.rs needs files that are not at hand.

pub struct PeController {
    our_simultaneous: u8,
    next_out_request_id: u8,
}

/// Of a `PeCapabilities` the field that is asked.
pub struct Caps {
    pub simultaneous_requests: u8,
}

impl PeController {
    pub fn new(our_simultaneous: u8) -> Self {
        let next_out_request_id = include!("../../../../target/oracle/cut/first_request_id.rs");
        Self { our_simultaneous, next_out_request_id }
    }

    pub fn with_counter(next_out_request_id: u8) -> Self {
        Self { our_simultaneous: 0, next_out_request_id }
    }

    pub fn counter(&self) -> u8 {
        self.next_out_request_id
    }

    /// Hands out an id: the original's function is private.
    pub fn alloc(&mut self) -> u8 {
        self.alloc_out_request_id()
    }

    /// As `on_caps_inquiry` settles the requests.
    pub fn negotiated_on_inquiry(&self, inq: Caps) -> u8 {
        include!("../../../../target/oracle/cut/negotiated_inquiry.rs")
    }

    /// As `on_caps_reply` does.
    pub fn negotiated_on_reply(&self, rep: Caps) -> u8 {
        include!("../../../../target/oracle/cut/negotiated_reply.rs")
    }
}

include!("../../../../target/oracle/cut/alloc_out_request_id.rs");
