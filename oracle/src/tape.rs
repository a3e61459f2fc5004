//! Tapes: a reading of document 02's K4. A tape's commands, their bytes, and the lines that playing it prints.
use crate::call::What;
use crate::input::{u16_at, u32_at, u64_at, u8_at};
use crate::layout::Shape;
use crate::outcome::Answer;
use crate::run::Told;

/// "a table of 2 consoles, H 256, B 4,096, R 64".
pub const SHAPE: Shape = Shape { max_peers: 2, header_bytes: 256, tx_bytes: 4_096, fragment_records: 64 };

/// "The bytes 01 05 .. 00 print `1 w 2 0` and `4 0`."
pub const EXAMPLE: [u8; 35] = [
    0x01, 0x05, 0x00, 0x00, 0x00, 0xE8, 0x03, 0x00, 0x00, 0x00, 0x00, 0x00, 0x00, 0x0B, 0x00, 0x05, 0x02, 0x00, 0x7B, 0x7D, 0x01,
    0x00, 0x01, 0x00, 0x00, 0x00, 0x04, 0xA0, 0x0F, 0x00, 0x00, 0x00, 0x00, 0x00, 0x00,
];
pub const EXAMPLE_LINES: &str = "1 w 2 0\n4 0\n";

/// "36 for an unknown command byte, 37 for a tape that ends inside a command".
pub const UNKNOWN: u8 = 36;
pub const CUT_OFF: u8 = 37;

/// The bytes of the commands.
pub const FEED: u8 = 1;
const CANCEL: u8 = 2;
const DROP_PEER: u8 = 3;
const POLL: u8 = 4;
pub const CODES: [u8; 4] = [FEED, CANCEL, DROP_PEER, POLL];

pub enum Command {
    Feed { peer: u32, now_ms: u64, raw_chunk: Vec<u8> },
    Cancel { peer: u32, request_id: u8 },
    DropPeer { peer: u32 },
    Poll { now_ms: u64 },
}

/// A tape as it is read: its commands, and the number of its last line, where it has one.
pub struct Tape {
    pub commands: Vec<Command>,
    pub last: Option<u8>,
}

impl Tape {
    /// "either is printed as a last line, r36 or r37, and the play stops."
    pub fn read(bytes: &[u8]) -> Tape {
        let (mut commands, mut at) = (Vec::new(), 0);
        while at < bytes.len() {
            match Command::read(&bytes[at..]) {
                Ok((command, len)) => {
                    at += len;
                    commands.push(command);
                }
                Err(number) => return Tape { commands, last: Some(number) },
            }
        }
        Tape { commands, last: None }
    }

    pub fn last_line(&self) -> String {
        self.last.map_or(String::new(), |number| format!("r{number}\n"))
    }
}

impl Command {
    /// "A tape is a run of commands, one byte each: 01 feed (console 4 bytes, time 8, frame length 2, then the frame), 02 cancel
    /// (console 4, request id 1), 03 drop (console 4), 04 poll (time 8); operands low byte first." The command that bytes begin
    /// with and how many it has, or the number of the last line.
    fn read(bytes: &[u8]) -> Result<(Command, usize), u8> {
        let peer = u32_at(bytes, 1);
        let (command, len) = match bytes[0] {
            FEED => {
                let len = 15 + usize::from(u16_at(bytes, 13));
                let raw_chunk = bytes.get(15..len).unwrap_or(&[]).to_vec();
                (Command::Feed { peer, now_ms: u64_at(bytes, 5), raw_chunk }, len)
            }
            CANCEL => (Command::Cancel { peer, request_id: u8_at(bytes, 5) }, 6),
            DROP_PEER => (Command::DropPeer { peer }, 5),
            POLL => (Command::Poll { now_ms: u64_at(bytes, 1) }, 9),
            _ => return Err(UNKNOWN),
        };
        if bytes.len() < len {
            return Err(CUT_OFF);
        }
        Ok((command, len))
    }

    pub fn code(&self) -> u8 {
        match self {
            Command::Feed { .. } => FEED,
            Command::Cancel { .. } => CANCEL,
            Command::DropPeer { .. } => DROP_PEER,
            Command::Poll { .. } => POLL,
        }
    }

    /// Its bytes.
    pub fn write(&self, tape: &mut Vec<u8>) {
        tape.push(self.code());
        match self {
            Command::Feed { peer, now_ms, raw_chunk } => {
                tape.extend(peer.to_le_bytes());
                tape.extend(now_ms.to_le_bytes());
                tape.extend(u16::try_from(raw_chunk.len()).expect("a chunk of at most 65,535 bytes").to_le_bytes());
                tape.extend(raw_chunk);
            }
            Command::Cancel { peer, request_id } => {
                tape.extend(peer.to_le_bytes());
                tape.push(*request_id);
            }
            Command::DropPeer { peer } => tape.extend(peer.to_le_bytes()),
            Command::Poll { now_ms } => tape.extend(now_ms.to_le_bytes()),
        }
    }

    /// The call that it stands for.
    pub fn what(&self) -> What {
        match self {
            Command::Feed { peer, now_ms, raw_chunk } => {
                What::Feed { peer: *peer, raw_chunk: raw_chunk.clone(), now_ms: *now_ms }
            }
            Command::Cancel { peer, request_id } => What::Cancel { peer: *peer, request_id: *request_id },
            Command::DropPeer { peer } => What::DropPeer { peer: *peer },
            Command::Poll { now_ms } => What::Poll { now_ms: *now_ms },
        }
    }

    /// The sort of answer that its call gave.
    pub fn answer(&self, told: Told) -> Answer {
        match (self, told.numbers[0]) {
            _ if told.refusal != 0 => Answer::Refused(told.refusal),
            (Command::Feed { .. }, 0) => Answer::Waiting,
            (Command::Feed { .. }, _) => Answer::Whole,
            (_, 0) => Answer::No,
            _ => Answer::Yes,
        }
    }

    /// "Each line is the command byte, in decimal, and its answer: a feed gives a refusal number, 0 for waiting, or w with header
    /// and body length; cancel 1 or 0; drop and poll a count; any of them a refusal number written with r right before it, save
    /// feed's, which stands bare."
    pub fn line(&self, told: Told) -> String {
        let (code, refusal, [first, header_len, body_len]) = (self.code(), told.refusal, told.numbers);
        match (self, self.answer(told)) {
            (Command::Feed { .. }, Answer::Refused(_)) => format!("{code} {refusal}\n"),
            (_, Answer::Refused(_)) => format!("{code} r{refusal}\n"),
            (_, Answer::Whole) => format!("{code} w {header_len} {body_len}\n"),
            _ => format!("{code} {first}\n"),
        }
    }
}
