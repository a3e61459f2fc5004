//! The calls on a table, a row for each.
use crate::beyond::OF_SLOT;
use crate::export::{export, Export};
use crate::lent::Part;
use crate::open::{self, OpenSlot};
use crate::outcome::Refusal;
use midici_core::muid::Muid;
use midici_core::pe_msg::PeMessage;
use midici_pe::reassembler::{ReassembleEvent, Reassembler};

/// What a call that is not refused tells.
#[derive(Clone, Copy)]
pub enum Tells {
    /// Nothing that is counted.
    Granted,
    /// Whether a list is whole.
    Whole,
    /// How many there were, and so whether there was any.
    Whether,
}

/// What the comparison knows of a call.
pub struct Row {
    /// The port's export of it, with what document 01 asks of it.
    pub export: Export,
    pub lent: &'static [Part],
    pub tells: Tells,
}

const fn row(name: &'static str, refusals: &'static [u8], lent: &'static [Part], tells: Tells) -> Row {
    Row { export: export(name, refusals), lent, tells }
}

impl Row {
    /// It feeds a chunk: what K3 turns down of it is not put to the original.
    const fn feeds(self) -> Row {
        Row { export: Export { beyond: &OF_SLOT, ..self.export }, ..self }
    }
}

const NUMBERS: [Part; 1] = [Part::Numbers];
const TABLE: [Part; 4] = [Part::Numbers, Part::Index, Part::Headers, Part::Arenas];
const FED: [Part; 6] = [Part::Numbers, Part::Index, Part::Headers, Part::Arenas, Part::OutHeader, Part::OutBody];
const POLLED: [Part; 3] = [Part::Numbers, Part::OutPeers, Part::OutRequestIds];
const LISTED: [Part; 4] = [Part::Numbers, Part::OutPeers, Part::OutRequestIds, Part::OutChunksHeld];

/// What a call writes to the fronts of its lent outputs.
#[derive(Default)]
pub struct Written {
    pub header: Vec<u8>,
    pub body: Vec<u8>,
    pub peers: Vec<u64>,
    pub request_ids: Vec<u64>,
    pub held: Vec<u64>,
}

macro_rules! calls {
    ($($call:ident $({ $($field:ident: $kind:ty),* })?: $row:expr, |$r:pat_param, $written:pat_param| $answer:expr;)*) => {
        /// A call, with what it is handed besides what it is lent.
        #[derive(Clone)]
        pub enum What {
            $($call $({ $($field: $kind),* })?,)*
        }

        impl What {
            pub fn exports() -> impl Iterator<Item = Export> {
                [$($row.export),*].into_iter()
            }

            pub fn row(&self) -> &'static Row {
                match self {
                    $(What::$call { .. } => &const { $row },)*
                }
            }

            /// The numbers that the original answers, or its refusal, where what is lent is right.
            pub fn original(&self, r: &mut Reassembler, written: &mut Written) -> Result<[u64; 3], Refusal> {
                Ok(match self {
                    $(What::$call $({ $($field),* })? => {
                        let ($r, $written) = (r, written);
                        $answer
                    })*
                })
            }

            /// What it is handed, as it is shown.
            pub fn handed(&self) -> Vec<String> {
                match self {
                    $(What::$call $({ $($field),* })? => vec![$($(format!("{} {}", stringify!($field), $field.shown())),*)?],)*
                }
            }
        }
    };
}

// A variant with its fields; the export's name, the numbers with which it can refuse, what it is lent and what it tells; the
// original's answer, given its table and where to put what is written. The source of a message is read from bytes of 28 bits, so
// it is not asked 28.
calls! {
    // Whoever makes this call makes another table of the original where it is granted.
    New: row("midici_pe_new", &[30], &TABLE, Tells::Granted),
        |_, _| [0; 3];
    Feed { peer: u32, raw_chunk: Vec<u8>, now_ms: u64 }:
        row("midici_pe_feed", &[30, 28, 2, 1, 8, 7, 6, 31, 4, 5], &FED, Tells::Whole).feeds(),
        |r, written| fed(r.feed(muid(*peer)?, raw_chunk, *now_ms)?, written);
    FeedMessage { body: Vec<u8>, now_ms: u64 }:
        row("midici_pe_feed_message", &[30, 21, 22, 23, 26, 24, 2, 1, 8, 7, 6, 31, 4, 5], &FED, Tells::Whole).feeds(),
        |r, written| fed(feed_message(r, body, *now_ms)?, written);
    Cancel { peer: u32, request_id: u8 }: row("midici_pe_cancel", &[30, 28], &NUMBERS, Tells::Whether),
        |r, _| [r.cancel(muid(*peer)?, *request_id).into(), 0, 0];
    DropPeer { peer: u32 }: row("midici_pe_drop_peer", &[30, 28], &NUMBERS, Tells::Whether),
        |r, _| [r.drop_peer(muid(*peer)?) as u64, 0, 0];
    Poll { now_ms: u64 }: row("midici_pe_poll", &[30], &POLLED, Tells::Whether),
        |r, written| polled(r.poll(*now_ms), written);
    MemoryStats: row("midici_pe_memory_stats", &[30], &NUMBERS, Tells::Granted),
        |r, _| memory_stats(r);
    ReservedBytes: row("midici_pe_reserved_bytes", &[30], &[], Tells::Granted),
        |r, _| [r.reserved_bytes() as u64, 0, 0];
    OpenList: row("midici_pe_open_list", &[30], &LISTED, Tells::Whether),
        |r, written| listed(&open::of_original(r), written);
}

/// "Console number within 28 bits (also `Muid::from_u32`)? 28." The original's type holds no other number.
pub fn muid(peer: u32) -> Result<Muid, Refusal> {
    Ok(Muid::from_u32(peer)?)
}

fn fed(event: Option<ReassembleEvent>, written: &mut Written) -> [u64; 3] {
    match event {
        None => [0; 3],
        Some(ReassembleEvent::Complete { header, body, .. }) => {
            *written = Written { header, body, ..Written::default() };
            [1, written.header.len() as u64, written.body.len() as u64]
        }
        Some(event) => panic!("feed of the original: {event:?}"),
    }
}

/// The original has no such entry: this is its message's reader, and then its `feed` under the message's source.
fn feed_message(r: &mut Reassembler, body: &[u8], now_ms: u64) -> Result<Option<ReassembleEvent>, Refusal> {
    let message = PeMessage::decode(body)?;
    Ok(r.feed(message.header.source, &message.pe_payload, now_ms)?)
}

fn polled(events: Vec<ReassembleEvent>, written: &mut Written) -> [u64; 3] {
    for event in &events {
        let ReassembleEvent::Timeout { peer, request_id } = event else { panic!("poll of the original: {event:?}") };
        written.peers.push(peer.to_u32().into());
        written.request_ids.push((*request_id).into());
    }
    [events.len() as u64, 0, 0]
}

fn memory_stats(r: &Reassembler) -> [u64; 3] {
    let stats = r.memory_stats();
    [stats.reserved_bytes as u64, stats.active_bytes as u64, stats.active_slots as u64]
}

/// The rows of an open list in its columns: how many there are.
pub fn listed(rows: &[OpenSlot], written: &mut Written) -> [u64; 3] {
    for row in rows {
        written.peers.push(row.peer);
        written.request_ids.push(row.request_id);
        written.held.push(row.held);
    }
    [rows.len() as u64, 0, 0]
}

/// How a field is shown.
trait Shown {
    fn shown(&self) -> String;
}

/// A peer.
impl Shown for u32 {
    fn shown(&self) -> String {
        format!("{self:07X}")
    }
}

impl Shown for u8 {
    fn shown(&self) -> String {
        self.to_string()
    }
}

impl Shown for u64 {
    fn shown(&self) -> String {
        self.to_string()
    }
}

/// The bytes, or the first of them.
impl Shown for Vec<u8> {
    fn shown(&self) -> String {
        let shown: Vec<String> = self.iter().take(60).map(|b| format!("{b:02X}")).collect();
        let more = if self.len() > 60 { format!(" .. ({} bytes)", self.len()) } else { String::new() };
        shown.join(" ") + &more
    }
}
