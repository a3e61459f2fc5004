//! Random tapes: mostly what a hub could have received; and the pieces in which a tape's bytes come.
use super::lists::{self, Sizes};
use super::senders::{self, Sent};
use crate::functions::chunks;
use crate::inputs::seven_bit;
use crate::rng::Rng;
use crate::tape::{Command, FEED, SHAPE};
use midici_pe::frame::PeChunk;

/// How many commands a tape has.
const COMMANDS: [usize; 8] = [1, 4, 30, 100, 200, 400, 800, 2_000];
/// How many a tape of short commands has, so that some have more than 131,072 bytes, and as many of lines.
const SHORT_COMMANDS: [usize; 4] = [3_000, 14_000, 27_000, 45_000];
const LIMITS: [u32; 5] = [128, 256, 256, 512, 4_096];
const LONGEST: usize = 65_535;
/// Around these many bytes a piece is as long as a block of a reader could be.
const BLOCKS: [usize; 3] = [4_096, 65_536, 131_072];
const LONGEST_BYTE_BY_BYTE: usize = 600;
const MOST_PIECES: usize = 150;

/// A tape: it ends behind a command, inside one, or meets an unknown command; or it is noise.
pub fn tape(rng: &mut Rng) -> Vec<u8> {
    let kind = rng.below(32);
    if kind == 0 {
        return noise(rng);
    }
    let mut script = Script::new(rng);
    let mut tape = if kind == 1 { script.short_commands() } else { script.received() };
    match script.rng.below(4) {
        0 => script.cut_off(&mut tape),
        1 => script.unknown(&mut tape),
        _ => (),
    }
    tape
}

/// Bytes, every second one low, so that some are commands.
fn noise(rng: &mut Rng) -> Vec<u8> {
    let len = rng.below(400);
    (0..len).map(|_| if rng.once_in(2) { rng.below(6) as u8 } else { rng.byte() }).collect()
}

/// The lengths of the pieces in which so many bytes come: all at once, one by one, of about the length of a block, or any.
pub fn pieces(rng: &mut Rng, len: usize) -> Vec<usize> {
    match rng.below(8) {
        0..=1 => in_pieces(len, || len),
        2 if len <= LONGEST_BYTE_BY_BYTE => in_pieces(len, || 1),
        3..=4 => in_pieces(len, || rng.pick(&BLOCKS) - 8 + rng.below(17)),
        _ => {
            let longest = rng.pick(&[10, 100, 1_000, 10_000, 100_000]).max(2 * len / MOST_PIECES);
            in_pieces(len, || 1 + rng.below(longest))
        }
    }
}

fn in_pieces(mut len: usize, mut piece: impl FnMut() -> usize) -> Vec<usize> {
    let mut pieces = Vec::new();
    while len > 0 {
        pieces.push(piece().min(len));
        len -= pieces[pieces.len() - 1];
    }
    pieces
}

/// What a tape is made of.
struct Script<'a> {
    rng: &'a mut Rng,
    /// Does nothing come but chunks of lists for which the table has room?
    tidy: bool,
    peers: Vec<u32>,
    request_ids: Vec<u8>,
    lists: Vec<Sent>,
    /// How many lists are sent side by side.
    side_by_side: usize,
    /// Once in so many chunks one is wrong, unless all is tidy.
    wrong_in: usize,
    /// Does time jump?
    jumps: bool,
    now_ms: u64,
}

impl Script<'_> {
    fn new(rng: &mut Rng) -> Script<'_> {
        let tidy = rng.once_in(2);
        let named = 1 + rng.below(if tidy { 2 } else { 3 });
        Script {
            tidy,
            peers: senders::peers(rng, named),
            request_ids: senders::request_ids(rng),
            lists: Vec::new(),
            side_by_side: 1 + rng.below(2 * named + 1),
            wrong_in: rng.pick(&[4, 30, 300]),
            jumps: rng.once_in(8),
            now_ms: senders::first_time(rng),
            rng,
        }
    }

    fn received(&mut self) -> Vec<u8> {
        let mut tape = Vec::new();
        for _ in 0..self.rng.pick(&COMMANDS) {
            self.command().write(&mut tape);
        }
        tape
    }

    /// Cancels, drops and polls, or the shortest alone, drops; and seldom a chunk for them.
    fn short_commands(&mut self) -> Vec<u8> {
        let (mut tape, fed_in, drops) = (Vec::new(), self.rng.pick(&[64, 10_000]), self.rng.once_in(2));
        for _ in 0..self.rng.pick(&SHORT_COMMANDS) {
            let command = match self.rng.once_in(fed_in) {
                true => self.command(),
                false if drops => self.drop_peer(),
                false => self.short_command(),
            };
            command.write(&mut tape);
        }
        tape
    }

    /// A last command that is not all there: its byte alone, all but one byte, or any part.
    fn cut_off(&mut self, tape: &mut Vec<u8>) {
        let from = tape.len();
        let command = if self.rng.once_in(2) { self.short_command() } else { self.command() };
        command.write(tape);
        let len = tape.len() - from;
        let kept = self.rng.below(len - 1) + 1;
        tape.truncate(from + self.rng.pick(&[1, len - 1, kept]));
    }

    /// A byte that is no command, alone or with commands or noise behind it.
    fn unknown(&mut self, tape: &mut Vec<u8>) {
        let byte = self.rng.pick(&[0, 5, 6, 0x40, 0x81, 0xFF]);
        tape.push(byte);
        for _ in 0..self.rng.below(4) {
            self.command().write(tape);
        }
        if self.rng.once_in(4) {
            tape.extend(noise(self.rng));
        }
    }

    fn command(&mut self) -> Command {
        self.now_ms = senders::next_time(self.rng, self.now_ms, self.jumps);
        match self.rng.below(64) {
            0..=5 => self.short_command(),
            6 if !self.tidy => self.feed_any(),
            _ => self.feed(),
        }
    }

    fn short_command(&mut self) -> Command {
        match self.rng.below(6) {
            0..=1 => self.cancel(),
            2 => self.drop_peer(),
            _ => self.poll(),
        }
    }

    /// Mostly of a list that is being sent; and mostly no more of it comes.
    fn cancel(&mut self) -> Command {
        if self.lists.is_empty() || self.rng.once_in(3) {
            return Command::Cancel { peer: senders::named(self.rng, &self.peers), request_id: self.rng.byte() };
        }
        let which = self.rng.below(self.lists.len());
        let (peer, request_id) = (self.lists[which].peer, self.lists[which].request_id());
        if !self.rng.once_in(4) {
            self.lists.swap_remove(which);
        }
        Command::Cancel { peer, request_id }
    }

    /// Mostly no more of the peer's lists comes.
    fn drop_peer(&mut self) -> Command {
        let peer = senders::named(self.rng, &self.peers);
        if !self.rng.once_in(4) {
            self.lists.retain(|list| list.peer != peer);
        }
        Command::DropPeer { peer }
    }

    /// Now, around three seconds later, or back.
    fn poll(&mut self) -> Command {
        let later = self.rng.pick(&[0, 0, 0, 2_999, 3_000, 3_050]);
        let back = if self.rng.once_in(8) { 5_000 } else { 0 };
        Command::Poll { now_ms: self.now_ms.saturating_add(later).saturating_sub(back) }
    }

    /// A chunk of a list, now and then wrong or under another peer.
    fn feed(&mut self) -> Command {
        let wrong = !self.tidy && self.rng.once_in(self.wrong_in);
        let (peer, chunk) = self.chunk(wrong);
        let raw_chunk = if wrong { lists::wrong(self.rng, &chunk) } else { chunk };
        let peer = if !self.tidy && self.rng.once_in(64) { senders::named(self.rng, &self.peers) } else { peer };
        Command::Feed { peer, now_ms: self.now_ms, raw_chunk }
    }

    /// The next chunk of a list; or, where it goes wrong, now and then one that went before.
    fn chunk(&mut self, wrong: bool) -> (u32, Vec<u8>) {
        self.lists.retain(|list| !list.has_gone());
        while self.lists.len() < self.side_by_side {
            self.send_another();
        }
        let which = self.rng.below(self.lists.len());
        let (again, stays) = (wrong && self.rng.once_in(4), wrong && self.rng.once_in(2));
        let list = &mut self.lists[which];
        let chunk = if again { list.again(self.rng) } else { list.next(stays) };
        (list.peer, chunk)
    }

    /// Under a peer and a request id that no list has which is being sent, where these are found soon.
    fn send_another(&mut self) {
        let any = |rng: &mut Rng| (rng.pick(&self.peers), rng.pick(&self.request_ids));
        let is_sent = |name: &(u32, u8)| self.lists.iter().any(|list| (list.peer, list.request_id()) == *name);
        let mut name = any(self.rng);
        for _ in 0..6 {
            name = if is_sent(&name) { any(self.rng) } else { name };
        }
        let (peer, request_id) = name;
        let fits = self.tidy || !self.rng.once_in(4);
        let chunks = if fits { list(self.rng, request_id) } else { list_around_rooms(self.rng, request_id) };
        self.lists.push(Sent::new(self.rng, chunks, &[peer]));
    }

    /// A chunk that no list has: damaged, empty or long.
    fn feed_any(&mut self) -> Command {
        let raw_chunk = match self.rng.below(16) {
            0 => Vec::new(),
            1 => long(self.rng),
            _ => chunks::damaged(self.rng),
        };
        Command::Feed { peer: senders::named(self.rng, &self.peers), now_ms: self.now_ms, raw_chunk }
    }
}

/// The chunks of a list for which the tape's table has room.
fn list(rng: &mut Rng, request_id: u8) -> Vec<Vec<u8>> {
    match rng.below(8) {
        0 => lists::with_late_count(rng, request_id),
        1..=4 => lists::small(rng, request_id),
        _ => {
            let (header_len, body_len, max_sysex) = (rng.below(100), rng.below(SHAPE.tx_bytes + 1), rng.pick(&LIMITS));
            lists::cut(rng, request_id, header_len, body_len, max_sysex)
        }
    }
}

/// One that just has room, or just not: its body, its header, its number of chunks; or any of a run's.
fn list_around_rooms(rng: &mut Rng, request_id: u8) -> Vec<Vec<u8>> {
    let (header_len, body_len, max_sysex) = match rng.below(6) {
        0..=1 => (rng.below(100), rng.around(SHAPE.tx_bytes), rng.pick(&LIMITS)),
        2..=3 => (rng.around(SHAPE.header_bytes), rng.below(600), 512),
        4 => return lists::many(rng, request_id, SHAPE.fragment_records),
        _ => return lists::list(rng, Sizes::Small, request_id),
    };
    lists::cut(rng, request_id, header_len, body_len, max_sysex)
}

/// The longest chunk that can be written, or as many bytes as a command can say, or some fewer, of which the first are a chunk.
fn long(rng: &mut Rng) -> Vec<u8> {
    let (header, property) = (seven_bit(rng, 16_383), seven_bit(rng, 16_383));
    let chunk = PeChunk { request_id: 5, header, num_chunks: 1, chunk_num: 1, property };
    let mut bytes = chunk.to_vec().expect("a chunk that can be written");
    if rng.once_in(2) {
        let len = LONGEST - rng.pick(&[0, 1, 20_000]);
        bytes.resize(len, FEED);
    }
    bytes
}
