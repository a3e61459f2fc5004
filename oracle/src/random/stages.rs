//! Random runs on an outgoing stage: lists that join, turns, and what somebody else writes into the stage and into the buffer
//! meanwhile.
use crate::cut::{first, later};
use crate::functions::cutter::any_limit;
use crate::rng::Rng;
use crate::stage::{byte, place_at, Lent, Outgoing, Place, Stage, Step, BUFFER, PLACES, ROOM, TURN_WORD, WORDS};

/// How many calls a run has.
pub const CALLS: usize = 100;
/// At limit 128, what as many chunks as there may be carry.
const MOST_CARRIED: usize = 16_383 * 104;
const BIT_32: u64 = 1 << 32;
const TOP: u64 = u64::MAX;
/// Numbers at the boundaries of what a stage stores.
const EDGES: [u64; 13] = [0, 1, 2, 15, 16, 17, 127, 128, 255, 256, 4_096, 4_097, 16_383];
const LARGE_EDGES: [u64; 9] = [16_384, 65_535, 65_536, 65_537, BIT_32, BIT_32 + 1, 1 << 63, TOP - 1, TOP];
/// Places that a stage does not have. Cut short, all but the last are places that it has.
const NO_PLACES: [u64; 6] = [16, 17, 256, 1 << 16, BIT_32, TOP];
/// Ids and limits at the boundaries; cut short, the last but one of each are good ones.
const IDS: [u64; 6] = [0, 127, 128, 255, 256 + 5, TOP];
const LIMITS: [u64; 8] = [0, 127, 129, 16_384, 16_385, BIT_32, BIT_32 + 128, TOP];

/// What a run is made of.
pub struct Script {
    rng: Rng,
    /// How many words and bytes of the buffer its calls are lent, if nothing is wrong.
    words: usize,
    buffer: usize,
    /// Are lists mostly long?
    long: bool,
    /// Once in so many calls a list joins.
    joins_in: usize,
    /// Once in so many calls something is wrong with what it is lent or handed.
    wrong_in: usize,
    /// Once in so many calls somebody else writes into the stage, or into the buffer, before it.
    stage_written_in: usize,
    buffer_written_in: usize,
    /// What comes next, and what puts back what somebody else has written.
    pending: Vec<Step>,
    repairs: Vec<Step>,
    left: usize,
}

impl Script {
    pub fn new(mut rng: Rng) -> Script {
        Script {
            words: WORDS + rng.pick(&[0, 0, 1, 7]),
            buffer: rng.pick(&[600, 5_000, 5_001, 70_000, BUFFER]),
            long: rng.once_in(32),
            joins_in: rng.pick(&[2, 3, 4, 4, 8]),
            wrong_in: rng.pick(&[4, 10, 30, 1_000]),
            stage_written_in: rng.pick(&[6, 20, usize::MAX, usize::MAX]),
            buffer_written_in: rng.pick(&[10, 40, usize::MAX]),
            pending: Vec::new(),
            repairs: Vec::new(),
            left: CALLS,
            rng,
        }
    }

    /// What the stage's memory holds before the first call: anything; mostly `new` is that call.
    pub fn start(&mut self) -> Stage {
        if !self.rng.once_in(16) {
            let lent = self.lent(ROOM);
            self.left -= 1;
            self.pending.push(Step::New(Lent { words: self.words, ..lent }));
        }
        let words: Vec<u64> = (0..WORDS).map(|_| self.number()).collect();
        Stage::of_words(&words)
    }

    /// The next step, if there is one, given the stage and the buffer.
    pub fn next(&mut self, stage: &Stage, buffer: &[u8]) -> Option<Step> {
        if let Some(step) = self.pending.pop() {
            return Some(step);
        }
        if self.left > 0 && self.write(stage, buffer) {
            return self.pending.pop();
        }
        self.left = self.left.checked_sub(1)?;
        Some(match self.rng.below(64) {
            0 => self.make(),
            _ if self.rng.once_in(self.joins_in) => self.join(stage),
            _ => self.turn(stage, buffer),
        })
    }

    /// Any number, mostly at a boundary.
    fn number(&mut self) -> u64 {
        match self.rng.below(8) {
            0 => self.rng.draw(),
            1..=3 => self.rng.pick(&LARGE_EDGES),
            _ => self.rng.pick(&EDGES),
        }
    }

    fn is_wrong(&mut self) -> bool {
        self.rng.once_in(self.wrong_in)
    }

    /// What a call is lent. Where something is wrong, words are missing, or bytes of the buffer, every second time its last one.
    fn lent(&mut self, room: usize) -> Lent {
        let mut lent = Lent { words: self.words, buffer: self.buffer, room };
        if self.is_wrong() {
            match self.rng.below(4) {
                0 => lent.words = self.rng.pick(&[0, 1, place_at(1), WORDS - 1, WORDS - 1]),
                1 => lent.buffer = self.rng.below(self.buffer),
                2 => lent.buffer = self.buffer - 1,
                _ => (),
            }
        }
        lent
    }

    /// A new stage, which ends all that waits: mostly it is refused.
    fn make(&mut self) -> Step {
        let mut lent = self.lent(ROOM);
        if !self.rng.once_in(4) {
            lent.words = self.rng.below(WORDS);
        }
        Step::New(lent)
    }

    /// Mostly at a free place, if there is one.
    fn join(&mut self, stage: &Stage) -> Step {
        let free: Vec<usize> = (0..PLACES).filter(|at| stage.places[*at].next_chunk == 0).collect();
        let any = free.is_empty() || self.is_wrong();
        let place = if any { self.rng.below(PLACES) } else { self.rng.pick(&free) };
        let mut place = place as u64;
        if self.is_wrong() && self.rng.once_in(3) {
            place = place.saturating_add(self.rng.pick(&NO_PLACES));
        }
        let list = self.list();
        Step::Join(self.lent(ROOM), place, list)
    }

    /// Every fourth turn has room for just what is next, or around it.
    fn turn(&mut self, stage: &Stage, buffer: &[u8]) -> Step {
        let mut lent = self.lent(ROOM);
        if self.rng.once_in(4) {
            let next = stage.clone().turn(lent.words, &buffer[..lent.buffer], ROOM);
            let need = next.ok().flatten().map_or(9, |handed| handed.bytes.len());
            let wrong = self.is_wrong() || self.rng.once_in(4);
            lent.room = if wrong { self.rng.pick(&[need - 1, need - 1, need + 1, 8, 0]) } else { need };
        }
        Step::Turn(lent)
    }

    /// A list in the buffer, mostly a good one.
    fn list(&mut self) -> Outgoing {
        let wrong = self.is_wrong();
        if self.buffer == BUFFER && self.rng.once_in(if wrong { 3 } else { 256 }) {
            return self.of_many_chunks(wrong);
        }
        let limit = if self.long { self.rng.pick(&[128, 4_096, 16_384]) } else { self.limit() };
        let (header_len, body_len) = self.lengths(limit);
        let mut list = Outgoing {
            header_at: self.place_for(header_len),
            header_len,
            body_at: self.place_for(body_len),
            body_len,
            request_id: self.rng.below(128) as u64,
            max_sysex: limit.into(),
        };
        if wrong {
            self.spoil(&mut list);
        }
        list
    }

    fn limit(&mut self) -> u32 {
        if self.rng.once_in(4) {
            any_limit(&mut self.rng)
        } else {
            128
        }
    }

    /// Of a header that the limit takes, and of a body around a multiple of what its chunks carry, as far as the buffer has them.
    fn lengths(&mut self, limit: u32) -> (u64, u64) {
        let rng = &mut self.rng;
        let longest = later(limit).min(4_096);
        let header_len = if rng.once_in(16) { longest } else { rng.below(60.min(longest)) }.min(self.buffer);
        let chunks = if rng.once_in(16) { rng.below(40) } else { rng.below(5) };
        let carried = first(limit, header_len).unwrap_or(0) + chunks * later(limit);
        let body_len = match rng.below(4) {
            _ if self.long => 65_536 - rng.below(1_000),
            0..=1 => rng.around(carried),
            _ => rng.below(carried.min(1_000) + 1),
        };
        (header_len as u64, body_len.min(self.buffer) as u64)
    }

    /// Where so many bytes lie in the buffer: anywhere, or at its very end.
    fn place_for(&mut self, len: u64) -> u64 {
        let last = self.buffer as u64 - len;
        if self.rng.once_in(8) {
            last
        } else {
            self.rng.below(last as usize + 1) as u64
        }
    }

    /// At limit 128 a list of as many chunks as there may be, or of one more.
    fn of_many_chunks(&mut self, too_many: bool) -> Outgoing {
        let body_len = (MOST_CARRIED + usize::from(too_many)) as u64;
        Outgoing { body_at: self.place_for(body_len), body_len, request_id: 5, max_sysex: 128, ..Outgoing::default() }
    }

    /// A list that is outside of the buffer, or that the cutter turns down, or whose numbers are at boundaries.
    fn spoil(&mut self, list: &mut Outgoing) {
        let rng = &mut self.rng;
        match rng.below(8) {
            0 => list.request_id = rng.pick(&IDS),
            1 => list.max_sysex = rng.pick(&LIMITS),
            2 => list.header_len = (later(list.max_sysex as u32) + rng.below(2)).min(self.buffer) as u64,
            3 => (list.header_at, list.header_len) = (0, rng.around(4_097).min(self.buffer) as u64),
            4 => (list.header_at, list.header_len) = outside(rng, self.buffer, list.header_len),
            5 => (list.body_at, list.body_len) = outside(rng, self.buffer, list.body_len),
            6 => list.header_at = self.number(),
            _ => list.body_at = self.number(),
        }
    }

    /// Does somebody else write before the next call? Then what is written is pending; or what was written is put back.
    fn write(&mut self, stage: &Stage, buffer: &[u8]) -> bool {
        if !self.repairs.is_empty() && self.rng.once_in(3) {
            self.pending.extend(self.repairs.pop());
        } else if self.rng.once_in(self.stage_written_in) {
            self.write_stage(stage);
        } else if self.rng.once_in(self.buffer_written_in) {
            self.write_buffer(stage, buffer.len());
        }
        !self.pending.is_empty()
    }

    /// Mostly the place whose turn is next.
    fn target(&mut self, stage: &Stage) -> usize {
        match stage.next_place() {
            Some(next) if !self.rng.once_in(4) => next,
            _ => self.rng.below(PLACES),
        }
    }

    fn word(&mut self, stage: &Stage, at: usize, becomes: u64) {
        self.pending.push(Step::Word { at, becomes });
        self.repairs.push(Step::Word { at, becomes: stage.words()[at] });
    }

    /// Into the turn, into a place, or anywhere.
    fn write_stage(&mut self, stage: &Stage) {
        match self.rng.below(16) {
            0..=1 => {
                let turn = self.number();
                self.word(stage, TURN_WORD, turn);
            }
            2 => {
                let (at, becomes) = (self.rng.below(WORDS), self.number());
                self.word(stage, at, becomes);
            }
            _ => {
                let at = self.target(stage);
                let place = self.spoiled(stage.places[at]);
                let (was, becomes) = (stage.words(), Stage { places: [place; PLACES], ..Stage::default() }.words());
                let written = (place_at(at)..place_at(at + 1)).filter(|word| was[*word] != becomes[*word]);
                written.for_each(|word| self.word(stage, word, becomes[word]));
            }
        }
    }

    /// A place with another next chunk, or another list.
    fn spoiled(&mut self, mut place: Place) -> Place {
        match self.rng.below(8) {
            0..=1 => {
                let (is, any) = (place.next_chunk, self.number());
                place.next_chunk = self.rng.pick(&[0, is ^ 1, is.wrapping_add(1), is.wrapping_add(65_536), any]);
            }
            2 if self.buffer == BUFFER => place = Place { list: self.of_many_chunks(true), next_chunk: place.next_chunk.max(1) },
            3 => place = Place { list: self.list(), next_chunk: 1 + self.rng.below(5) as u64 },
            _ => self.spoil(&mut place.list),
        }
        place
    }

    /// Into a list that waits, mostly a byte above 7F.
    fn write_buffer(&mut self, stage: &Stage, len: usize) {
        let list = stage.places[self.target(stage)].list;
        let in_header = self.rng.once_in(4);
        let (from, bytes) = if in_header { (list.header_at, list.header_len) } else { (list.body_at, list.body_len) };
        let at = from.saturating_add(self.rng.draw() % bytes.max(1)) as usize;
        if at < len {
            let becomes = if self.rng.once_in(4) { byte(at) ^ 0x7F } else { 0x80 | self.rng.draw() as u8 };
            self.pending.push(Step::Byte { at, becomes });
            self.repairs.push(Step::Byte { at, becomes: byte(at) });
        }
    }
}

/// So many bytes, or more, that end behind the buffer: by one, or with an end above 2^64 - 1.
fn outside(rng: &mut Rng, buffer: usize, len: u64) -> (u64, u64) {
    let end = buffer as u64;
    let last = end.saturating_sub(len);
    match rng.below(6) {
        0..=1 => (last + 1, len),
        2 => (last, len.saturating_add(1)),
        3 => (end + 1, 0),
        4 => (len.wrapping_neg(), len),
        _ => (last, last.wrapping_neg()),
    }
}
