//! The outgoing stage: a reading of document 02's sentences (K8), whose chunks are the cutter's reading (cut.rs); how a stage lies in
//! memory; its exports; and the steps of a run on one.
use crate::beyond::{ask, Asked};
use crate::cut::{self, Cut};
use crate::export::{export, Export};
use crate::input::List;
use std::fmt;

/// "an outgoing stage of 16 places".
pub const PLACES: usize = 16;

/// The words of a stage: the place whose turn is next, and the words of each place.
pub const TURN_WORD: usize = 0;
pub const PLACE_WORDS: usize = 7;
pub const WORDS: usize = place_at(PLACES);

/// Where the words of a place begin.
pub const fn place_at(place: usize) -> usize {
    TURN_WORD + 1 + PLACE_WORDS * place
}

/// Where the number of a place's next chunk stands.
pub const fn next_chunk_at(place: usize) -> usize {
    place_at(place + 1) - 1
}

/// Memory too short for a stage is 30, asked first. "Answers: on joining 38 for a place above 15, then 39 for a place still busy,
/// then 30 for a list outside the lent buffer, then the cutter's own; on a turn 30 likewise, then the cutter's own."
pub const NEW: Export = export("midici_pe_stage_new", &[30]);
pub const JOIN: Export = export("midici_pe_stage_join", &[30, 38, 39, 1, 4, 5]);
pub const TURN: Export = export("midici_pe_stage_turn", &[30, 1, 4, 5, 29, 3]);
pub const EXPORTS: [Export; 3] = [NEW, JOIN, TURN];

/// A list on its way out: "where in one lent buffer its header and body lie", and what the cutter takes besides.
#[derive(Clone, Copy, Debug, Default, PartialEq, Eq)]
pub struct Outgoing {
    pub header_at: u64,
    pub header_len: u64,
    pub body_at: u64,
    pub body_len: u64,
    pub request_id: u64,
    pub max_sysex: u64,
}

/// So many bytes of the buffer, from a place on. "30 for a list outside the lent buffer".
fn part(buffer: &[u8], at: u64, len: u64) -> Asked<&[u8]> {
    let part = at.checked_add(len).and_then(|end| buffer.get(at as usize..end as usize));
    ask(part.is_some(), 30)?;
    Ok(part.unwrap_or_default())
}

impl Outgoing {
    /// The list in the buffer. An id or a limit that no list of the cutter can have is as the largest that one can have.
    pub fn list<'a>(&self, buffer: &'a [u8]) -> Asked<List<'a>> {
        let header = part(buffer, self.header_at, self.header_len)?;
        let body = part(buffer, self.body_at, self.body_len)?;
        let request_id = u8::try_from(self.request_id).unwrap_or(u8::MAX);
        let max_sysex = u32::try_from(self.max_sysex).unwrap_or(u32::MAX);
        Ok(List { request_id, max_sysex, header, body })
    }

    /// "30 for a list outside the lent buffer, then the cutter's own".
    fn cut<'a>(&self, buffer: &'a [u8]) -> Asked<Cut<'a>> {
        cut::cut(self.list(buffer)?)
    }

    /// Is one of its ends above 2^64 - 1?
    pub fn overflows(&self) -> bool {
        self.header_at.checked_add(self.header_len).is_none() || self.body_at.checked_add(self.body_len).is_none()
    }
}

/// A place, "holding one list being cut", with the number of the chunk that leaves next, 0 where nobody waits.
#[derive(Clone, Copy, Debug, Default, PartialEq, Eq)]
pub struct Place {
    pub list: Outgoing,
    pub next_chunk: u64,
}

/// A chunk that is handed out.
#[derive(Debug)]
pub struct Handed {
    pub place: usize,
    pub chunk_num: usize,
    pub num_chunks: usize,
    pub bytes: Vec<u8>,
}

impl Handed {
    pub fn is_last(&self) -> bool {
        self.chunk_num == self.num_chunks
    }
}

/// The stage. Its numbers are taken as they are.
#[derive(Clone, Debug, Default, PartialEq, Eq)]
pub struct Stage {
    pub turn: u64,
    pub places: [Place; PLACES],
}

impl Stage {
    /// Of so many words: "lent memory long enough? 30." It is empty then.
    pub fn renew(&mut self, words: usize) -> Asked {
        ask(words >= WORDS, 30)?;
        *self = Stage::default();
        Ok(())
    }

    /// How many chunks will leave. "Each leaves the stage unchanged."
    pub fn join(&mut self, words: usize, buffer: &[u8], place: u64, list: Outgoing) -> Asked<usize> {
        ask(words >= WORDS, 30)?;
        ask(place <= 15, 38)?;
        let place = &mut self.places[place as usize];
        ask(place.next_chunk == 0, 39)?;
        let chunks = list.cut(buffer)?.chunks;
        *place = Place { list, next_chunk: 1 };
        Ok(chunks)
    }

    /// "the next place, going round from place 0, that has something waiting".
    pub fn next_place(&self) -> Option<usize> {
        let first = (self.turn % PLACES as u64) as usize;
        (first..first + PLACES).map(|place| place % PLACES).find(|place| self.places[*place].next_chunk != 0)
    }

    /// "Each turn hands out, with its place, the next frame of the next place ..; it says none only if nobody waits."
    pub fn turn(&mut self, words: usize, buffer: &[u8], room: usize) -> Asked<Option<Handed>> {
        ask(words >= WORDS, 30)?;
        let Some(at) = self.next_place() else { return Ok(None) };
        let place = &mut self.places[at];
        let (cut, chunk_num) = (place.list.cut(buffer)?, place.next_chunk as usize);
        let bytes = cut.written(chunk_num, room)?;
        let handed = Handed { place: at, chunk_num, num_chunks: cut.chunks, bytes };
        place.next_chunk = if handed.is_last() { 0 } else { place.next_chunk + 1 };
        self.turn = ((at + 1) % PLACES) as u64;
        Ok(Some(handed))
    }

    /// The stage of such words.
    pub fn of_words(words: &[u64]) -> Stage {
        let place = |at: usize| {
            let [header_at, header_len, body_at, body_len, request_id, max_sysex, next_chunk] =
                words[place_at(at)..place_at(at + 1)]
            else {
                panic!("seven words")
            };
            Place { list: Outgoing { header_at, header_len, body_at, body_len, request_id, max_sysex }, next_chunk }
        };
        Stage { turn: words[TURN_WORD], places: std::array::from_fn(place) }
    }

    pub fn words(&self) -> [u64; WORDS] {
        let mut words = [self.turn; WORDS];
        for (at, Place { list, next_chunk }) in self.places.iter().enumerate() {
            let Outgoing { header_at, header_len, body_at, body_len, request_id, max_sysex } = *list;
            let of_place = [header_at, header_len, body_at, body_len, request_id, max_sysex, *next_chunk];
            words[place_at(at)..place_at(at + 1)].copy_from_slice(&of_place);
        }
        words
    }
}

impl fmt::Display for Stage {
    fn fmt(&self, f: &mut fmt::Formatter) -> fmt::Result {
        if *self == Stage::default() {
            return f.write_str("an empty stage");
        }
        write!(f, "the words {:?}", self.words())
    }
}

/// What a call is lent: so many words, so many bytes of the buffer, and of room for a chunk.
#[derive(Clone, Copy, Debug)]
pub struct Lent {
    pub words: usize,
    pub buffer: usize,
    pub room: usize,
}

/// A step of a run: a call; or somebody else writes into the stage's memory, or into the buffer.
#[derive(Clone, Copy, Debug)]
pub enum Step {
    New(Lent),
    Join(Lent, u64, Outgoing),
    Turn(Lent),
    Word { at: usize, becomes: u64 },
    Byte { at: usize, becomes: u8 },
}

/// The most that is lent of the buffer: a body of 16,384 chunks at limit 128, and some more.
pub const BUFFER: usize = 16_384 * 104 + 4_096;
/// Room for every chunk.
pub const ROOM: usize = 16_384;

/// What the buffer holds where nobody has written into it: bytes up to 7F.
pub fn byte(at: usize) -> u8 {
    ((at as u64).wrapping_mul(0x9E37_79B9_7F4A_7C15) >> 57) as u8
}
