//! What leaves from a stage that only joins and turns change: "a waiting place is served within 16 turns, whatever joins meanwhile,
//! and its frames leave complete and in number order; refused turns do not count."
use super::seen::{Met, Seen};
use midici_core::muid::Muid;
use midici_pe::reassembler::{ReassembleEvent, Reassembler};
use oracle::beyond;
use oracle::layout::{FRAGMENT_RECORDS, TX_BYTES};
use oracle::original;
use oracle::stage::{Handed, Outgoing, PLACES};

/// Another place is served at most so many times ahead of one that waits.
const MOST_WAITED: usize = PLACES - 1;

/// A list that joined: its bytes then, its chunks by the original, or of K6's limits by the reading, and those that have left.
struct Waiting {
    list: Outgoing,
    header: Vec<u8>,
    body: Vec<u8>,
    chunks: Vec<Vec<u8>>,
    left: Vec<Vec<u8>>,
    /// How many chunks have left from other places since it joined or was served.
    waited: usize,
    /// Has each of its chunks left while its bytes were those with which it joined?
    kept: bool,
}

pub struct Leaving {
    /// Have calls alone written the stage since it was made?
    pub is_sound: bool,
    places: [Option<Waiting>; PLACES],
    reassembler: Reassembler,
}

impl Leaving {
    pub fn new() -> Leaving {
        Leaving { is_sound: false, places: Default::default(), reassembler: Reassembler::new(1) }
    }

    /// The stage is another one: new, or somebody else has written into it.
    pub fn renew(&mut self, is_sound: bool) {
        self.is_sound = is_sound;
        self.places = Default::default();
    }

    pub fn join(&mut self, place: usize, list: Outgoing, buffer: &[u8]) -> Result<(), String> {
        if self.places[place].is_some() {
            return Err(format!("a list joins at place {place}, from which not all has left"));
        }
        let bytes = list.list(buffer).expect("a list in the buffer");
        let chunks = original::split(bytes).expect("a list that can be cut");
        let (header, body) = (bytes.header.to_vec(), bytes.body.to_vec());
        self.places[place] = Some(Waiting { list, header, body, chunks, left: Vec::new(), waited: 0, kept: true });
        Ok(())
    }

    /// "it says none only if nobody waits."
    pub fn hand_none(&self) -> Result<(), String> {
        match self.places.iter().position(Option::is_some) {
            Some(place) => Err(format!("nobody is said to wait, and place {place} waits")),
            None => Ok(()),
        }
    }

    /// A chunk leaves.
    pub fn hand(&mut self, handed: &Handed, buffer: &[u8], seen: &mut Seen) -> Result<(), String> {
        self.wait(handed.place)?;
        let Some(waiting) = &mut self.places[handed.place] else {
            return if self.is_sound {
                Err(format!("a chunk leaves from place {}, and no list waits there", handed.place))
            } else {
                Ok(())
            };
        };
        seen.count_if(waiting.waited == MOST_WAITED, Met::Sixteenth);
        waiting.waited = 0;
        waiting.hand(handed, buffer)?;
        if waiting.left.len() < waiting.chunks.len() {
            return Ok(());
        }
        if let Some(left) = self.places[handed.place].take().filter(|left| left.kept) {
            left.put_together()?;
            seen.count_if(true, Met::Whole);
            seen.count_if(left.put_together_by(&mut self.reassembler)?, Met::WholeByOriginal);
        }
        Ok(())
    }

    /// All others wait.
    fn wait(&mut self, served: usize) -> Result<(), String> {
        for (place, waiting) in self.places.iter_mut().enumerate().filter(|(place, _)| *place != served) {
            let Some(waiting) = waiting else { continue };
            waiting.waited += 1;
            if waiting.waited > MOST_WAITED {
                return Err(format!("place {place} is not served within {PLACES} turns"));
            }
        }
        Ok(())
    }
}

impl Waiting {
    fn hand(&mut self, handed: &Handed, buffer: &[u8]) -> Result<(), String> {
        let is_same = self.list.list(buffer).is_ok_and(|now| now.header == self.header && now.body == self.body);
        self.kept &= is_same;
        let (k, expected) = (self.left.len() + 1, &self.chunks[self.left.len()]);
        if (handed.chunk_num, handed.num_chunks) != (k, self.chunks.len()) {
            let (chunk_num, num_chunks) = (handed.chunk_num, handed.num_chunks);
            return Err(format!("chunk {chunk_num} of {num_chunks} leaves as number {k} of {}", self.chunks.len()));
        }
        if is_same && handed.bytes != *expected {
            return Err(format!("chunk {k} that leaves is not the original's"));
        }
        self.left.push(handed.bytes.clone());
        Ok(())
    }

    /// By the reading of a chunk: are header and body those of the list?
    fn put_together(&self) -> Result<(), String> {
        let (mut header, mut body) = (Vec::new(), Vec::new());
        for chunk in &self.left {
            let chunk = beyond::read(chunk).map_err(|no| format!("a chunk that left is read as {}", no.refusal.number))?;
            header.extend(chunk.header);
            body.extend(chunk.property);
        }
        self.is_list(&header, &body)
    }

    /// By the original, where its slots have room for it: were they?
    fn put_together_by(&self, r: &mut Reassembler) -> Result<bool, String> {
        if self.body.len() > TX_BYTES || self.left.len() > FRAGMENT_RECORDS {
            return Ok(false);
        }
        let peer = Muid::from_u32(5).expect("a number of 28 bits");
        let (last, before) = self.left.split_last().expect("a chunk");
        for chunk in before {
            let fed = r.feed(peer, chunk, 0);
            fed.ok().filter(Option::is_none).ok_or("a chunk that left is not one that the original waits behind")?;
        }
        match r.feed(peer, last, 0) {
            Ok(Some(ReassembleEvent::Complete { header, body, .. })) => self.is_list(&header, &body).map(|()| true),
            other => Err(format!("the last chunk that left makes no list of the original's: {other:?}")),
        }
    }

    fn is_list(&self, header: &[u8], body: &[u8]) -> Result<(), String> {
        if header != self.header || body != self.body {
            return Err("the chunks that left are not the list".into());
        }
        Ok(())
    }
}
