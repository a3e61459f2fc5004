//! Runs of calls on an outgoing stage (K8), each put to the port and to a reading of document 02, with the answer, all words and the
//! output compared after every call; and what leaves held against the lists that joined.
mod leaving;
mod seen;

pub use seen::Seen;

use crate::port::{count, fill, reply, Found};
use crate::summary::Summary;
use crate::table::output;
use leaving::Leaving;
use oracle::outcome::{Answer, Reply};
use oracle::random::stages::Script;
use oracle::random::Rng;
use oracle::stage::{byte, Handed, Lent, Outgoing, Stage, Step, BUFFER, JOIN, NEW, ROOM, TURN, WORDS};
use seen::Met;

/// Words and bytes behind what is lent at most.
const BEHIND: usize = 8;
/// What the words behind a stage hold.
const GARBAGE: u64 = 0xA5A5_C3C3_0F0F_9696;

/// Both sides. Runs use their memory one after the other.
struct Sides {
    stage: Stage,
    buffer: Vec<u8>,
    port_words: Vec<u64>,
    port_buffer: Vec<u8>,
    port_out: Vec<u8>,
    /// What the output holds before a call.
    out_before: Vec<u8>,
    leaving: Leaving,
}

/// What the reading answers: its reply, and the chunk that it hands out, if it does.
struct Expected {
    reply: Reply,
    handed: Option<Handed>,
}

impl Sides {
    fn new() -> Sides {
        let buffer: Vec<u8> = (0..BUFFER + BEHIND).map(byte).collect();
        let out_before: Vec<u8> = (0..ROOM + BEHIND).map(fill).collect();
        Sides {
            stage: Stage::default(),
            port_words: vec![GARBAGE; WORDS + BEHIND],
            port_buffer: buffer.clone(),
            buffer,
            port_out: out_before.clone(),
            out_before,
            leaving: Leaving::new(),
        }
    }

    /// A run begins on memory that holds this.
    fn start(&mut self, stage: &Stage) {
        self.stage = stage.clone();
        self.port_words[..WORDS].copy_from_slice(&stage.words());
        self.port_words[WORDS..].fill(GARBAGE);
        self.leaving.renew(false);
    }

    /// The run's end: the buffer, into which no call writes, is made as before.
    fn end(&mut self, steps: &[Step]) -> Result<(), String> {
        if self.port_buffer != self.buffer {
            return Err("the buffer is not kept".into());
        }
        for step in steps {
            if let Step::Byte { at, .. } = *step {
                self.write_byte(at, byte(at));
            }
        }
        Ok(())
    }

    fn write_byte(&mut self, at: usize, becomes: u8) {
        self.buffer[at] = becomes;
        self.port_buffer[at] = becomes;
    }

    fn write_word(&mut self, at: usize, becomes: u64) {
        self.port_words[at] = becomes;
        self.stage = Stage::of_words(&self.port_words[..WORDS]);
        self.leaving.renew(false);
    }

    fn step(&mut self, step: &Step, summary: &mut Summary) -> Result<(), String> {
        match *step {
            Step::Word { at, becomes } => self.write_word(at, becomes),
            Step::Byte { at, becomes } => self.write_byte(at, becomes),
            _ => self.call(step, summary)?,
        }
        Ok(())
    }

    /// Puts a call to both sides.
    fn call(&mut self, step: &Step, summary: &mut Summary) -> Result<(), String> {
        self.meet(step, &mut summary.stages);
        let Expected { reply: expected, handed } = self.expected(step);
        let found = self.found(step)?;
        if found != expected {
            return Err(format!("document 02 answers {expected:?}, the port {found:?}"));
        }
        let written = handed.as_ref().map_or(&[][..], |handed| &handed.bytes);
        summary.bytes += output("out", &mut self.port_out, written, &self.out_before)? + self.same_words()?;
        self.follow(step, &expected, &handed, &mut summary.stages)?;
        let (export, granted) = match step {
            Step::New(_) => (NEW, Answer::Granted),
            Step::Join(..) => (JOIN, Answer::Granted),
            _ => (TURN, handed.map_or(Answer::Nobody, |handed| if handed.is_last() { Answer::Last } else { Answer::Handed })),
        };
        summary.count(export, expected.map_or_else(|refusal| Answer::Refused(refusal.number), |_| granted));
        Ok(())
    }

    /// What is counted of a call ahead of it.
    fn meet(&self, step: &Step, seen: &mut Seen) {
        let list = match step {
            Step::Join(_, _, list) => Some(*list),
            Step::Turn(_) => self.stage.next_place().map(|place| self.stage.places[place].list),
            _ => None,
        };
        seen.count_if(list.is_some_and(|list| list.overflows()), Met::Overflow);
        seen.count_if(matches!(step, Step::Turn(_)) && self.stage.turn > 15, Met::LateTurn);
        seen.count_if(!self.leaving.is_sound, Met::Damaged);
    }

    /// The reading's answer.
    fn expected(&mut self, step: &Step) -> Expected {
        let (stage, buffer) = (&mut self.stage, &self.buffer);
        let (reply, handed) = match *step {
            Step::New(Lent { words, .. }) => (stage.renew(words).map(|()| vec![0]), None),
            Step::Join(Lent { words, buffer: n, .. }, place, list) => {
                (stage.join(words, &buffer[..n], place, list).map(|chunks| vec![chunks as u64]), None)
            }
            Step::Turn(Lent { words, buffer: n, room }) => match stage.turn(words, &buffer[..n], room) {
                Ok(handed) => (Ok(turn_values(handed.as_ref())), handed),
                Err(no) => (Err(no), None),
            },
            Step::Word { .. } | Step::Byte { .. } => panic!("no call: {step:?}"),
        };
        Expected { reply: reply.map_err(|no| no.refusal), handed }
    }

    /// The port's answer.
    fn found(&mut self, step: &Step) -> Found<Reply> {
        let (words, buffer, out) = (&mut self.port_words, &self.port_buffer, &mut self.port_out);
        match *step {
            Step::New(lent) => count(exports::midici_pe_stage_new(&mut words[..lent.words])),
            Step::Join(lent, place, list) => {
                let (words, buffer) = (&mut words[..lent.words], &buffer[..lent.buffer]);
                count(exports::midici_pe_stage_join(words, buffer, place, outgoing(list)))
            }
            Step::Turn(lent) => {
                let (words, buffer) = (&mut words[..lent.words], &buffer[..lent.buffer]);
                let answer = exports::midici_pe_stage_turn(words, buffer, &mut out[..lent.room]);
                let exports::TurnAnswer { refusal: _, handed, chunk_num, num_chunks, place, length } = answer;
                reply(answer, |_| vec![handed.into(), chunk_num.into(), num_chunks.into(), place, length])
            }
            Step::Word { .. } | Step::Byte { .. } => panic!("no call: {step:?}"),
        }
    }

    /// Are the port's words the reading's, and those behind the stage as they were? How many bytes were compared.
    fn same_words(&self) -> Result<u64, String> {
        let (found, behind) = self.port_words.split_at(WORDS);
        let expected = self.stage.words();
        if let Some(at) = (0..WORDS).find(|at| found[*at] != expected[*at]) {
            return Err(format!("word {at} of the stage is {}, and is to be {}", found[at], expected[at]));
        }
        if *behind != [GARBAGE; BEHIND] {
            return Err("the words behind the stage are not kept".into());
        }
        Ok(8 * self.port_words.len() as u64)
    }

    /// What leaves is held against the lists that joined.
    fn follow(&mut self, step: &Step, reply: &Reply, handed: &Option<Handed>, seen: &mut Seen) -> Result<(), String> {
        match (step, reply, handed) {
            (Step::New(_), Ok(_), _) => self.leaving.renew(true),
            (Step::Join(_, place, list), Ok(_), _) => self.leaving.join(*place as usize, *list, &self.buffer)?,
            (Step::Turn(_), Ok(_), Some(handed)) => self.leaving.hand(handed, &self.buffer, seen)?,
            (Step::Turn(_), Ok(_), None) => self.leaving.hand_none()?,
            _ => (),
        }
        Ok(())
    }
}

fn turn_values(handed: Option<&Handed>) -> Vec<u64> {
    let Some(Handed { place, chunk_num, num_chunks, bytes }) = handed else { return vec![0; 5] };
    [1, *chunk_num, *num_chunks, *place, bytes.len()].iter().map(|n| *n as u64).collect()
}

fn outgoing(list: Outgoing) -> exports::Outgoing {
    let Outgoing { header_at, header_len, body_at, body_len, request_id, max_sysex } = list;
    exports::Outgoing { header_at, header_len, body_at, body_len, request_id, max_sysex }
}

/// What a run started on, and its steps, up to the one that differs, if one does.
struct Played {
    start: Box<Stage>,
    steps: Vec<Step>,
}

fn play(sides: &mut Sides, seed: u64, run: u64, summary: &mut Summary) -> Result<(), (String, Played)> {
    let mut script = Script::new(Rng::new(seed ^ 0x57A6_E000_0000_0000 ^ run << 20));
    let start = script.start();
    let mut steps = Vec::new();
    sides.start(&start);
    let mut all = || {
        while let Some(step) = script.next(&sides.stage, &sides.buffer) {
            steps.push(step);
            sides.step(&step, summary)?;
        }
        sides.end(&steps)
    };
    all().map_err(|difference| (difference, Played { start: Box::new(start), steps }))
}

/// How these steps differ, if they do.
fn difference(start: &Stage, steps: &[Step]) -> Option<String> {
    let (mut sides, mut summary) = (Sides::new(), Summary::default());
    sides.start(start);
    steps.iter().try_for_each(|step| sides.step(step, &mut summary)).and_then(|()| sides.end(steps)).err()
}

/// The difference with the fewest steps: each is left out without which the rest still differs; and from an empty stage, if it is
/// there too.
fn shortened(mut found: String, mut played: Played) -> (String, Played) {
    if let Some(from_empty) = difference(&Stage::default(), &played.steps) {
        (found, *played.start) = (from_empty, Stage::default());
    }
    for at in (0..played.steps.len()).rev() {
        let step = played.steps.remove(at);
        match difference(&played.start, &played.steps) {
            Some(shorter) => found = shorter,
            None => played.steps.insert(at, step),
        }
    }
    (found, played)
}

/// All runs. A difference is told with the fewest steps that show it.
pub fn compare(seed: u64, runs: u64, summary: &mut Summary) -> Result<(), String> {
    let mut sides = Sides::new();
    (0..runs).try_for_each(|run| {
        play(&mut sides, seed, run, summary).map_err(|(difference, played)| {
            let (difference, Played { start, steps }) = shortened(difference, played);
            let lines: Vec<String> = steps.iter().map(|step| format!("\n  {step:?}")).collect();
            format!("stage {run}, {} steps: {difference}\n  from {start}{}", steps.len(), lines.concat())
        })
    })
}
