//! Headers that are read as flat JSON objects. The original looks no name up in them: what the port is compared with is a
//! reading of document 02's sentences (K2) and of the rules of RFC 8259, by their names there.
mod random;
mod texts;

pub use random::random_header;
pub use texts::headers;

use crate::input::header_and_rest;
use crate::outcome::{Outcome, Refusal};
use std::collections::BTreeSet;

/// "33 when the header exceeds 4,096 bytes."
const LONGEST: usize = 4_096;

/// "The value's kind and its bytes as the header has them (a string's without the quotes)."
#[derive(Clone, Copy, Default)]
struct Value {
    kind: u64,
    place: usize,
    length: usize,
}

struct Member {
    name: Vec<u16>,
    value: Value,
}

/// A text, and how far it is read. A rule passes what stands there, or is not met.
struct Text<'a> {
    bytes: &'a [u8],
    at: usize,
}

impl<'a> Text<'a> {
    fn byte(&mut self) -> Option<u8> {
        let b = *self.bytes.get(self.at)?;
        self.at += 1;
        Some(b)
    }

    fn word(&mut self, word: &[u8]) -> Option<()> {
        let stands = self.bytes[self.at..].starts_with(word);
        self.at += if stands { word.len() } else { 0 };
        stands.then_some(())
    }

    /// All bytes that are such ones, up to the next other one.
    fn run(&mut self, such: impl Fn(u8) -> bool) -> &'a [u8] {
        let rest = &self.bytes[self.at..];
        let (run, _) = rest.split_at(rest.iter().take_while(|b| such(**b)).count());
        self.at += run.len();
        run
    }

    fn ws(&mut self) {
        self.run(|b| [0x20, 0x09, 0x0A, 0x0D].contains(&b));
    }

    /// begin-object and the like: the character, with white space around it.
    fn structural(&mut self, character: u8) -> Option<()> {
        self.ws();
        self.word(&[character])?;
        self.ws();
        Some(())
    }

    /// The units that it stands for.
    fn string(&mut self) -> Option<Vec<u16>> {
        self.word(b"\"")?;
        let mut units = Vec::new();
        while self.word(b"\"").is_none() {
            units.push(self.char()?);
        }
        Some(units)
    }

    /// unescaped, of "bytes up to 7F", or an escape.
    fn char(&mut self) -> Option<u16> {
        match self.byte()? {
            b'\\' => self.escaped(),
            b @ (0x20 | 0x21 | 0x23..=0x5B | 0x5D..=0x7F) => Some(b.into()),
            _ => None,
        }
    }

    /// What stands behind the backslash.
    fn escaped(&mut self) -> Option<u16> {
        match self.byte()? {
            b @ (b'"' | b'\\' | b'/') => Some(b.into()),
            b'b' => Some(0x08),
            b'f' => Some(0x0C),
            b'n' => Some(0x0A),
            b'r' => Some(0x0D),
            b't' => Some(0x09),
            b'u' => (0..4).try_fold(0, |unit, _| Some(16 * unit + self.hexdig()?)),
            _ => None,
        }
    }

    fn hexdig(&mut self) -> Option<u16> {
        char::from(self.byte()?).to_digit(16).map(|digit| digit as u16)
    }

    /// "Whole numbers 0 to 65,535 without leading zeros."
    fn number(&mut self) -> Option<()> {
        let digits = self.run(|b| b.is_ascii_digit());
        let leading_zero = digits.len() > 1 && digits[0] == b'0';
        let number = std::str::from_utf8(digits).ok()?.parse::<u16>();
        (number.is_ok() && !leading_zero).then_some(())
    }

    fn value(&mut self) -> Option<Value> {
        let place = self.at;
        let (kind, met) = match self.bytes.get(place)? {
            b'"' => (1, self.string().map(|_| ())),
            b't' => (3, self.word(b"true")),
            b'f' => (4, self.word(b"false")),
            b'n' => (5, self.word(b"null")),
            _ => (2, self.number()),
        };
        met?;
        let quote = usize::from(kind == 1);
        Some(Value { kind, place: place + quote, length: self.at - place - 2 * quote })
    }

    fn member(&mut self) -> Option<Member> {
        let name = self.string()?;
        self.structural(b':')?;
        Some(Member { name, value: self.value()? })
    }

    fn object(&mut self) -> Option<Vec<Member>> {
        let mut members = Vec::new();
        self.structural(b'{')?;
        if self.structural(b'}').is_some() {
            return Some(members);
        }
        members.push(self.member()?);
        while self.structural(b',').is_some() {
            members.push(self.member()?);
        }
        self.structural(b'}')?;
        Some(members)
    }
}

/// The members of a text that is one object and nothing else.
fn read(bytes: &[u8]) -> Option<Vec<Member>> {
    let mut text = Text { bytes, at: 0 };
    let members = text.object()?;
    (text.at == bytes.len()).then_some(members)
}

/// "33 when the header exceeds 4,096 bytes, then 34 when the text is not such an object, then 35 when a name, escapes resolved,
/// stands twice." Where no value is found, its kind is 0. "The given name's bytes are units, and one above 7F is absent."
fn found(header: &[u8], name: &[u8]) -> Result<Value, u8> {
    if header.len() > LONGEST {
        return Err(33);
    }
    let members = read(header).ok_or(34)?;
    let different: BTreeSet<&[u16]> = members.iter().map(|member| &member.name[..]).collect();
    if different.len() < members.len() {
        return Err(35);
    }
    let is_named = |member: &&Member| name.is_ascii() && name.iter().map(|b| u16::from(*b)).eq(member.name.iter().copied());
    Ok(members.iter().find(is_named).map_or(Value::default(), |member| member.value))
}

pub fn find(input: &[u8], _: Vec<u8>) -> Outcome {
    let (header, name) = header_and_rest(input, 0);
    match found(header, name) {
        Ok(Value { kind, place, length }) => Outcome::granted([kind, place as u64, length as u64]),
        Err(number) => Outcome::of(Err(Refusal { number, value: 0 })),
    }
}

/// The input of a case.
fn case(header: &[u8], name: &[u8]) -> Vec<u8> {
    [&(header.len() as u16).to_le_bytes(), header, name].concat()
}

/// The ways to write a unit: by itself, by a letter behind a backslash, and by its digits with small and with large letters.
fn spellings(unit: u16) -> Vec<Vec<u8>> {
    let mut ways = vec![format!("\\u{unit:04x}").into_bytes(), format!("\\u{unit:04X}").into_bytes()];
    if let Ok(b @ (0x20 | 0x21 | 0x23..=0x5B | 0x5D..=0x7F)) = u8::try_from(unit) {
        ways.push(vec![b]);
    }
    let letters = b"\"\\/bfnrt".iter().zip([0x22, 0x5C, 0x2F, 0x08, 0x0C, 0x0A, 0x0D, 0x09]);
    ways.extend(letters.filter(|(_, of)| *of == unit).map(|(letter, _)| vec![b'\\', *letter]));
    ways
}
