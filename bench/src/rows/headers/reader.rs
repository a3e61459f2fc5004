//! A plain Rust reader of headers: one go over the bytes, each of them looked up once. What makes it quick, found by trying:
//!
//! - Where a text goes on never depends on a number that is computed from its bytes, only on branches, which the processor guesses.
//! - What is rare (white space, escapes, names with one hash) is not built into the loop over the members.
//! - Up to eight names are compared by their hashes, one by one; of more, the places are kept in a table by their hashes, and the
//!   reading begins anew. With the 598 names of the last row all pairs took 40 times as long, and std's `HashSet` 18 times; a bit
//!   for each name of two bytes took as long, and so did tables of 1,024 and 4,096 places, or with the hashes in them.
//! - A string's bytes are looked up four at a time; one by one took 1.3 to 2.6 times as long, by how the loop came to lie.
//!
//! Not so plain, and not here: passing over a string in blocks of 64 bytes, which the compiler compares at once, takes a fifth of
//! the time with a long string.

/// What the port answers.
#[derive(Clone, Copy, Default, Debug, PartialEq, Eq)]
pub struct Found {
    pub refusal: u8,
    pub kind: u8,
    pub place: u64,
    pub length: u64,
}

/// Why a reading ends early.
enum Stop {
    NotFlat,
    TooManyNames,
}

type Read<T> = Result<T, Stop>;

pub fn find(header: &[u8], wanted: &[u8]) -> Found {
    if header.len() > 4_096 {
        return refused(33);
    }
    let found = match read::<Few>(header, wanted) {
        Err(Stop::TooManyNames) => among_many(header, wanted),
        found => found,
    };
    found.unwrap_or(refused(34))
}

fn refused(refusal: u8) -> Found {
    Found { refusal, ..Found::default() }
}

#[inline(never)]
fn among_many(header: &[u8], wanted: &[u8]) -> Read<Found> {
    read::<Many>(header, wanted)
}

#[inline(always)]
fn read<N: Names>(text: &[u8], wanted: &[u8]) -> Read<Found> {
    let (mut names, mut found, mut twice) = (N::default(), Found::default(), false);
    let wanted_hash = wanted.iter().fold(NO_UNITS, |hash, b| hashed(hash, u16::from(*b)));
    let (b, at) = next(text, 0);
    flat(b == b'{')?;
    let (mut b, mut at) = next(text, at + 1);
    if b != b'}' {
        loop {
            flat(b == b'"')?;
            let name = name(text, at + 1)?;
            let is_wanted = name.hash == wanted_hash && name.is(text, wanted);
            twice = twice || names.hold(text, name)?;
            (b, at) = next(text, name.end + 1);
            flat(b == b':')?;
            (b, at) = next(text, at + 1);
            let (value, end) = value(text, b, at)?;
            if is_wanted {
                found = value;
            }
            (b, at) = next(text, end);
            if b == b'}' {
                break;
            }
            flat(b == b',')?;
            (b, at) = next(text, at + 1);
        }
    }
    flat(behind_space(text, at + 1).1 == text.len())?;
    Ok(if twice { refused(35) } else { found })
}

fn flat(is: bool) -> Read<()> {
    if is {
        Ok(())
    } else {
        Err(Stop::NotFlat)
    }
}

/// A byte of the text; behind its end 0, which no such text has.
fn byte(text: &[u8], at: usize) -> u8 {
    text.get(at).copied().unwrap_or(0)
}

/// The next byte that is no white space, and its place.
#[inline(always)]
fn next(text: &[u8], at: usize) -> (u8, usize) {
    match text.get(at) {
        Some(b) if *b > b' ' => (*b, at),
        _ => behind_space(text, at),
    }
}

#[cold]
#[inline(never)]
fn behind_space(text: &[u8], mut at: usize) -> (u8, usize) {
    while matches!(byte(text, at), b' ' | b'\t' | b'\n' | b'\r') {
        at += 1;
    }
    (byte(text, at), at)
}

/// 0 for the bytes that stand for themselves in a string.
static SPECIAL: [u8; 256] = {
    let mut special = [1; 256];
    let mut b = 0x20;
    while b < 0x80 {
        special[b] = (b == b'"' as usize || b == b'\\' as usize) as u8;
        b += 1;
    }
    special
};

fn special(b: u8) -> u8 {
    SPECIAL[usize::from(b)]
}

/// A name: where it lies, whether escapes are in it, and a hash of its units.
#[derive(Clone, Copy)]
struct Name {
    start: usize,
    end: usize,
    escaped: bool,
    hash: u32,
}

impl Name {
    #[inline(never)]
    fn is(self, text: &[u8], wanted: &[u8]) -> bool {
        if self.escaped {
            wanted.is_ascii() && units(text, self.start).eq(wanted.iter().map(|b| u16::from(*b)))
        } else {
            text[self.start..self.end] == *wanted
        }
    }
}

const NO_UNITS: u32 = 1;

fn hashed(hash: u32, unit: u16) -> u32 {
    hash.rotate_left(7) ^ u32::from(unit)
}

#[inline(always)]
fn name(text: &[u8], start: usize) -> Read<Name> {
    let (mut at, mut hash, mut escaped) = (start, NO_UNITS, false);
    loop {
        while at < text.len() && special(text[at]) == 0 {
            hash = hashed(hash, text[at].into());
            at += 1;
        }
        match byte(text, at) {
            b'"' => return Ok(Name { start, end: at, escaped, hash }),
            b'\\' => {
                let (unit, end) = escape(text, at)?;
                (hash, at, escaped) = (hashed(hash, unit), end, true);
            }
            _ => return Err(Stop::NotFlat),
        }
    }
}

/// The unit that an escape stands for, and its end.
#[cold]
#[inline(never)]
fn escape(text: &[u8], at: usize) -> Read<(u16, usize)> {
    let unit = match byte(text, at + 1) {
        b @ (b'"' | b'\\' | b'/') => b.into(),
        b'b' => 0x08,
        b'f' => 0x0C,
        b'n' => 0x0A,
        b'r' => 0x0D,
        b't' => 0x09,
        b'u' => return text.get(at + 2..at + 6).and_then(hexadecimal).map(|unit| (unit, at + 6)).ok_or(Stop::NotFlat),
        _ => return Err(Stop::NotFlat),
    };
    Ok((unit, at + 2))
}

fn hexadecimal(digits: &[u8]) -> Option<u16> {
    digits.iter().try_fold(0, |unit, b| Some(unit << 4 | char::from(*b).to_digit(16)? as u16))
}

/// The units of the name that starts there, up to its quote.
fn units(text: &[u8], start: usize) -> impl Iterator<Item = u16> + '_ {
    let mut at = start;
    std::iter::from_fn(move || {
        let (unit, end) = match text[at] {
            b'"' => return None,
            b'\\' => escape(text, at).ok()?,
            b => (b.into(), at + 1),
        };
        at = end;
        Some(unit)
    })
}

#[cold]
#[inline(never)]
fn same(text: &[u8], start: usize, other: usize) -> bool {
    units(text, start).eq(units(text, other))
}

/// The names of the members so far.
trait Names: Default {
    /// Takes a name in: is it there already?
    fn hold(&mut self, text: &[u8], name: Name) -> Read<bool>;
}

#[derive(Default)]
struct Few {
    count: usize,
    hashes: [u32; 8],
    starts: [usize; 8],
}

impl Names for Few {
    #[inline(always)]
    fn hold(&mut self, text: &[u8], name: Name) -> Read<bool> {
        if self.count == self.hashes.len() {
            return Err(Stop::TooManyNames);
        }
        for (hash, start) in self.hashes.iter().zip(self.starts).take(self.count) {
            if *hash == name.hash && same(text, start, name.start) {
                return Ok(true);
            }
        }
        self.hashes[self.count] = name.hash;
        self.starts[self.count] = name.start;
        self.count += 1;
        Ok(false)
    }
}

/// Where each name starts, in the place of its hash or the next free one behind it. Free is 0, where no name starts.
struct Many {
    starts: [u16; 2_048],
}

impl Default for Many {
    fn default() -> Many {
        Many { starts: [0; 2_048] }
    }
}

impl Names for Many {
    #[inline(always)]
    fn hold(&mut self, text: &[u8], name: Name) -> Read<bool> {
        let mut at = (name.hash.wrapping_mul(0x9E37_79B9) >> 16) as usize % self.starts.len();
        while self.starts[at] != 0 {
            if same(text, self.starts[at].into(), name.start) {
                return Ok(true);
            }
            at = (at + 1) % self.starts.len();
        }
        self.starts[at] = name.start as u16;
        Ok(false)
    }
}

/// The value that begins with this byte, and where the text goes on.
#[inline(always)]
fn value(text: &[u8], b: u8, at: usize) -> Read<(Found, usize)> {
    let value = |kind, place, end| Found { refusal: 0, kind, place: place as u64, length: (end - place) as u64 };
    match b {
        b'"' => string(text, at + 1).map(|end| (value(1, at + 1, end), end + 1)),
        b'0'..=b'9' => number(text, at).map(|end| (value(2, at, end), end)),
        _ => literal(text, at).map(|(kind, end)| (value(kind, at, end), end)),
    }
}

/// Where the string ends that starts there.
#[inline(always)]
fn string(text: &[u8], mut at: usize) -> Read<usize> {
    loop {
        at = behind_plain(text, at);
        match byte(text, at) {
            b'"' => return Ok(at),
            b'\\' => at = escape(text, at)?.1,
            _ => return Err(Stop::NotFlat),
        }
    }
}

#[inline(always)]
fn behind_plain(text: &[u8], at: usize) -> usize {
    let mut rest = &text[at..];
    while let [a, b, c, d, more @ ..] = rest {
        if special(*a) | special(*b) | special(*c) | special(*d) != 0 {
            break;
        }
        rest = more;
    }
    while let [b, more @ ..] = rest {
        if special(*b) != 0 {
            break;
        }
        rest = more;
    }
    text.len() - rest.len()
}

/// Where the number ends that starts there.
#[inline(always)]
fn number(text: &[u8], at: usize) -> Read<usize> {
    let (mut number, mut end) = (u32::from(text[at] - b'0'), at + 1);
    loop {
        let digit = byte(text, end).wrapping_sub(b'0');
        if digit > 9 {
            return Ok(end);
        }
        flat(number != 0)?;
        number = 10 * number + u32::from(digit);
        flat(number <= 65_535)?;
        end += 1;
    }
}

/// The kind of the literal that starts there, and its end.
#[inline(never)]
fn literal(text: &[u8], at: usize) -> Read<(u8, usize)> {
    let literals: [(u8, &[u8]); 3] = [(3, b"true"), (4, b"false"), (5, b"null")];
    let stands = |(_, word): &&(u8, &[u8])| text[at..].starts_with(word);
    literals.iter().find(stands).map(|(kind, word)| (*kind, at + word.len())).ok_or(Stop::NotFlat)
}
