//! How the parts of an input read. Bytes that are missing are 0.

pub fn u8_at(input: &[u8], at: usize) -> u8 {
    input.get(at).copied().unwrap_or(0)
}

pub fn u16_at(input: &[u8], at: usize) -> u16 {
    u16::from_le_bytes([u8_at(input, at), u8_at(input, at + 1)])
}

pub fn u32_at(input: &[u8], at: usize) -> u32 {
    u32::from(u16_at(input, at)) | u32::from(u16_at(input, at + 2)) << 16
}

pub fn u64_at(input: &[u8], at: usize) -> u64 {
    u64::from(u32_at(input, at)) | u64::from(u32_at(input, at + 4)) << 32
}

pub fn from(input: &[u8], at: usize) -> &[u8] {
    input.get(at..).unwrap_or(&[])
}

pub fn words(input: &[u8]) -> Vec<u32> {
    (0..input.len() / 4).map(|i| u32_at(input, 4 * i)).collect()
}

pub fn long_words(input: &[u8]) -> Vec<u64> {
    (0..input.len() / 8).map(|i| u64_at(input, 8 * i)).collect()
}

/// The header whose length (2) stands at `at`, and what follows it.
pub fn header_and_rest(input: &[u8], at: usize) -> (&[u8], &[u8]) {
    let rest = from(input, at + 2);
    rest.split_at(rest.len().min(u16_at(input, at).into()))
}

/// A header's fields, as they stand in the input of a writer.
#[derive(Clone, Copy)]
pub struct Fields {
    pub device_id: u8,
    pub sub_id2: u8,
    pub version: u8,
    pub source: u32,
    pub dest: u32,
}

impl Fields {
    /// Behind the room.
    const AT: usize = 2;
    /// Where the next field of the input stands.
    pub const END: usize = Self::AT + 11;

    pub fn read(input: &[u8]) -> Fields {
        Fields {
            device_id: u8_at(input, Self::AT),
            sub_id2: u8_at(input, Self::AT + 1),
            version: u8_at(input, Self::AT + 2),
            source: u32_at(input, Self::AT + 3),
            dest: u32_at(input, Self::AT + 7),
        }
    }

    pub fn bytes(self) -> Vec<u8> {
        let mut bytes = vec![self.device_id, self.sub_id2, self.version];
        bytes.extend(self.source.to_le_bytes());
        bytes.extend(self.dest.to_le_bytes());
        bytes
    }

    pub fn values(self) -> Vec<u64> {
        vec![self.device_id.into(), self.sub_id2.into(), self.version.into(), self.source.into(), self.dest.into()]
    }
}

/// A chunk, as it stands in the input of a writer.
#[derive(Clone, Copy)]
pub struct Chunk<'a> {
    pub request_id: u8,
    pub num_chunks: u16,
    pub chunk_num: u16,
    pub header: &'a [u8],
    pub property: &'a [u8],
}

impl<'a> Chunk<'a> {
    pub fn read(input: &'a [u8]) -> Chunk<'a> {
        let (header, property) = header_and_rest(input, 5);
        Chunk { request_id: u8_at(input, 0), num_chunks: u16_at(input, 1), chunk_num: u16_at(input, 3), header, property }
    }

    pub fn bytes(self) -> Vec<u8> {
        let mut bytes = vec![self.request_id];
        bytes.extend(self.num_chunks.to_le_bytes());
        bytes.extend(self.chunk_num.to_le_bytes());
        bytes.extend((self.header.len() as u16).to_le_bytes());
        [&bytes, self.header, self.property].concat()
    }

    /// How many bytes it takes, written.
    pub fn need(self) -> usize {
        9 + self.header.len() + self.property.len()
    }
}

/// A whole message to be written, behind the room.
#[derive(Clone, Copy)]
pub struct Whole<'a> {
    pub sub_id2: u8,
    pub source: u32,
    pub dest: u32,
    pub chunk: Chunk<'a>,
}

impl<'a> Whole<'a> {
    pub fn read(input: &'a [u8]) -> Whole<'a> {
        let chunk = Chunk::read(from(input, 11));
        Whole { sub_id2: u8_at(input, 2), source: u32_at(input, 3), dest: u32_at(input, 7), chunk }
    }

    pub fn bytes(self) -> Vec<u8> {
        let mut bytes = vec![self.sub_id2];
        bytes.extend(self.source.to_le_bytes());
        bytes.extend(self.dest.to_le_bytes());
        [bytes, self.chunk.bytes()].concat()
    }
}

/// A header and a body that are cut.
#[derive(Clone, Copy)]
pub struct List<'a> {
    pub request_id: u8,
    pub max_sysex: u32,
    pub header: &'a [u8],
    pub body: &'a [u8],
}

impl<'a> List<'a> {
    pub fn read(input: &'a [u8]) -> List<'a> {
        let (header, body) = header_and_rest(input, 5);
        List { request_id: u8_at(input, 0), max_sysex: u32_at(input, 1), header, body }
    }

    pub fn bytes(self) -> Vec<u8> {
        let mut bytes = vec![self.request_id];
        bytes.extend(self.max_sysex.to_le_bytes());
        bytes.extend((self.header.len() as u16).to_le_bytes());
        [&bytes, self.header, self.body].concat()
    }
}
