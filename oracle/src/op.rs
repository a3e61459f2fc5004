//! The functions that are compared, a row for each.
use crate::beyond::{Beyond, Reading, OF_CAPACITY, OF_CHUNK, OF_CUTTER};
use crate::export::{export, Export};
use crate::functions::{chunks, controller, cutter, json, mcoded7, messages, muids, records, syx, wire};
use crate::inputs::{self, Each};
use crate::outcome::{Answer, Outcome};
use crate::rng::Rng;

/// What the comparison knows of a function.
pub struct Row {
    /// The port's export of it, with what document 01, or 02, asks of it.
    pub export: Export,
    /// All inputs, or those at the boundaries.
    pub inputs: fn(Each),
    pub random: fn(&mut Rng) -> Vec<u8>,
    /// The original's answer to an input, with the output that is lent; of K6's limits the answer of a reading.
    pub original: fn(&[u8], Vec<u8>) -> Outcome,
    /// Has the original such a function? Else a reading of document 02 stands in for it.
    pub in_original: bool,
    /// The reading of document 02 where K3 brings it a question.
    pub reading: Option<Reading>,
    /// Where its input has the limit, if it has one.
    pub limit_at: Option<usize>,
    /// Has it so few inputs that all are compared?
    pub all_compared: bool,
    /// How many bytes of output it is lent, by its input.
    pub room: fn(&[u8]) -> usize,
    /// Is its first value a yes or a no?
    pub tells_whether: bool,
    /// Is it in the list that the program `replay` plays?
    pub replayed: bool,
}

const fn row(
    name: &'static str,
    refusals: &'static [u8],
    inputs: fn(Each),
    random: fn(&mut Rng) -> Vec<u8>,
    original: fn(&[u8], Vec<u8>) -> Outcome,
) -> Row {
    let export = export(name, refusals);
    Row {
        export,
        inputs,
        random,
        original,
        in_original: true,
        reading: None,
        limit_at: None,
        all_compared: false,
        room: inputs::no_room,
        tells_whether: false,
        replayed: true,
    }
}

impl Row {
    const fn all_compared(self) -> Row {
        Row { all_compared: true, ..self }
    }

    /// It writes into a lent output, whose room its input begins with.
    const fn writes(self) -> Row {
        Row { room: inputs::room, ..self }
    }

    /// It writes two columns of words, which are one output here.
    const fn writes_columns(self) -> Row {
        Row { room: syx::columns_room, ..self }
    }

    /// It writes chunks and their lengths, which are one output here.
    const fn writes_chunks(self) -> Row {
        Row { room: cutter::chunks_room, ..self }
    }

    /// Its answer may not stand for these reasons, and the reading tells where K3's are met.
    const fn beyond(self, beyond: &'static [Beyond], reading: Reading) -> Row {
        Row { export: Export { beyond, ..self.export }, reading: Some(reading), ..self }
    }

    /// Its input has the limit from this byte on: K6 brings it larger ones.
    const fn limit_at(self, at: usize) -> Row {
        Row { limit_at: Some(at), ..self }
    }

    /// It is one of the capacities: its input begins with the limit.
    const fn capacity(self) -> Row {
        Row { export: Export { beyond: &OF_CAPACITY, ..self.export }, ..self.limit_at(0) }
    }

    const fn not_in_original(self) -> Row {
        Row { in_original: false, ..self }
    }

    const fn tells_whether(self) -> Row {
        Row { tells_whether: true, ..self }
    }

    const fn not_replayed(self) -> Row {
        Row { replayed: false, ..self }
    }
}

macro_rules! functions {
    ($($(#[$input:meta])* $op:ident: $row:expr;)*) => {
        /// How a case's input reads, of every function; bytes that are missing are 0. Numbers of two and four bytes have the low
        /// one first. HEADER is device, kind and version, a byte each, and source and destination, four bytes each. CHUNK is
        /// request id, chunk count (2), chunk number (2), the header's length (2), the header and the property. LIST is request
        /// id, limit (4), the header's length (2), the header and the body.
        #[derive(Clone, Copy, Debug, PartialEq, Eq)]
        pub enum Op {
            $($(#[$input])* $op,)*
        }

        const ROWS: [Row; [$(Op::$op),*].len()] = [$($row),*];

        impl Op {
            /// Each function and the port's export of it.
            pub const ALL: [(Op, Export); ROWS.len()] = [$((Op::$op, ROWS[Op::$op as usize].export)),*];
        }
    };
}

// A function's byte in the list that the program `replay` plays is its place here, so a new one stands last. 1 of Mcoded7 is the
// Rust's answer (docs/DIFFERENCES.md).
functions! {
    /// The bytes.
    ReadU14Le7: row("codec_read_u14_le7", &[2, 1], wire::reads, wire::random_read, wire::read_u14_le7);
    /// Room (2), value (2).
    WriteU14Le7: row("codec_write_u14_le7", &[3, 1], wire::writes, wire::random_write, wire::write_u14_le7).writes();
    /// Number (4); so too the next four.
    MuidFromU32: row("codec_muid_from_u32", &[28], muids::numbers, muids::random_number, muids::from_u32);
    MuidOrdinary: row("codec_muid_ordinary", &[28], muids::numbers, muids::random_number, muids::ordinary);
    MuidIsBroadcast: row("codec_muid_is_broadcast", &[], muids::numbers_of_28_bits, muids::random_number_of_28_bits,
        muids::is_broadcast).tells_whether();
    MuidIsReserved: row("codec_muid_is_reserved", &[], muids::numbers_of_28_bits, muids::random_number_of_28_bits,
        muids::is_reserved).tells_whether();
    MuidEncode7bitLe: row("codec_muid_encode_7bit_le", &[], muids::numbers_of_28_bits, muids::random_number_of_28_bits,
        muids::encode_7bit_le);
    /// Four bytes.
    MuidDecode7bitLe: row("codec_muid_decode_7bit_le", &[26], muids::four_bytes, muids::random_four_bytes, muids::decode_7bit_le);
    /// Words, four bytes each.
    MuidGenerate: row("codec_muid_generate", &[], muids::lent_words, muids::random_lent_words, muids::generate).tells_whether();
    /// The message.
    HeaderDecode: row("codec_header_decode", &[21, 22, 23, 26], messages::headers, messages::random_header,
        messages::header_decode);
    /// Room (2), HEADER.
    HeaderEncode: row("codec_header_encode", &[28, 27], messages::headers_written, messages::random_header_written,
        messages::header_encode).writes();
    /// Kind.
    IsPeChunkedSubId: row("codec_is_pe_chunked_sub_id", &[], inputs::any_byte, inputs::random_byte,
        messages::is_pe_chunked_sub_id).all_compared().tells_whether();
    /// Kind.
    KindOf: row("codec_kind_of", &[], inputs::any_byte, inputs::random_byte, messages::kind_of).all_compared().tells_whether();
    /// The message.
    CapsDecode: row("codec_caps_decode", &[21, 22, 23, 26, 24, 25], messages::caps, messages::random_caps, messages::caps_decode);
    /// Room (2), HEADER, requests, major, minor.
    CapsEncode: row("codec_caps_encode", &[28, 27, 26], messages::caps_written, messages::random_caps_written,
        messages::caps_encode).writes();
    /// The message.
    MessageDecode: row("codec_message_decode", &[21, 22, 23, 26, 24], messages::messages, messages::random_message,
        messages::message_decode);
    /// Room (2), HEADER, the payload.
    MessageEncode: row("codec_message_encode", &[28, 27], messages::messages_written, messages::random_message_written,
        messages::message_encode).writes();
    /// Room (2), the text.
    Mcoded7Decode: row("codec_mcoded7_decode", &[9, 1, 3], mcoded7::texts, mcoded7::random_text, mcoded7::decode).writes();
    /// Room (2), the bytes.
    Mcoded7Encode: row("codec_mcoded7_encode", &[3], mcoded7::texts, mcoded7::random_bytes, mcoded7::encode).writes();
    /// Nothing.
    FirstRequestId: row("codec_first_request_id", &[], inputs::nothing, inputs::random_nothing,
        controller::first_request_id).all_compared();
    /// Counter.
    AllocOutRequestId: row("midici_pe_alloc_out_request_id", &[], inputs::any_byte, inputs::random_byte,
        controller::alloc_out_request_id).all_compared();
    /// Our requests, theirs.
    NegotiatedRequests: row("codec_negotiated_requests", &[], inputs::any_two, inputs::random_two,
        controller::negotiated_requests).all_compared();
    /// The chunk.
    ChunkDecode: row("codec_decode_fields", &[2, 1, 8], chunks::to_decode, chunks::damaged,
        chunks::decode).beyond(&OF_CHUNK, chunks::decode_by_02);
    /// Room (2), CHUNK.
    ChunkEncode: row("codec_encode_chunk", &[1, 8, 3], chunks::to_encode, chunks::random_to_encode,
        chunks::encode).beyond(&OF_CHUNK, chunks::encode_by_02).writes();
    /// Room (2), the chunk.
    ChunkRewrite: row("codec_rewrite", &[2, 1, 8, 3], chunks::to_rewrite, chunks::random_to_rewrite,
        chunks::rewrite).beyond(&OF_CHUNK, chunks::rewrite_by_02).writes();
    /// Limit (4); so too the next two.
    ClampMaxSysex: row("codec_clamp_max_sysex", &[], cutter::limits, cutter::random_limit, cutter::clamp_max_sysex).capacity();
    PePayloadBudget: row("codec_pe_payload_budget", &[], cutter::limits, cutter::random_limit,
        cutter::pe_payload_budget).capacity();
    LaterCapacity: row("codec_later_chunk_property_capacity", &[], cutter::limits, cutter::random_limit,
        cutter::later_capacity).capacity();
    /// Limit (4), the header's length (8).
    FirstCapacity: row("codec_first_chunk_property_capacity", &[4], cutter::header_lengths, cutter::random_header_length,
        cutter::first_capacity).capacity();
    /// LIST.
    ChunkCount: row("midici_pe_chunk_count", &[1, 4, 5], cutter::to_count, cutter::random_to_count,
        cutter::chunk_count).beyond(&OF_CUTTER, cutter::chunk_count_by_02).limit_at(1);
    /// Room (2), chunk number (2), LIST.
    SplitChunk: row("midici_pe_split_chunk", &[1, 4, 5, 29, 3], cutter::to_split, cutter::random_to_split,
        cutter::split_chunk).beyond(&OF_CUTTER, cutter::split_chunk_by_02).limit_at(5).writes();
    /// Room (2), kind, source (4), destination (4), CHUNK.
    WholeEncode: row("midici_pe_encode_message", &[28, 24, 1, 8, 3], chunks::whole_to_encode, chunks::random_whole_to_encode,
        chunks::whole_encode).beyond(&OF_CHUNK, chunks::whole_encode_by_02).writes();
    /// Chunk number (2), records, eight bytes each.
    Position: row("codec_position", &[], records::to_search, records::random_to_search,
        records::position).tells_whether().not_replayed();
    /// Places' room (2) and lengths' room (2), in words; the file.
    SyxList: row("midici_pe_syx_list", &[32], syx::files, syx::random_file,
        syx::list).not_in_original().writes_columns().not_replayed();
    /// The header's length (2), the header, the name.
    HeaderFind: row("midici_pe_header_find", &[33, 34, 35], json::headers, json::random_header,
        json::find).not_in_original().tells_whether().not_replayed();
    /// Room for the chunks (4), places for their lengths (2), LIST.
    Split: row("midici_pe_split", &[1, 4, 5, 3], cutter::to_split_all, cutter::random_to_split_all,
        cutter::split_all).beyond(&OF_CUTTER, cutter::split_all_by_02).limit_at(7).writes_chunks().not_replayed();
}

impl Op {
    pub fn row(self) -> &'static Row {
        &ROWS[self as usize]
    }

    /// The byte by which the program `replay` knows it.
    pub fn code(self) -> u8 {
        self as u8 + 1
    }
}

impl Outcome {
    /// The sort of answer that a function gave.
    pub fn answer(&self, op: Op) -> Answer {
        match &self.reply {
            Err(refusal) => Answer::Refused(refusal.number),
            Ok(values) if op.row().tells_whether && values[0] == 0 => Answer::No,
            Ok(_) if op.row().tells_whether => Answer::Yes,
            Ok(_) => Answer::Granted,
        }
    }
}
