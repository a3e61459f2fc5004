
// Above stands the original's text. layout.sh appends this module, which shows what its private fields hold.
pub mod probe {
    use super::*;

    pub const PEER_SLOTS: usize = MAX_CONCURRENT_PER_PEER;

    pub fn clock(r: &Reassembler) -> u64 {
        r.lru_clock
    }

    pub fn set_clock(r: &mut Reassembler, clock: u64) {
        r.lru_clock = clock;
    }

    pub fn max_peers(r: &Reassembler) -> usize {
        r.peers.len()
    }

    /// Whether a record is bound, and its peer.
    pub fn peer(r: &Reassembler, p: usize) -> (bool, u32) {
        (r.peers[p].bound, r.peers[p].muid.to_u32())
    }

    pub fn slot(r: &Reassembler, p: usize, s: usize) -> Slot<'_> {
        Slot(&r.peers[p].slots[s])
    }

    #[derive(Clone, Copy)]
    pub struct Slot<'a>(&'a TxSlot);

    impl<'a> Slot<'a> {
        pub fn is_active(self) -> bool {
            self.0.active
        }

        pub fn request_id(self) -> u8 {
            self.0.request_id
        }

        pub fn last_activity_ms(self) -> u64 {
            self.0.last_activity_ms
        }

        pub fn lru_tick(self) -> u64 {
            self.0.lru_tick
        }

        pub fn num_chunks(self) -> u16 {
            self.0.num_chunks
        }

        pub fn header_set(self) -> bool {
            self.0.header_set
        }

        pub fn property_bytes(self) -> usize {
            self.0.property_bytes
        }

        pub fn header(self) -> &'a [u8] {
            &self.0.header
        }

        pub fn arena(self) -> &'a [u8] {
            &self.0.arena
        }

        pub fn records(self) -> usize {
            self.0.index.len()
        }

        /// Chunk number, length and offset of each record, those past the last one too, which are there since `lend`.
        pub fn index_room(self) -> impl Iterator<Item = (u16, u16, u32)> + 'a {
            room(&self.0.index).iter().map(|m| (m.chunk_num, m.len, m.offset))
        }

        /// The header's whole room, and the body's, likewise.
        pub fn header_room(self) -> &'a [u8] {
            room(&self.0.header)
        }

        pub fn arena_room(self) -> &'a [u8] {
            room(&self.0.arena)
        }
    }

    /// The first place at which a record has the number. Which one has it is asked by the expression with which `feed_chunk`
    /// looks for a chunk that is held already, cut out by layout.sh.
    pub fn position(records: impl Iterator<Item = (u16, u16, u32)>, chunk_num: u16) -> Option<usize> {
        let record = |(chunk_num, len, offset)| FragmentMeta { chunk_num, offset, len };
        let index: Vec<FragmentMeta> = records.map(record).collect();
        let chunk = record((chunk_num, 0, 0));
        index.iter().position(include!("../cut/is_held.rs"))
    }

    /// All that a vector has room for. `Rooms::new` wrote all of it once, and no call shrinks it.
    fn room<T>(v: &Vec<T>) -> &[T] {
        unsafe { core::slice::from_raw_parts(v.as_ptr(), v.capacity()) }
    }

    /// Memory for slots, every byte of which is known. A table keeps its bytes, as the port's rooms do.
    pub struct Rooms(Vec<Room>);

    struct Room {
        header: Vec<u8>,
        arena: Vec<u8>,
        index: Vec<FragmentMeta>,
    }

    impl Rooms {
        /// Rooms with the bytes of `headers` and `arenas`, one after the other.
        pub fn new(headers: &[u8], arenas: &[u8]) -> Rooms {
            let rooms = headers.chunks_exact(MAX_HEADER_BYTES).zip(arenas.chunks_exact(MAX_TX_BYTES));
            let index = || alloc::vec![NO_RECORD; MAX_FRAGMENT_RECORDS];
            Rooms(rooms.map(|(header, arena)| Room { header: header.to_vec(), arena: arena.to_vec(), index: index() }).collect())
        }

        /// Gives the slots of a new table these rooms for their own, which are as large and as empty. The records are 0.
        pub fn lend(&mut self, r: &mut Reassembler) {
            let slots = r.peers.iter_mut().flat_map(|peer| &mut peer.slots);
            for (room, slot) in self.0.iter_mut().zip(slots) {
                room.header.clear();
                room.arena.clear();
                room.index.clear();
                room.index.resize(MAX_FRAGMENT_RECORDS, NO_RECORD);
                room.index.clear();
                let sizes = (slot.header.capacity(), slot.arena.capacity(), slot.index.capacity());
                assert_eq!(sizes, (room.header.capacity(), room.arena.capacity(), room.index.capacity()));
                room.exchange(slot);
            }
        }

        /// Takes them back.
        pub fn take_back(&mut self, r: &mut Reassembler) {
            let slots = r.peers.iter_mut().flat_map(|peer| &mut peer.slots);
            self.0.iter_mut().zip(slots).for_each(|(room, slot)| room.exchange(slot));
        }
    }

    impl Room {
        fn exchange(&mut self, slot: &mut TxSlot) {
            core::mem::swap(&mut self.header, &mut slot.header);
            core::mem::swap(&mut self.arena, &mut slot.arena);
            core::mem::swap(&mut self.index, &mut slot.index);
        }
    }

    const NO_RECORD: FragmentMeta = FragmentMeta { chunk_num: 0, offset: 0, len: 0 };
}
