//! The proved functions, called over C's calling convention, and the memory that they are lent.

macro_rules! entries {
    ($($name:ident($($slice:ident: $kind:ty),*);)*) => {
        unsafe extern "C" { $(fn $name($($slice: Slice<$kind>),*) -> u64;)* }
    };
}

/// A slice as C hands it over: a pointer and a count of elements.
#[repr(C)]
#[derive(Clone, Copy)]
struct Slice<T> {
    first: *mut T,
    count: usize,
}

fn lent<T>(slice: &[T]) -> Slice<T> {
    Slice {
        first: slice.as_ptr().cast_mut(),
        count: slice.len(),
    }
}

fn lent_mut<T>(slice: &mut [T]) -> Slice<T> {
    Slice {
        first: slice.as_mut_ptr(),
        count: slice.len(),
    }
}

entries! {
    twinebeetle_read_char_def(text: u8, names: u8, categories: u8, definitions: u8, ranges: u8, references: u8, counts: u8);
    twinebeetle_read_pack(pack: u8, names: u8, categories: u8, definitions: u8, ranges: u8, references: u8, counts: u8);
    bench_rows(names: u8, categories: u8, definitions: u8, ranges: u8, references: u8, counts: u8,
               boundaries: u32, starts: u32, lengths: u16, pool: u16, said: u64);
    bench_flat(names: u8, categories: u8, definitions: u8, ranges: u8, references: u8, counts: u8, index: u32, pool: u16, said: u64);
    bench_lookups(index: u32, flat_pool: u16, boundaries: u32, starts: u32, lengths: u16, row_pool: u16, codes: u32);
    bench_packed_lookups(index: u32, codes: u32);
    bench_read_unk(names: u8, categories: u8, definitions: u8, ranges: u8, references: u8, counts: u8, text: u8,
                   entries: u8, offsets: u8, details: u8, places: u8, members: u8, said: u64);
    bench_write_pack(names: u8, categories: u8, definitions: u8, ranges: u8, references: u8, counts: u8, out: u8, said: u64);
}

pub const MAX_ROWS: usize = 4097;
pub const MAX_PLACES: usize = 2_097_664;
pub const BMP: usize = 65536;
pub const MAX_PACK: usize = 40519;

/// A reading's tables.
pub struct Tables {
    pub names: Vec<u8>,
    pub categories: Vec<u8>,
    pub definitions: Vec<u8>,
    pub ranges: Vec<u8>,
    pub references: Vec<u8>,
    pub counts: Vec<u8>,
}

impl Tables {
    pub fn new() -> Self {
        let room = |size| vec![0xA5; size];
        Self {
            names: room(16384),
            categories: room(512 * 4),
            definitions: room(512 * 6),
            ranges: room(2048 * 8),
            references: room(8192 * 2),
            counts: room(10),
        }
    }

    /// Categories, definitions, ranges, references, name bytes.
    pub fn count(&self, which: usize) -> usize {
        u16_at(&self.counts, 2 * which)
    }

    pub fn read_char_def(&mut self, text: &[u8]) -> u64 {
        unsafe {
            twinebeetle_read_char_def(
                lent(text),
                lent_mut(&mut self.names),
                lent_mut(&mut self.categories),
                lent_mut(&mut self.definitions),
                lent_mut(&mut self.ranges),
                lent_mut(&mut self.references),
                lent_mut(&mut self.counts),
            )
        }
    }

    pub fn read_pack(&mut self, pack: &[u8]) -> u64 {
        unsafe {
            twinebeetle_read_pack(
                lent(pack),
                lent_mut(&mut self.names),
                lent_mut(&mut self.categories),
                lent_mut(&mut self.definitions),
                lent_mut(&mut self.ranges),
                lent_mut(&mut self.references),
                lent_mut(&mut self.counts),
            )
        }
    }

    fn slices(&self) -> [Slice<u8>; 6] {
        [
            &self.names,
            &self.categories,
            &self.definitions,
            &self.ranges,
            &self.references,
            &self.counts,
        ]
        .map(|table| lent(table))
    }

    /// The pack's length.
    pub fn write_pack(&self, out: &mut [u8]) -> usize {
        let [names, categories, definitions, ranges, references, counts] = self.slices();
        let mut said = [0; 2];
        let number = unsafe {
            bench_write_pack(
                names,
                categories,
                definitions,
                ranges,
                references,
                counts,
                lent_mut(out),
                lent_mut(&mut said),
            )
        };
        assert_eq!(number, 0);
        said[0] as usize
    }
}

/// Rows and the flat table, in rooms of the largest sizes.
pub struct Built {
    boundaries: Vec<u32>,
    starts: Vec<u32>,
    lengths: Vec<u16>,
    row_pool: Vec<u16>,
    index: Vec<u32>,
    flat_pool: Vec<u16>,
    rows: usize,
    places: usize,
}

impl Built {
    pub fn new() -> Self {
        Self {
            boundaries: vec![0; MAX_ROWS],
            starts: vec![0; MAX_ROWS],
            lengths: vec![0; MAX_ROWS],
            row_pool: vec![0; MAX_PLACES],
            index: vec![0; BMP],
            flat_pool: vec![0; MAX_PLACES],
            rows: 0,
            places: 0,
        }
    }

    pub fn build_rows(&mut self, tables: &Tables) {
        let [names, categories, definitions, ranges, references, counts] = tables.slices();
        let mut said = [0; 2];
        let number = unsafe {
            bench_rows(
                names,
                categories,
                definitions,
                ranges,
                references,
                counts,
                lent_mut(&mut self.boundaries),
                lent_mut(&mut self.starts),
                lent_mut(&mut self.lengths),
                lent_mut(&mut self.row_pool),
                lent_mut(&mut said),
            )
        };
        assert_eq!(number, 0);
        (self.rows, self.places) = (said[0] as usize, said[1] as usize);
    }

    pub fn build_flat(&mut self, tables: &Tables) {
        let [names, categories, definitions, ranges, references, counts] = tables.slices();
        let (index, pool) = (lent_mut(&mut self.index), lent_mut(&mut self.flat_pool));
        let mut said = [0; 2];
        let number = unsafe {
            bench_flat(
                names,
                categories,
                definitions,
                ranges,
                references,
                counts,
                index,
                pool,
                lent_mut(&mut said),
            )
        };
        assert_eq!(number, 0);
        assert_eq!(said[0] as usize, self.places);
    }

    pub fn boundaries(&self) -> &[u32] {
        &self.boundaries[..self.rows]
    }

    pub fn row(&self, i: usize) -> &[u16] {
        &self.row_pool[self.starts[i] as usize..][..self.lengths[i].into()]
    }

    pub fn index(&self) -> &[u32] {
        &self.index
    }

    pub fn flat_pool(&self) -> &[u16] {
        &self.flat_pool[..self.places]
    }

    pub fn lookups(&self, codes: &[u32]) -> u64 {
        unsafe {
            bench_lookups(
                lent(&self.index),
                lent(self.flat_pool()),
                lent(self.boundaries()),
                lent(&self.starts[..self.rows]),
                lent(&self.lengths[..self.rows]),
                lent(&self.row_pool[..self.places]),
                lent(codes),
            )
        }
    }

    pub fn packed_lookups(&self, codes: &[u32]) -> u64 {
        unsafe { bench_packed_lookups(lent(&self.index), lent(codes)) }
    }
}

/// unk.def's tables.
pub struct Unk {
    pub entries: Vec<u8>,
    pub offsets: Vec<u8>,
    pub details: Vec<u8>,
    pub places: Vec<u8>,
    pub members: Vec<u8>,
    pub count: usize,
    pub bytes: usize,
}

impl Unk {
    pub fn new() -> Self {
        let room = |size| vec![0xA5; size];
        Self {
            entries: room(4096 * 8),
            offsets: room(4096 * 4),
            details: room(65536),
            places: room(512 * 4),
            members: room(4096 * 2),
            count: 0,
            bytes: 0,
        }
    }

    pub fn read(&mut self, tables: &Tables, text: &[u8]) {
        let [names, categories, definitions, ranges, references, counts] = tables.slices();
        let mut said = [0; 2];
        let number = unsafe {
            bench_read_unk(
                names,
                categories,
                definitions,
                ranges,
                references,
                counts,
                lent(text),
                lent_mut(&mut self.entries),
                lent_mut(&mut self.offsets),
                lent_mut(&mut self.details),
                lent_mut(&mut self.places),
                lent_mut(&mut self.members),
                lent_mut(&mut said),
            )
        };
        assert_eq!(number, 0);
        (self.count, self.bytes) = (said[0] as usize, said[1] as usize);
    }
}

pub fn u16_at(table: &[u8], at: usize) -> usize {
    u16::from_le_bytes([table[at], table[at + 1]]).into()
}

pub fn u32_at(table: &[u8], at: usize) -> u32 {
    u32::from_le_bytes(table[at..at + 4].try_into().expect("four bytes"))
}
