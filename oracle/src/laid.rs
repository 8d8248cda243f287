//! The Rust's tables as bytes, in the form in which our programs answer `compare`: README.md has it. Numbers have the least byte first. What is over
//! document 01's sizes is cut to its field here, and `compare` goes by the counts.

use lindera::builder::character_definition::CharacterDefinitionBuilder;
use lindera::dictionary::character_definition::{CategoryId, CharacterDefinition};
use lindera::dictionary::unknown_dictionary::UnknownDictionary;
use lindera::viterbi::WordEntry;

use crate::verdict::unless_panic;

/// Document 01's refusals where the Rust has no answer: no scalar value, an unknown number, no flat table.
const NOT_SCALAR: u8 = 14;
const NUMBER_UNKNOWN: u8 = 15;
const FLAT_ROW_LONG: u8 = 16;

const REFUSED: u8 = 0;
const IN_FLAT: u8 = 1;
const IN_ROWS: u8 = 2;
const PRESENT: u8 = 1;
const ABSENT: u8 = 2;

#[derive(Default)]
pub struct Bytes(pub Vec<u8>);

impl Bytes {
    fn u8(&mut self, number: u8) {
        self.0.push(number);
    }

    fn u16(&mut self, number: usize) {
        self.0.extend((number as u16).to_le_bytes());
    }

    fn u32(&mut self, number: usize) {
        self.0.extend((number as u32).to_le_bytes());
    }

    fn row(&mut self, row: &[CategoryId]) {
        row.iter().for_each(|id| self.u16(id.0));
    }

    /// Start and length of each part, one behind another from 0.
    fn slots(&mut self, lengths: impl Iterator<Item = usize>) {
        let mut at = 0;
        for length in lengths {
            self.u16(at);
            self.u16(length);
            at += length;
        }
    }
}

/// Categories, definitions, ranges, references, name bytes.
pub fn counts(builder: &CharacterDefinitionBuilder) -> [usize; 5] {
    let names = builder.names_by_number();
    [
        names.len(),
        builder.definitions().len(),
        builder.ranges().len(),
        builder.ranges().iter().map(|(_, _, ids)| ids.len()).sum(),
        names.iter().map(|name| name.len()).sum(),
    ]
}

/// The five tables of a reading, behind their counts.
pub fn reading(builder: &CharacterDefinitionBuilder) -> Bytes {
    let mut all = Bytes::default();
    let names = builder.names_by_number();
    counts(builder).into_iter().for_each(|count| all.u16(count));
    names.iter().for_each(|name| all.0.extend(name.as_bytes()));
    all.slots(names.iter().map(|name| name.len()));
    for data in builder.definitions() {
        all.u32(data.length as usize);
        all.u8(data.invoke.into());
        all.u8(data.group.into());
    }
    let mut first = 0;
    for (low, high, ids) in builder.ranges() {
        [*low as usize, *high as usize, first, ids.len()]
            .into_iter()
            .for_each(|number| all.u16(number));
        first += ids.len();
    }
    builder.ranges().iter().for_each(|(_, _, ids)| all.row(ids));
    all
}

/// Rows, flat table, and what is found at each code point.
pub fn rows(whole: &CharacterDefinition, codes: &[u32]) -> Bytes {
    let mut all = Bytes::default();
    let rows = whole.mapping.rows();
    let places = rows.iter().map(Vec::len).sum();
    all.u8(0);
    all.u32(rows.len());
    all.u32(places);
    let boundaries = whole.mapping.boundaries().iter();
    boundaries.for_each(|boundary| all.u32(*boundary as usize));
    let mut start = 0;
    for row in rows {
        all.u32(start);
        start += row.len();
    }
    rows.iter().for_each(|row| all.u16(row.len()));
    rows.iter().for_each(|row| all.row(row));
    flat(&mut all, whole);
    codes.iter().for_each(|code| found(&mut all, whole, *code));
    all
}

/// The pool, then each code point whose entry is not the one before it with that entry, then how many entries there are.
fn flat(all: &mut Bytes, whole: &CharacterDefinition) {
    let index = whole.flat_index();
    all.u8(if index.is_empty() { FLAT_ROW_LONG } else { 0 });
    all.u32(whole.flat_pool().len());
    all.row(whole.flat_pool());
    let mut at = 0;
    for run in index.chunk_by(|a, b| a == b) {
        all.u32(at);
        all.u32(run[0] as usize);
        at += run.len();
    }
    all.u32(at);
}

fn found(all: &mut Bytes, whole: &CharacterDefinition, code: u32) {
    let Some(c) = char::from_u32(code) else {
        return all.0.extend(
            [
                [REFUSED, NOT_SCALAR, 0, 0].as_slice(),
                &[REFUSED, NOT_SCALAR],
                &[REFUSED, NOT_SCALAR, 0, 0],
            ]
            .concat(),
        );
    };
    let packed = whole.packed(c);
    part(
        all,
        if packed.is_some() { IN_FLAT } else { IN_ROWS },
        whole.lookup_categories(c),
    );
    match packed {
        Some((offset, length)) => {
            all.u8(PRESENT);
            all.u32(offset as usize);
            all.u16(length.into());
        }
        None => all.u8(ABSENT),
    }
    part(all, IN_ROWS, whole.mapping.eval(code));
}

fn part(all: &mut Bytes, place: u8, row: &[CategoryId]) {
    all.u8(place);
    all.u8(0);
    all.u16(row.len());
    all.row(row);
}

/// The five tables of an unk.def behind their counts, then what stands under each number.
pub fn unknown(unknown: &UnknownDictionary, numbers: &[u32]) -> Bytes {
    let mut all = Bytes::default();
    let listed = &unknown.category_references;
    all.u16(unknown.costs.len());
    all.u16(listed.iter().map(Vec::len).sum());
    all.u16(listed.len());
    all.u32(unknown.words_data.len());
    let mut marks = vec![0; unknown.costs.len()];
    for (category, ids) in listed.iter().enumerate() {
        ids.iter().for_each(|id| marks[*id as usize] = category + 1);
    }
    for (word, mark) in unknown.costs.iter().zip(marks) {
        entry(&mut all, word);
        all.u16(mark);
    }
    let offsets = unknown.words_idx_data.iter();
    offsets.for_each(|offset| all.u32(*offset as usize));
    all.0.extend(&unknown.words_data);
    all.slots(listed.iter().map(Vec::len));
    let ids = listed.iter().flatten();
    ids.for_each(|id| all.u16(*id as usize));
    numbers
        .iter()
        .for_each(|number| word(&mut all, unknown, *number));
    all
}

fn entry(all: &mut Bytes, word: &WordEntry) {
    all.u16(word.left_id.into());
    all.u16(word.right_id.into());
    all.u16(word.word_cost as u16 as usize);
}

/// A category's entries, an entry, an entry's details, each behind 0, or an unknown number's refusal.
fn word(all: &mut Bytes, unknown: &UnknownDictionary, number: u32) {
    let category = CategoryId(number as usize);
    match unless_panic(|| unknown.lookup_word_ids(category)) {
        Ok(ids) => {
            all.u8(0);
            all.u16(ids.len());
            ids.iter().for_each(|id| all.u16(*id as usize));
        }
        Err(_) => all.u8(NUMBER_UNKNOWN),
    }
    match unless_panic(|| unknown.word_entry(number)) {
        Ok(word) => {
            all.u8(0);
            entry(all, &word);
        }
        Err(_) => all.u8(NUMBER_UNKNOWN),
    }
    match unknown.word_details(number) {
        Some(fields) => {
            let joined = fields.join("\0");
            all.u8(0);
            all.u32(joined.len());
            all.0.extend(joined.as_bytes());
        }
        None => all.u8(NUMBER_UNKNOWN),
    }
}
