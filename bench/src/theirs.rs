//! The Rust's functions, over the same bytes. They take text, so that its bytes are well-formed is part of the work.

use lindera::builder::character_definition::{CharacterDefinitionBuilder, read};
use lindera::dictionary::character_definition::CharacterDefinition;
use lindera::dictionary::unknown_dictionary::{UnknownDictionary, parse_unk};

pub fn read_char_def(bytes: &[u8]) -> CharacterDefinitionBuilder {
    read(std::str::from_utf8(bytes).expect("well-formed")).expect("accepted")
}

/// Rows and the flat table, without the names and definitions, which ours do not copy either.
pub fn build(builder: &CharacterDefinitionBuilder) -> CharacterDefinition {
    CharacterDefinition::new(Vec::new(), Vec::new(), builder.row_table())
}

/// What `bench_lookups` sums up.
pub fn lookups(definition: &CharacterDefinition, text: &[char]) -> u64 {
    let weight = |row: &[_]| match row.first() {
        Some(lindera::dictionary::character_definition::CategoryId(first)) => {
            row.len() as u64 + *first as u64
        }
        None => 0,
    };
    text.iter()
        .map(|c| weight(definition.lookup_categories(*c)))
        .fold(0, u64::wrapping_add)
}

/// What `bench_packed_lookups` sums up.
pub fn packed_lookups(definition: &CharacterDefinition, text: &[char]) -> u64 {
    let weight = |(offset, length): (u32, u16)| u64::from(offset) + u64::from(length);
    text.iter()
        .map(|c| definition.packed(*c).map_or(0, weight))
        .fold(0, u64::wrapping_add)
}

pub fn read_unk(categories: &[String], bytes: &[u8]) -> UnknownDictionary {
    parse_unk(
        categories,
        std::str::from_utf8(bytes).expect("well-formed"),
        None,
    )
    .expect("accepted")
}
