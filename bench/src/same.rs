//! Both sides give the same answers. Nothing is timed before this holds.

use lindera::builder::character_definition::CharacterDefinitionBuilder;
use lindera::dictionary::character_definition::CharacterDefinition;
use lindera::dictionary::unknown_dictionary::UnknownDictionary;

use crate::ours::{Built, Tables, Unk, u16_at, u32_at};

pub fn readings(ours: &Tables, theirs: &CharacterDefinitionBuilder) {
    let names = theirs.names_by_number();
    assert_eq!(ours.count(0), names.len());
    for (i, name) in names.iter().enumerate() {
        let (start, length) = (
            u16_at(&ours.categories, 4 * i),
            u16_at(&ours.categories, 4 * i + 2),
        );
        assert_eq!(&ours.names[start..start + length], name.as_bytes());
    }
    assert_eq!(ours.count(1), theirs.definitions().len());
    for (entry, data) in ours.definitions.chunks(6).zip(theirs.definitions()) {
        assert_eq!(
            (u32_at(entry, 0), entry[4], entry[5]),
            (data.length, data.invoke.into(), data.group.into())
        );
    }
    assert_eq!(ours.count(2), theirs.ranges().len());
    let mut used = 0;
    for (entry, (low, high, ids)) in ours.ranges.chunks(8).zip(theirs.ranges()) {
        assert_eq!(
            (
                u16_at(entry, 0) as u32,
                u16_at(entry, 2) as u32,
                u16_at(entry, 4)
            ),
            (*low, *high, used)
        );
        let numbers = ours.references[2 * used..]
            .chunks(2)
            .take(u16_at(entry, 6))
            .map(|number| u16_at(number, 0));
        assert!(numbers.eq(ids.iter().map(|id| id.0)));
        used += ids.len();
    }
    assert_eq!(ours.count(3), used);
}

pub fn built(ours: &Built, theirs: &CharacterDefinition) {
    assert_eq!(ours.boundaries(), theirs.mapping.boundaries());
    for (i, row) in theirs.mapping.rows().iter().enumerate() {
        assert!(
            ours.row(i)
                .iter()
                .map(|id| usize::from(*id))
                .eq(row.iter().map(|id| id.0))
        );
    }
    assert_eq!(ours.index(), theirs.flat_index());
    assert!(
        ours.flat_pool()
            .iter()
            .map(|id| usize::from(*id))
            .eq(theirs.flat_pool().iter().map(|id| id.0))
    );
}

pub fn unknowns(ours: &Unk, theirs: &UnknownDictionary) {
    assert_eq!(ours.count, theirs.costs.len());
    for (entry, word) in ours.entries.chunks(8).zip(&theirs.costs) {
        let cost = u16_at(entry, 4) as u16;
        assert_eq!(
            (
                u16_at(entry, 0) as u16,
                u16_at(entry, 2) as u16,
                cost.cast_signed()
            ),
            (word.left_id, word.right_id, word.word_cost)
        );
    }
    for (i, offset) in theirs.words_idx_data.iter().enumerate() {
        assert_eq!(u32_at(&ours.offsets, 4 * i), *offset);
    }
    assert_eq!(&ours.details[..ours.bytes], theirs.words_data);
    for (i, ids) in theirs.category_references.iter().enumerate() {
        let (first, count) = (u16_at(&ours.places, 4 * i), u16_at(&ours.places, 4 * i + 2));
        let members = ours.members[2 * first..]
            .chunks(2)
            .take(count)
            .map(|number| u16_at(number, 0) as u32);
        assert!(members.eq(ids.iter().copied()));
    }
}

/// A pack comes back as the tables that it was written from.
pub fn packs(from: &Tables, back: &Tables) {
    assert_eq!(from.counts, back.counts);
    assert_eq!(from.names, back.names);
    assert_eq!(from.categories, back.categories);
    assert_eq!(from.definitions, back.definitions);
    assert_eq!(from.ranges, back.ranges);
    assert_eq!(from.references, back.references);
}
