//! bench FOLDER [WORK]: times the proved functions beside the Rust's, over the dictionaries of samples/ and FOLDER, and writes a row for each work,
//! or for those alone whose names begin so.
//! bench FOLDER DICTIONARY WORK SIDE: does one work of one side once, for a count of instructions.

mod measure;
mod ours;
mod same;
mod theirs;

use std::fs;
use std::path::{Path, PathBuf};

use lindera::builder::character_definition::CharacterDefinitionBuilder;
use lindera::dictionary::character_definition::CharacterDefinition;

use crate::measure::{Row, compare, measured};
use crate::ours::{Built, MAX_PACK, Tables, Unk};

const MIXED_TEXT: usize = 65536;

/// The texts of a dictionary, and both sides' tables of it.
struct Dictionary {
    name: &'static str,
    char_def: Vec<u8>,
    unk_def: Vec<u8>,
    tables: Tables,
    builder: CharacterDefinitionBuilder,
    categories: Vec<String>,
    pack: Vec<u8>,
}

impl Dictionary {
    fn new(name: &'static str, char_def: &Path, unk_def: &Path) -> Self {
        let file =
            |path: &Path| fs::read(path).unwrap_or_else(|why| panic!("{}: {why}", path.display()));
        let (char_def, unk_def) = (file(char_def), file(unk_def));
        let mut tables = Tables::new();
        assert_eq!(tables.read_char_def(&char_def), 0);
        let builder = theirs::read_char_def(&char_def);
        let categories = builder
            .names_by_number()
            .into_iter()
            .map(String::from)
            .collect();
        let mut pack = vec![0; MAX_PACK];
        pack.truncate(tables.write_pack(&mut pack.clone()));
        tables.write_pack(&mut pack);
        Self {
            name,
            char_def,
            unk_def,
            tables,
            builder,
            categories,
            pack,
        }
    }

    fn built(&self) -> (Built, CharacterDefinition) {
        let mut built = Built::new();
        built.build_rows(&self.tables);
        built.build_flat(&self.tables);
        (built, theirs::build(&self.builder))
    }

    fn check(&self, text: &[char]) {
        same::readings(&self.tables, &self.builder);
        let (built, definition) = self.built();
        same::built(&built, &definition);
        let codes: Vec<u32> = text.iter().map(|c| *c as u32).collect();
        for i in 0..codes.len() {
            assert_eq!(
                built.lookups(&codes[i..=i]),
                theirs::lookups(&definition, &text[i..=i])
            );
        }
        assert_eq!(built.lookups(&codes), theirs::lookups(&definition, text));
        assert_eq!(
            built.packed_lookups(&codes),
            theirs::packed_lookups(&definition, text)
        );
        let mut unk = Unk::new();
        unk.read(&self.tables, &self.unk_def);
        same::unknowns(&unk, &theirs::read_unk(&self.categories, &self.unk_def));
        let mut back = Tables::new();
        assert_eq!(back.read_pack(&self.pack), 0);
        same::packs(&self.tables, &back);
    }
}

/// Numbers that look random, the same at each run.
fn any(state: &mut u64, below: u32) -> u32 {
    *state = state.wrapping_add(0x9E37_79B9_7F4A_7C15);
    let mut z = (*state ^ (*state >> 30)).wrapping_mul(0xBF58_476D_1CE4_E5B9);
    z = (z ^ (z >> 27)).wrapping_mul(0x94D0_49BB_1331_11EB);
    ((z ^ (z >> 31)) % u64::from(below)) as u32
}

/// A text of words in one script each: Latin, digits, kana, kanji, Cyrillic, and one word in twenty beyond the BMP.
fn mixed_text() -> Vec<char> {
    const SCRIPTS: [(u32, u32, u32); 8] = [
        (5, 0x61, 26),
        (2, 0x30, 10),
        (1, 0x20, 16),
        (4, 0x3041, 86),
        (3, 0x30A1, 90),
        (3, 0x4E00, 20000),
        (1, 0x400, 256),
        (1, 0x1F300, 0x300),
    ];
    let weights: u32 = SCRIPTS.iter().map(|script| script.0).sum();
    let mut state = 0;
    let mut text = Vec::new();
    while text.len() < MIXED_TEXT {
        let mut at = any(&mut state, weights);
        let (_, first, many) = SCRIPTS
            .into_iter()
            .find(|script| {
                at < script.0 || {
                    at -= script.0;
                    false
                }
            })
            .expect("a script");
        for _ in 0..1 + any(&mut state, 8) {
            text.push(char::from_u32(first + any(&mut state, many)).expect("a scalar value"));
        }
        text.push(' ');
    }
    text.truncate(MIXED_TEXT);
    text
}

/// What is done with one work: timed, or done once by one side.
enum How {
    Timed,
    Once(bool),
}

fn run<A, B>(how: &How, mut ours: impl FnMut() -> A, mut theirs: impl FnMut() -> B) -> Option<Row> {
    match how {
        How::Timed => Some(compare(ours, theirs)),
        How::Once(by_us) => {
            measured(&mut || {
                if *by_us {
                    std::hint::black_box(ours());
                } else {
                    std::mem::forget(std::hint::black_box(theirs()));
                }
            });
            None
        }
    }
}

const DICTIONARIES: [&str; 4] = ["small", "largest", "crowded", "deepest"];

const WORKS: [&str; 8] = [
    "read char.def",
    "rows",
    "rows and flat table",
    "lookups",
    "packed lookups",
    "read unk.def",
    "read pack",
    "write pack",
];

fn lookups(dictionary: &Dictionary, packed: bool, how: &How, text: &[char]) -> Option<Row> {
    let (built, definition) = dictionary.built();
    let codes: Vec<u32> = text.iter().map(|c| *c as u32).collect();
    if packed {
        let theirs = || theirs::packed_lookups(&definition, text);
        return run(how, || built.packed_lookups(&codes), theirs);
    }
    run(
        how,
        || built.lookups(&codes),
        || theirs::lookups(&definition, text),
    )
}

/// The Rust's side of packs is its reading of the text: its own packs, rkyv's, cannot be had here.
fn work(dictionary: &Dictionary, which: &str, how: &How, text: &[char]) -> Option<Row> {
    let (tables, builder) = (&dictionary.tables, &dictionary.builder);
    let mut room = Tables::new();
    let read_text = || theirs::read_char_def(&dictionary.char_def);
    match which {
        "read char.def" => run(how, || room.read_char_def(&dictionary.char_def), read_text),
        "rows" => {
            let mut built = Built::new();
            run(how, || built.build_rows(tables), || builder.row_table())
        }
        "rows and flat table" => {
            let mut built = Built::new();
            let ours = || {
                built.build_rows(tables);
                built.build_flat(tables);
            };
            run(how, ours, || theirs::build(builder))
        }
        "lookups" => lookups(dictionary, false, how, text),
        "packed lookups" => lookups(dictionary, true, how, text),
        "read unk.def" => {
            let mut unk = Unk::new();
            run(
                how,
                || unk.read(tables, &dictionary.unk_def),
                || theirs::read_unk(&dictionary.categories, &dictionary.unk_def),
            )
        }
        "read pack" => run(how, || room.read_pack(&dictionary.pack), read_text),
        "write pack" => {
            let mut out = vec![0; MAX_PACK];
            run(how, || tables.write_pack(&mut out), read_text)
        }
        _ => panic!("no work {which}"),
    }
}

/// A time with three figures.
fn shown(seconds: f64) -> String {
    let (number, unit) = if seconds < 1e-3 {
        (seconds * 1e6, "µs")
    } else {
        (seconds * 1e3, "ms")
    };
    let places = if number < 10.0 {
        2
    } else {
        usize::from(number < 100.0)
    };
    format!("{number:.places$} {unit}")
}

fn main() {
    let words: Vec<String> = std::env::args().skip(1).collect();
    let made = PathBuf::from(&words[0]);
    let samples = PathBuf::from("samples");
    let load = |name| match name {
        "small" => Dictionary::new(name, &samples.join("char.def"), &samples.join("unk.def")),
        _ => Dictionary::new(
            name,
            &made.join(format!("{name}.char.def")),
            &made.join("largest.unk.def"),
        ),
    };
    let text = mixed_text();
    if let [_, name, which, side] = &words[..] {
        let name = DICTIONARIES
            .into_iter()
            .find(|one| one == name)
            .expect("a dictionary");
        work(&load(name), which, &How::Once(side == "ours"), &text);
        return;
    }
    for name in DICTIONARIES {
        let dictionary = load(name);
        dictionary.check(&text);
        let asked = words.get(1).map_or("", String::as_str);
        let works = WORKS.into_iter().filter(|which| {
            let meant = match name {
                "deepest" => which.starts_with("rows"),
                "crowded" => *which == "read char.def",
                _ => true,
            };
            which.starts_with(asked) && meant
        });
        for which in works {
            let row = work(&dictionary, which, &How::Timed, &text).expect("timed");
            println!(
                "{}\t{which}\t{}\t{}\t{:.2}\t{:.2} to {:.2}\t{}",
                dictionary.name,
                shown(row.ours),
                shown(row.theirs),
                row.ratio,
                row.spread.0,
                row.spread.1,
                row.rounds
            );
        }
    }
}
