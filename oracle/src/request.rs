//! One function for each kind of request.

use lindera::builder::character_definition::{
    CharacterDefinitionBuilder, from_ucs2, hex_codepoint, read,
};
use lindera::dictionary::character_definition::{CategoryData, CategoryId, CharacterDefinition};
use lindera::dictionary::unknown_dictionary::{UnknownDictionary, parse_unk};
use lindera::util::read_file_with_encoding;
use lindera::viterbi::WordEntry;

use crate::answer::{Fnv, bytes, code, hex, items, joined, list, name, number, row};
use crate::laid;
use crate::verdict::{Failure, attempt, reading, unless_panic};

/// Both sides are the line to answer; the second one is where an answer ended early.
type Answer = Result<String, String>;

pub fn answer(line: &str) -> String {
    let words: Vec<&str> = line.split(' ').collect();
    match unless_panic(|| dispatch(&words)) {
        Ok(answer) => answer.unwrap_or_else(|early| early),
        Err(failure) => failure.at_line(0),
    }
}

fn dispatch(words: &[&str]) -> Answer {
    match *words {
        ["u", word] => Ok(unsigned(&text(word)?)),
        ["i", word] => Ok(signed(&text(word)?)),
        ["h", word] => {
            let text = text(word)?;
            Ok(codepoint(attempt(|| hex_codepoint(&text))))
        }
        ["c", word] => ucs2(word),
        ["white"] => Ok(list(white_space_runs())),
        ["utf8", word] => Ok(valid_prefix(&known(bytes(word))?).to_string()),
        ["file", path] => file(&text(path)?),
        ["char", word] => Ok(char_def(&builder(word)?)),
        ["rows", word] => Ok(rows(&builder(word)?)),
        ["eval", word, codes] => eval(&builder(word)?, codes),
        ["flat", word] => Ok(flat(&builder(word)?.character_definition())),
        ["lookup", word, codes] => lookup(&builder(word)?.character_definition(), codes),
        ["sums", word] => Ok(sums(&builder(word)?.character_definition())),
        ["names", word, numbers, names] => {
            numbered(&builder(word)?.character_definition(), numbers, names)
        }
        ["counts", word] => Ok(format!("ok {}", counts(&builder(word)?))),
        ["laid", word, codes] => laid(&builder(word)?, codes),
        ["laidunk", names, word, numbers] => laid_unk(&unknown(names, word)?, numbers),
        ["unk", names, word] => Ok(unk(&unknown(names, word)?)),
        ["words", names, word, numbers] => unk_words(&unknown(names, word)?, numbers),
        _ => known(None),
    }
}

/// A word of a request that was read, or the answer to a request that is none.
fn known<T>(word: Option<T>) -> Result<T, String> {
    word.ok_or_else(|| "bad".into())
}

/// The Rust takes only well-formed text, so any other ends here with its longest good prefix.
fn text(word: &str) -> Result<String, String> {
    let bytes = known(bytes(word))?;
    String::from_utf8(bytes).map_err(|bad| format!("text {}", bad.utf8_error().valid_up_to()))
}

fn builder(word: &str) -> Result<CharacterDefinitionBuilder, String> {
    reading(&text(word)?, read)
}

fn unknown(names: &str, word: &str) -> Result<UnknownDictionary, String> {
    let categories = known(items(names, name))?;
    reading(&text(word)?, |text| parse_unk(&categories, text, None))
}

fn unsigned(text: &str) -> String {
    text.parse::<u32>().map_or("x".into(), |n| n.to_string())
}

fn signed(text: &str) -> String {
    text.parse::<i32>()
        .map_or("x".into(), |n| n.cast_unsigned().to_string())
}

fn codepoint(result: Result<u32, Failure>) -> String {
    result.map_or_else(|failure| failure.short(), |number| number.to_string())
}

fn ucs2(word: &str) -> Answer {
    let digits = known(bytes(word).and_then(|bytes| bytes.try_into().ok()))?;
    let number = u16::from_be_bytes(digits);
    Ok(codepoint(attempt(|| from_ucs2(number))))
}

fn valid_prefix(bytes: &[u8]) -> usize {
    std::str::from_utf8(bytes).map_or_else(|bad| bad.valid_up_to(), str::len)
}

fn white_space_runs() -> Vec<String> {
    let white: Vec<char> = (char::MIN..=char::MAX)
        .filter(|c| c.is_whitespace())
        .collect();
    let runs = white.chunk_by(|a, b| *a as u32 + 1 == *b as u32);
    runs.map(|run| format!("{:x}-{:x}", run[0] as u32, run[run.len() - 1] as u32))
        .collect()
}

fn file(path: &str) -> Answer {
    let read = attempt(|| read_file_with_encoding(path.as_ref(), "UTF-8"));
    read.map(|text| format!("ok {}", hex(text.as_bytes())))
        .map_err(|failure| failure.at_line(0))
}

fn char_def(builder: &CharacterDefinitionBuilder) -> String {
    let names = builder
        .names_by_number()
        .into_iter()
        .map(|name| hex(name.as_bytes()));
    let definitions = builder.definitions().iter().map(definition);
    let ranges = builder.ranges().iter();
    let ranges = ranges.map(|(low, high, ids)| format!("{low:x}-{high:x}/{}", row(ids)));
    format!("ok {} {} {}", list(names), list(definitions), list(ranges))
}

fn definition(data: &CategoryData) -> String {
    format!(
        "{}:{}:{}",
        u8::from(data.invoke),
        u8::from(data.group),
        data.length
    )
}

fn rows(builder: &CharacterDefinitionBuilder) -> String {
    let table = builder.row_table();
    let rows = table.boundaries().iter().zip(table.rows());
    format!(
        "ok {}",
        list(rows.map(|(boundary, ids)| format!("{boundary:x}/{}", row(ids))))
    )
}

fn eval(builder: &CharacterDefinitionBuilder, codes: &str) -> Answer {
    let table = builder.row_table();
    let codes = known(items(codes, code))?;
    Ok(format!(
        "ok {}",
        list(codes.into_iter().map(|code| row(table.eval(code))))
    ))
}

fn flat(definition: &CharacterDefinition) -> String {
    let pool = definition.flat_pool().iter().map(|id| id.0);
    let index = definition.flat_index();
    let runs = index.chunk_by(|a, b| a == b).scan(0, |next, run| {
        let first = *next;
        *next += run.len();
        Some(format!("{first:x}/{}", run[0]))
    });
    format!("ok {} {}", list(pool), list(runs))
}

fn lookup(definition: &CharacterDefinition, codes: &str) -> Answer {
    let codes = known(items(codes, code))?;
    let found = codes.into_iter().map(|code| match char::from_u32(code) {
        Some(c) => format!(
            "{}/{}",
            place(definition.packed(c)),
            row(definition.lookup_categories(c))
        ),
        None => "x".into(),
    });
    Ok(format!("ok {}", list(found)))
}

/// Stands in the sum over lookups for a number that is no `char`; no row is so long.
const NO_CHAR: u16 = 0xFFFF;

/// The sum over the rows of all BMP code points, and that over the flat table.
fn sums(definition: &CharacterDefinition) -> String {
    let mut rows = Fnv::new();
    for code in 0..=0xFFFF {
        match char::from_u32(code) {
            Some(c) => rows.row(definition.lookup_categories(c)),
            None => rows.add(&NO_CHAR.to_le_bytes()),
        }
    }
    let mut flat = Fnv::new();
    let index = definition.flat_index();
    index
        .iter()
        .for_each(|entry| flat.add(&entry.to_le_bytes()));
    flat.numbers(definition.flat_pool());
    let flat = if index.is_empty() {
        "-".into()
    } else {
        flat.to_string()
    };
    format!("ok {rows} {flat}")
}

fn place(packed: Option<(u32, u16)>) -> String {
    packed.map_or("-".into(), |(offset, length)| format!("{offset}+{length}"))
}

/// What `work` says, `x` where it panics.
fn or_x(work: impl FnOnce() -> String) -> String {
    unless_panic(work).unwrap_or_else(|failure| failure.short())
}

fn numbered(whole: &CharacterDefinition, numbers: &str, names: &str) -> Answer {
    let numbers = known(items(numbers, number))?.into_iter().map(CategoryId);
    let names = known(items(names, name))?;
    let named = numbers.map(|id| {
        let name = or_x(|| hex(whole.category_name(id).as_bytes()));
        format!(
            "{name}/{}",
            or_x(|| definition(whole.lookup_definition(id)))
        )
    });
    let found = names.iter().map(|name| {
        let id = whole.category_id_by_name(name);
        id.map_or("-".into(), |id| id.0.to_string())
    });
    Ok(format!("ok {} {}", list(named), list(found)))
}

fn counts(builder: &CharacterDefinitionBuilder) -> String {
    joined(laid::counts(builder), ":", "-")
}

fn laid(builder: &CharacterDefinitionBuilder, codes: &str) -> Answer {
    let codes = known(items(codes, code))?;
    let whole = builder.character_definition();
    let rows = whole.mapping.rows().iter().map(Vec::len);
    let longest = rows.clone().max().unwrap_or(0);
    Ok(format!(
        "ok {} {longest} {} {} {}",
        counts(builder),
        rows.sum::<usize>(),
        hex(&laid::reading(builder).0),
        hex(&laid::rows(&whole, &codes).0)
    ))
}

fn laid_unk(unknown: &UnknownDictionary, numbers: &str) -> Answer {
    let numbers: Vec<u32> = known(items(numbers, number))?;
    let bytes = laid::unknown(unknown, &numbers).0;
    Ok(format!("ok {} {}", unknown.costs.len(), hex(&bytes)))
}

fn unk(unknown: &UnknownDictionary) -> String {
    let entries = unknown.costs.iter().map(entry);
    let references = unknown.category_references.iter();
    let references = references.map(|ids| joined(ids, ":", "-"));
    let offsets = &unknown.words_idx_data;
    let details = hex(&unknown.words_data);
    format!(
        "ok {} {} {} {details}",
        list(entries),
        list(references),
        list(offsets)
    )
}

fn entry(entry: &WordEntry) -> String {
    format!("{}:{}:{}", entry.left_id, entry.right_id, entry.word_cost)
}

fn unk_words(unknown: &UnknownDictionary, numbers: &str) -> Answer {
    let numbers: Vec<u32> = known(items(numbers, number))?;
    Ok(format!(
        "ok {}",
        list(numbers.into_iter().map(|number| unk_word(unknown, number)))
    ))
}

/// What stands under one number: a category's entries, an entry, an entry's details.
fn unk_word(unknown: &UnknownDictionary, number: u32) -> String {
    let ids = or_x(|| {
        joined(
            unknown.lookup_word_ids(CategoryId(number as usize)),
            ":",
            "-",
        )
    });
    let entry = or_x(|| entry(&unknown.word_entry(number)));
    let details = unknown.word_details(number);
    let details = details.map_or("x".into(), |fields| hex(fields.join("\0").as_bytes()));
    format!("{ids}/{entry}/{details}")
}
