//! Runs the Rust and says how it ended: with a value, an error or a panic, and at which line.

use std::error::Error;
use std::panic::{AssertUnwindSafe, catch_unwind};

use lindera::LinderaResult;
use lindera::error::LinderaError;

use crate::answer::hex;

#[derive(PartialEq, Debug)]
pub enum Failure {
    Refused { kind: String, message: String },
    Panicked { message: String },
}

/// The beginnings of the Rust's messages and the refusals of document 01 that they stand for.
const CLASSES: [(&str, u32); 7] = [
    ("Character range should have format", 4),
    ("Invalid hexadecimal codepoint", 5),
    ("UCS2 codepoint", 6),
    ("Character category definition requires", 7),
    ("Invalid 'invoke' field", 8),
    ("Invalid 'group' field", 8),
    ("Invalid 'length' field", 8),
];

impl Failure {
    pub fn at_line(&self, line: usize) -> String {
        match self {
            Failure::Refused { kind, message } => {
                let class = class(kind, message);
                format!("refused {class} {line} {kind} {}", hex(message.as_bytes()))
            }
            Failure::Panicked { message } => format!("panic {line} {}", hex(message.as_bytes())),
        }
    }

    /// `x` and the class, or `x` alone for a panic.
    pub fn short(&self) -> String {
        match self {
            Failure::Refused { kind, message } => format!("x{}", class(kind, message)),
            Failure::Panicked { .. } => "x".into(),
        }
    }
}

/// Document 01's number for an error. One without a known beginning is of unk.def, where only a
/// number that can't be read is an error, or of a file, which has no number.
fn class(kind: &str, message: &str) -> u32 {
    let known = CLASSES.iter().find(|(begin, _)| message.starts_with(begin));
    match (known, kind) {
        (Some((_, class)), _) => *class,
        (None, "Parse") => 24,
        (None, _) => 0,
    }
}

impl From<LinderaError> for Failure {
    fn from(error: LinderaError) -> Self {
        Failure::Refused {
            kind: format!("{:?}", error.kind()),
            message: messages(&error).join(": "),
        }
    }
}

/// The messages below the error itself, the outermost first.
fn messages(error: &LinderaError) -> Vec<String> {
    std::iter::successors(error.source(), |inner: &&dyn Error| (*inner).source())
        .map(ToString::to_string)
        .collect()
}

/// What `work` gives, where it does not panic.
pub fn unless_panic<T>(work: impl FnOnce() -> T) -> Result<T, Failure> {
    catch_unwind(AssertUnwindSafe(work)).map_err(|payload| {
        let literal = payload.downcast_ref::<&str>().map(ToString::to_string);
        let message = literal.or_else(|| payload.downcast_ref::<String>().cloned());
        Failure::Panicked {
            message: message.unwrap_or_default(),
        }
    })
}

pub fn attempt<T>(work: impl FnOnce() -> LinderaResult<T>) -> Result<T, Failure> {
    unless_panic(work)?.map_err(Failure::from)
}

/// Reads `text`; a failure comes back as an answer with its line.
pub fn reading<T>(text: &str, read: impl Fn(&str) -> LinderaResult<T>) -> Result<T, String> {
    attempt(|| read(text)).map_err(|failure| failure.at_line(first_bad_line(text, &failure, read)))
}

/// The Rust does not say the line. It stops at the first bad one, so prefixes of whole lines turn
/// bad once and stay bad, and the shortest bad one fails as the whole text does.
fn first_bad_line<T>(
    text: &str,
    whole: &Failure,
    read: impl Fn(&str) -> LinderaResult<T>,
) -> usize {
    let ends = line_ends(text);
    let fails = |end: usize| attempt(|| read(&text[..end])).err();
    let good = ends.partition_point(|&end| fails(end).is_none());
    assert_eq!(fails(ends[good]).as_ref(), Some(whole));
    good + 1
}

fn line_ends(text: &str) -> Vec<usize> {
    let lengths = text.split_inclusive('\n').map(str::len);
    lengths
        .scan(0, |end, length| {
            *end += length;
            Some(*end)
        })
        .collect()
}
