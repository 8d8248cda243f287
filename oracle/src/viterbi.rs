//! Stands in for lindera's viterbi module, which is not among the files that we have: an entry is
//! the numbers it is made from.

use serde::{Deserialize, Serialize};

#[derive(Clone, Copy, Serialize, Deserialize)]
pub enum LexType {
    Unknown,
}

#[derive(Clone, Copy, Serialize, Deserialize)]
pub struct WordId {
    pub lex_type: LexType,
    pub id: u32,
}

impl WordId {
    pub fn new(lex_type: LexType, id: u32) -> Self {
        Self { lex_type, id }
    }
}

#[derive(Clone, Copy, Serialize, Deserialize)]
pub struct WordEntry {
    pub word_id: WordId,
    pub word_cost: i16,
    pub left_id: u16,
    pub right_id: u16,
}

impl WordEntry {
    pub fn new(word_id: WordId, word_cost: i16, left_id: u16, right_id: u16) -> Self {
        Self {
            word_id,
            word_cost,
            left_id,
            right_id,
        }
    }
}
