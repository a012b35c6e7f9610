//! What a C function answers.

use crate::read::Refusal;

pub fn answer(result: Result<u32, Refusal>) -> u64 {
    match result {
        Ok(value) => u64::from(value),
        Err(refusal) => refusal.answer(),
    }
}

pub fn in_words(answer: u64) -> String {
    if answer >> 32 == 0 {
        return answer.to_string();
    }
    format!("refused {} at {}", answer >> 32, answer as u32)
}
