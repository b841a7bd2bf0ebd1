//! The answer word of the C functions: bits 56 to 63 the refusal's number, 0 if not refused; bits
//! 48 to 55 a small value, such as a clause's length; bits 0 to 47 the place of a refusal.

use crate::refusal::Refusal;

pub fn pack(answer: Result<u8, Refusal>) -> u64 {
    match answer {
        Ok(value) => u64::from(value) << 48,
        Err(refusal) => u64::from(refusal.number) << 56 | refusal.place as u64,
    }
}
