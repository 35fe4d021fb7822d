//! The twin's answers as the numbers of the C interface: "Bit 31 says that it is a house refusal,
//! and the low bits then are its number".

pub fn refused(h: u32) -> u32 {
    1 << 31 | h
}

/// Tells 0, or the refusal.
pub fn done(answer: Result<(), u32>) -> u32 {
    answer.map_or_else(refused, |()| 0)
}

/// Tells 0, or 1 if the report's own addition was cut (#104), or the refusal.
pub fn counted(answer: Result<bool, u32>) -> u32 {
    answer.map_or_else(refused, u32::from)
}

/// Tells the length of the response, or the refusal.
pub fn length(answer: Result<usize, u32>) -> u32 {
    answer.map_or_else(refused, |length| length as u32)
}

/// Tells the set of phys in bits 0 to 23 and how many they are in bits 24 to 28, or the refusal.
pub fn reach(answer: Result<(u32, u32), u32>) -> u32 {
    answer.map_or_else(refused, |(set, number)| set | number << 24)
}
