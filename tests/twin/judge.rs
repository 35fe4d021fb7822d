//! "judging one request frame alone (function and H6, 01h, 03h or nothing wrong)"; by #103 "the C
//! firmware's frame judge tells both", H6 and H10.

use super::*;

/// What is wrong with a frame: a house refusal, or a function result.
#[derive(Clone, Copy, Debug, PartialEq)]
pub enum Wrong {
    House(u32),
    Result(u8),
}

/// What the judge says of a frame: "Of a frame under four bytes there is no function to tell."
#[derive(Debug, PartialEq)]
pub struct Judgement {
    pub function: Option<u8>,
    pub wrong: Option<Wrong>,
}

impl Judgement {
    /// As the number that C is told: the function in bits 0 to 7, the result in bits 8 to 15, the
    /// house refusal in bits 16 to 23, and 1 in bits 24 to 31 where there is a function to tell.
    pub fn told(&self) -> u32 {
        let function = self.function.map_or(0, |function| 1 << 24 | u32::from(function));
        let wrong = match self.wrong {
            None => 0,
            Some(Wrong::House(refusal)) => refusal << 16,
            Some(Wrong::Result(result)) => u32::from(result) << 8,
        };
        function | wrong
    }
}

pub fn judge(frame: &[u8]) -> Judgement {
    let function = frame.get(1).copied().filter(|_| frame.len() >= 4);
    let wrong = match function_of(frame) {
        Err(H10) if cfg!(fault = "judge_tells_6_for_both") => Some(Wrong::House(H6)),
        Err(refusal) => Some(Wrong::House(refusal)),
        Ok(function) => result(function, frame).map(Wrong::Result),
    };
    Judgement { function, wrong }
}

/// The functions that draw no 01h.
pub(super) fn is_known(function: u8) -> bool {
    result(function, &[]) != Some(UNKNOWN_SMP_FUNCTION)
}

/// 01h or 03h, as far as the frame alone settles it: a right length says nothing of the phy.
fn result(function: u8, frame: &[u8]) -> Option<u8> {
    match function {
        REPORT_GENERAL | REPORT_MANUFACTURER_INFORMATION | REPORT_BROADCAST => {
            whole::<4>(frame, &[0x00]).err()
        }
        REPORT_PHY_ERROR_LOG => whole::<12>(frame, &[0x02, 0x00]).err(),
        REPORT_PHY_EVENT => whole::<12>(frame, &[0x02]).err(),
        REPORT_PHY_EVENT_LIST => whole::<8>(frame, &[0x01]).err(),
        PHY_CONTROL => whole::<40>(frame, &[0x09, 0x00]).err(),
        CONFIGURE_PHY_EVENT => with_descriptors(frame).err(),
        _ => Some(UNKNOWN_SMP_FUNCTION),
    }
}
