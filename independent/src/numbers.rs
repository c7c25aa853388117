//! The numbers that calls answer with (01, "Refusal numbers" and "Raising and reading").

pub const SUCCESS: u32 = 0;

pub const SETTING_OUT_OF_RANGE: u32 = 1;
pub const IMPOSSIBLE_STATE: u32 = 2;
pub const OUTPUT_TOO_SHORT: u32 = 3;
pub const NOTHING_THERE: u32 = 4;
pub const FULL_OR_OCCUPIED: u32 = 5;
pub const NO_END: u32 = 6;
pub const TOO_FEW_VALUES: u32 = 7;
pub const BAD_IDENTIFIER: u32 = 8;
pub const BAD_RTR: u32 = 9;
pub const BAD_DLC: u32 = 10;
pub const TOO_MANY_DATA: u32 = 11;
pub const BAD_DATA: u32 = 12;
pub const BAD_FORMAT: u32 = 13;
pub const DAMAGED: u32 = 14;

pub const RECORDED: u32 = 100;
pub const FILTERED: u32 = 101;
pub const MASKED: u32 = 102;
pub const LOST: u32 = 103;

/// Inside a call, a refusal leaves by `?`, so that checks stand in the paper's order.
pub(crate) type Outcome<T> = Result<T, u32>;

pub(crate) fn refuse_if(condition: bool, number: u32) -> Outcome<()> {
    if condition {
        Err(number)
    } else {
        Ok(())
    }
}

/// "A refusal returns its number and zero values."
pub(crate) fn answer<T: Default>(outcome: Outcome<T>) -> (u32, T) {
    answer_or(outcome, T::default())
}

/// The same for a value without a default, as arrays past 32 bytes are.
pub(crate) fn answer_or<T>(outcome: Outcome<T>, zero: T) -> (u32, T) {
    match outcome {
        Ok(value) => (SUCCESS, value),
        Err(number) => (number, zero),
    }
}

/// The answer of a call that has nothing but its number.
pub(crate) fn number_of(outcome: Outcome<()>) -> u32 {
    answer(outcome).0
}
