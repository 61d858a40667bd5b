//! The proved functions, through their C interface.

/// A refusal of the port by its number.
pub const RATE_OUT_OF_RANGE: u32 = 4;
pub const CLOCK_OUT_OF_REACH: u32 = 5;

/// A refusal, then four numbers, which are 0 where it is not 0.
#[repr(C)]
pub struct Answer {
    refusal: u32,
    numbers: [u32; 4],
}

unsafe extern "C" {
    fn i2s_clock_dividers(rate: u32, channels: u8, data_bits: u8, max: u32) -> Answer;
    fn i2s_mclk_dividers(denominator: u32, numerator: u32) -> Answer;
    fn i2s_within(mclk_divider: u32, least: u32, most: u32) -> u32;
}

/// Integer part, bit divider, denominator and numerator, as C has them.
pub fn clock_answer(rate: u32, channels: u8, data_bits: u8, max: u32) -> Answer {
    unsafe { i2s_clock_dividers(rate, channels, data_bits, max) }
}

/// The same, or the refusal.
pub fn clock_dividers(rate: u32, channels: u8, data_bits: u8, max: u32) -> Result<[u32; 4], u32> {
    given(clock_answer(rate, channels, data_bits, max))
}

/// x, y, z, yn1; or the refusal.
pub fn split(denominator: u32, numerator: u32) -> Result<[u32; 4], u32> {
    given(unsafe { i2s_mclk_dividers(denominator, numerator) })
}

/// 0, or the refusal of an integer part that the divider does not take.
pub fn within(mclk_divider: u32, least: u32, most: u32) -> u32 {
    unsafe { i2s_within(mclk_divider, least, most) }
}

fn given(answer: Answer) -> Result<[u32; 4], u32> {
    if answer.refusal == 0 { Ok(answer.numbers) } else { Err(answer.refusal) }
}
