/// The bytes that a text buffer needs before any listing is made: a line `ok 64`, and 64 lines of at most 37
/// bytes (flow 2, period 5, phase 5, four conditions of 4, the view period of the first, which alone can have one,
/// 5 with its `@`, three spaces, a line feed).
pub const LISTING_MAX: usize = 6 + 64 * 37;
