//! Rates and cents.
use crate::ffi;
use crate::refusal::Refusal;

/// Splits a rate into its whole part and 2^28ths, both exact; below zero counts as 0.
pub fn split_rate(rate: f64) -> Result<(u32, u32), Refusal> {
    ffi::split_rate(rate)
}

/// The rate of a whole part and 2^28ths, rounded once.
pub fn join_rate(whole: u32, fraction: u32) -> f64 {
    ffi::join_rate(whole, fraction)
}

/// Cents as a fraction of a semitone in 16,383rds: held to 0 to 100, nearest, halves up; NaN gives 0.
pub fn cents_to_u14(cents: f32) -> u16 {
    ffi::cents(cents)
}
