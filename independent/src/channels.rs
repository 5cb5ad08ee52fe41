//! The sixteen channels in the order of 002, table 4 (clause 7.3.4.1).

pub struct Channel {
    pub name: &'static str,
    pub signed: bool,
}

const fn signed(name: &'static str) -> Channel {
    Channel { name, signed: true }
}

const fn unsigned(name: &'static str) -> Channel {
    Channel {
        name,
        signed: false,
    }
}

pub const CHANNELS: [Channel; 16] = [
    signed("X"),
    signed("Y"),
    unsigned("Z"),
    signed("VX"),
    signed("VY"),
    signed("AX"),
    signed("AY"),
    unsigned("T"),
    unsigned("DT"),
    unsigned("F"),
    unsigned("S"),
    signed("TX"),
    signed("TY"),
    unsigned("Az"),
    unsigned("El"),
    unsigned("R"),
];

pub const X: usize = 0;
pub const Y: usize = 1;
/// The pen's state: the only channel with one byte in a point (7.4.2).
pub const S: usize = 10;

/// The channel's bit in the two inclusion bytes.
pub fn bit(channel: usize) -> u16 {
    0x8000 >> channel
}
