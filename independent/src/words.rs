//! Words of the registers, descriptors and envelopes, built and taken apart.

/// Bit 15 of a descriptor's high word: "O (1: port owns)".
pub const OWNER: u16 = 0x8000;
/// Bit 14 of a descriptor's high word: F.
pub const FLAG: u16 = 0x4000;
/// "A high-word write keeps bits 13-0 as read".
const KEPT: u16 = 0x3FFF;

/// The most bytes that a text has.
pub const TEXT: usize = 60;

/// Bit 15 of SA, read by the host: ER.
pub const ERROR: u16 = 0x8000;
/// Bit 0 of the host's Step 4 word.
pub const GO: u16 = 1;

/// SA in Step 1: "bit 11; 10 NV, 9 QB, 8 DI".
pub fn step_1_shown(nv: bool, qb: bool, di: bool) -> u16 {
    0x0800 | u16::from(nv) << 10 | u16::from(qb) << 9 | u16::from(di) << 8
}

/// SA in Step 2: "bit 12; 10-8 port type 0; 7-0 the host's Step 1 bits 15-8".
pub fn step_2_shown(first: u16) -> u16 {
    0x1000 | first >> 8
}

/// SA in Step 3: "bit 13; 7-0 the host's Step 1 bits 7-0".
pub fn step_3_shown(first: u16) -> u16 {
    0x2000 | first & 0x00FF
}

/// SA in Step 4: "bit 14; 7-0 a version byte given at creation".
pub fn step_4_shown(version: u8) -> u16 {
    0x4000 | u16::from(version)
}

/// SA after a fatal error: "8000 hex + x".
pub fn fatal_shown(code: u16) -> u16 {
    ERROR + code
}

/// The host's Step 1 word, WR left 0.
pub fn host_step_1(command: u8, response: u8, ie: bool, vector: u8) -> u16 {
    0x8000
        | u16::from(command) << 11
        | u16::from(response) << 8
        | u16::from(ie) << 7
        | u16::from(vector)
}

/// The host's Step 2 word, PI left 0.
pub fn host_step_2(base: u32) -> u16 {
    (base & 0xFFFE) as u16
}

/// The host's Step 3 word, PP left 0.
pub fn host_step_3(base: u32) -> u16 {
    (base >> 16) as u16
}

/// WR of a Step 1 word.
pub fn wraps(first: u16) -> bool {
    first & 0x4000 != 0
}

/// Whether the ends of Steps 1 to 3 report an interrupt: "if IE is set and the vector is not 0".
pub fn step_interrupts(first: u16) -> bool {
    first & 0x0080 != 0 && vector(first) != 0
}

/// Bits 6-0 of a Step 1 word: vector/4.
pub fn vector(first: u16) -> u16 {
    first & 0x007F
}

/// PI of a Step 2 word.
pub fn purge_interrupts(second: u16) -> bool {
    second & 1 != 0
}

/// Type of an envelope's header word, bits 7-4.
pub fn kind(header: u16) -> u16 {
    header >> 4 & 0x0F
}

/// Connection of an envelope's header word, bits 15-8.
pub fn connection(header: u16) -> u16 {
    header >> 8
}

/// Credits of an envelope's header word, bits 3-0.
pub fn credits(header: u16) -> u8 {
    (header & 0x0F) as u8
}

/// Whether the port owns the slot with this high word.
pub fn port_owns(high: u16) -> bool {
    high & OWNER != 0
}

/// The address of text+0: "bit 0 taken as 0".
pub fn text_address(low: u16, high: u16) -> u32 {
    u32::from(high & 3) << 16 | u32::from(low & 0xFFFE)
}

/// The low word for a text at this address.
pub fn low_word(text: u32) -> u16 {
    (text & 0xFFFE) as u16
}

/// Address bits 17-16, as they stand in a high word.
pub fn high_address(text: u32) -> u16 {
    (text >> 16 & 3) as u16
}

/// The port gives a slot back: O=0, F=1.
pub fn given_back(high: u16) -> u16 {
    high & KEPT | FLAG
}

/// The host gives a slot to the port: O=1 and the F that it asks for.
pub fn given_to_port(high: u16, flag: bool) -> u16 {
    high & KEPT | OWNER | if flag { FLAG } else { 0 }
}

/// "send puts in the pool's address": bits 1-0 are replaced.
pub fn with_address(high: u16, text: u32) -> u16 {
    high & !3 | high_address(text)
}
