//! What calls answer.

use crate::words::TEXT;

/// A text as a result carries it: "in 60 bytes, zero beyond its length".
#[derive(Clone, PartialEq, Eq, Debug)]
pub struct Text {
    pub length: usize,
    pub bytes: [u8; TEXT],
}

impl Text {
    pub const EMPTY: Text = Text {
        length: 0,
        bytes: [0; TEXT],
    };

    /// None if it is over 60 bytes.
    pub fn of(bytes: &[u8]) -> Option<Text> {
        let mut text = Text::EMPTY;
        text.bytes.get_mut(..bytes.len())?.copy_from_slice(bytes);
        text.length = bytes.len();
        Some(text)
    }

    pub fn used(&self) -> &[u8] {
        &self.bytes[..self.length]
    }

    /// How many words it takes in memory: "A word of text costs a step".
    pub fn words(&self) -> usize {
        self.length.div_ceil(2)
    }

    /// Text word `at`: "an odd last byte is stored with 0 above it".
    pub fn word(&self, at: usize) -> u16 {
        u16::from_le_bytes([self.bytes[2 * at], self.bytes[2 * at + 1]])
    }

    /// Takes in text word `at`: an odd last byte is "read without it".
    pub fn set_word(&mut self, at: usize, word: u16) {
        let [low, high] = word.to_le_bytes();
        self.bytes[2 * at] = low;
        if 2 * at + 1 < self.length {
            self.bytes[2 * at + 1] = high;
        }
    }
}

/// The refusals with their numbers in the table.
#[derive(Clone, Copy, PartialEq, Eq, Debug)]
pub enum Refusal {
    NotRunning = 1,
    Busy = 2,
    TooLong = 3,
    NothingOpen = 4,
    NoCredit = 5,
    RingFull = 6,
    Empty = 7,
    NoSlot = 8,
    BadEnvelope = 9,
    DoesNotFit = 10,
    BadSetting = 11,
    IdleSide = 12,
}

/// The fatal errors with their codes in chapter 7 of document 004.
#[derive(Clone, Copy, PartialEq, Eq, Debug)]
pub enum Fatal {
    EnvelopeRead = 1,
    EnvelopeWrite = 2,
    RingRead = 6,
    RingWrite = 7,
    CreditLimit = 10,
    InvalidConnection = 14,
    InterruptWrite = 15,
    Incompatible = 20,
}

/// The answer of a call that begins, steps, creates, sets up or writes SA.
#[derive(Clone, PartialEq, Eq, Debug)]
pub enum Reply {
    /// The operation is under way.
    Going,
    /// Closed, with no text to hand over.
    Done {
        interrupt: bool,
    },
    /// The closing answer of a fetch or a take.
    Delivered {
        text: Text,
        interrupt: bool,
    },
    Refused(Refusal),
    Fatal {
        code: Fatal,
        interrupt: bool,
    },
}

impl Reply {
    pub const DONE: Reply = Reply::Done { interrupt: false };

    pub fn interrupt(&self) -> bool {
        match self {
            Reply::Done { interrupt }
            | Reply::Delivered { interrupt, .. }
            | Reply::Fatal { interrupt, .. } => *interrupt,
            Reply::Going | Reply::Refused(_) => false,
        }
    }
}

/// What the host's handshake answers.
#[derive(Clone, Copy, PartialEq, Eq, Debug)]
pub enum Act {
    WriteIp,
    WriteSa(u16),
    Waiting,
    Dead,
    None,
    PortFailed(u16),
    Refused(Refusal),
}
