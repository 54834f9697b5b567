//! Host memory: "a lent run of bytes, words low byte first; an odd last byte and bytes from
//! 262,144 on are never touched".

/// Addresses have 18 bits.
pub const END: usize = 1 << 18;

/// The part of the lent bytes that may be touched.
pub struct Memory<'a> {
    usable: &'a mut [u8],
}

impl<'a> Memory<'a> {
    pub fn lent(bytes: &'a mut [u8]) -> Self {
        let usable = (bytes.len() & !1).min(END);
        Memory {
            usable: &mut bytes[..usable],
        }
    }

    /// Where usable memory ends.
    pub fn end(&self) -> u64 {
        self.usable.len() as u64
    }

    /// The word at an even address, None if it is outside.
    pub fn read(&self, address: u32) -> Option<u16> {
        let at = address as usize;
        let pair = self.usable.get(at..at + 2)?;
        Some(u16::from_le_bytes([pair[0], pair[1]]))
    }

    /// Stores a word at an even address; None, and nothing stored, if it is outside.
    pub fn write(&mut self, address: u32, word: u16) -> Option<()> {
        let at = address as usize;
        let pair = self.usable.get_mut(at..at + 2)?;
        pair.copy_from_slice(&word.to_le_bytes());
        Some(())
    }

    /// Writes zeros from `start` up to `end`; None, and nothing written, if that leaves memory.
    pub fn clear(&mut self, start: u32, end: u32) -> Option<()> {
        self.usable.get_mut(start as usize..end as usize)?.fill(0);
        Some(())
    }
}
