//! The memory picture: "Response ring at base, command ring directly after it, 4 bytes a slot.
//! Indicators: base-4 command ring, base-2 response ring."

/// Which of the two rings.
#[derive(Clone, Copy, PartialEq, Eq, Debug)]
pub enum Ring {
    Command,
    Response,
}

/// Where the rings stand and how long they are, as the host's handshake words say.
#[derive(Clone, Copy, Debug)]
pub struct Area {
    pub base: u32,
    pub command: u8,
    pub response: u8,
}

impl Area {
    /// Read off the host's words of Steps 1 to 3.
    pub fn of_words(first: u16, second: u16, third: u16) -> Self {
        Area {
            base: u32::from(third & 3) << 16 | u32::from(second & 0xFFFE),
            command: (first >> 11 & 7) as u8,
            response: (first >> 8 & 7) as u8,
        }
    }

    pub fn slots(&self, ring: Ring) -> u32 {
        match ring {
            Ring::Command => 1 << self.command,
            Ring::Response => 1 << self.response,
        }
    }

    /// The address of a slot's low word; its high word stands 2 above.
    pub fn slot(&self, ring: Ring, slot: u8) -> u32 {
        let start = match ring {
            Ring::Response => self.base,
            Ring::Command => self.base + 4 * self.slots(Ring::Response),
        };
        start + 4 * u32::from(slot)
    }

    /// The indicator's address, None if it would be below 0.
    pub fn indicator(&self, ring: Ring) -> Option<u32> {
        self.base.checked_sub(match ring {
            Ring::Command => 4,
            Ring::Response => 2,
        })
    }

    /// Where the rings end.
    pub fn end(&self) -> u32 {
        self.base + 4 * (self.slots(Ring::Command) + self.slots(Ring::Response))
    }

    pub fn next(&self, ring: Ring, slot: u8) -> u8 {
        ((u32::from(slot) + 1) & (self.slots(ring) - 1)) as u8
    }

    /// "The slot before slot 0 is the last."
    pub fn previous(&self, ring: Ring, slot: u8) -> u8 {
        (u32::from(slot).wrapping_sub(1) & (self.slots(ring) - 1)) as u8
    }
}
