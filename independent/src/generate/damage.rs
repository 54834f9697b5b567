//! Memory written over, and cut or grown between calls.

use super::writer::{Plan, Side, Writer, SIDES};
use crate::area::{Area, Ring};
use crate::host::TakeStage;
use crate::memory;
use crate::port::Stage;
use crate::script::MOST_LENT;

impl Writer<'_> {
    /// A slot that somebody will look at soon.
    pub(super) fn near_slot(&mut self, plan: &Plan, ring: Ring) -> u8 {
        let slots = match ring {
            Ring::Command => 1 << plan.command,
            Ring::Response => 1 << plan.response,
        };
        let (port_slot, host_slot) = match ring {
            Ring::Command => (
                self.running().map(|half| half.fetch_slot),
                self.finished().map(|half| half.send_slot),
            ),
            Ring::Response => (
                self.running().map(|half| half.post_slot),
                self.finished().map(|half| half.take_slot),
            ),
        };
        let slot = match self.random.below(8) {
            0..=3 => port_slot,
            4..=6 => host_slot,
            _ => None,
        };
        slot.unwrap_or_else(|| self.random.below(slots) as u8)
    }

    pub(super) fn word_at(&self, address: u32) -> u16 {
        let at = address as usize;
        match self.scene.bytes().get(at..at + 2) {
            Some(pair) => u16::from_le_bytes([pair[0], pair[1]]),
            None => 0,
        }
    }

    pub(super) fn poke(&mut self, address: u32, word: u16) {
        let (address, word) = (self.number(address), self.number(u32::from(word)));
        self.say(format!("poke {address} {word}"));
    }

    /// An address at one of memory's ends, or in it.
    pub(super) fn odd_address(&mut self, plan: &Plan) -> u32 {
        let end = (self.scene.lent & !1) as u32;
        match self.random.below(5) {
            0 => self.random.pick(&[0, 1, 2, 3, 4, 5, 6]),
            1 => (end + 6).saturating_sub(self.random.below(14)),
            2 => end.saturating_sub(self.random.below(70)),
            3 => plan.pool + 4 + 64 * self.random.below(plan.slots()),
            _ => u32::from(self.random.word()) | self.random.below(4) << 16,
        }
    }

    pub(super) fn damage(&mut self, plan: &Plan) {
        let ring = self.random.pick(&[Ring::Command, Ring::Response]);
        let slot = self.near_slot(plan, ring);
        let area = Area {
            base: plan.base,
            command: plan.command,
            response: plan.response,
        };
        let descriptor = area.slot(ring, slot);
        let before = match ring {
            Ring::Response => 0,
            Ring::Command => area.slots(Ring::Response),
        };
        let envelope = plan.pool + 64 * (before + u32::from(slot));
        match self.random.below(26) {
            0 | 1 => {
                let text = self.odd_address(plan);
                self.poke(descriptor, text as u16);
            }
            2 => {
                let text = self.odd_address(plan);
                let bits = self.random.word() & 0xFFFC;
                self.poke(descriptor, text as u16);
                self.poke(descriptor + 2, bits | (text >> 16) as u16);
            }
            3 => {
                let high = self.word_at(descriptor + 2);
                let bit = 1 << self.random.below(16);
                self.poke(descriptor + 2, high ^ bit);
            }
            4 | 5 => {
                let high = self.word_at(descriptor + 2);
                self.poke(descriptor + 2, high ^ 0x8000);
            }
            6 => {
                let high = self.word_at(descriptor + 2);
                let reserved = self.random.word() & 0x3FFC;
                self.poke(descriptor + 2, high ^ reserved);
            }
            7 => {
                let length = self.length();
                self.poke(envelope, length);
            }
            8 => {
                let header = self.header();
                self.poke(envelope + 2, header);
            }
            9 | 10 => self.touch_live_envelope(plan),
            11 => {
                let at = self.random.below(self.scene.lent as u32 + 2);
                let word = self.random.word();
                self.poke(at, word);
            }
            12 => self.gift(plan, true),
            13..=15 => self.other_length(plan),
            16..=19 => self.end_at_touch(plan),
            20 | 21 => self.cut_the_mark(plan),
            _ => self.forge(plan),
        }
    }

    /// The port's next command slot is given to it by somebody else, good or bad.
    pub(super) fn forge(&mut self, plan: &Plan) {
        let Some(half) = self.running() else { return };
        let area = Area::of_words(half.words[0], half.words[1], half.words[2]);
        let slot = half.fetch_slot;
        let envelope = plan.pool + 64 * (area.slots(Ring::Response) + u32::from(slot));
        let text = envelope + 4;
        let descriptor = area.slot(Ring::Command, slot);
        let flag = self.random.pick(&[0, 0x4000]);
        self.poke(descriptor, text as u16);
        self.poke(descriptor + 2, 0x8000 | flag | (text >> 16) as u16);
        if self.random.chance(75) {
            let length = self.length();
            let header = self.header();
            self.poke(envelope, length);
            self.poke(envelope + 2, header);
        }
        if !self.busy(Side::Fetch) {
            self.say("begin-fetch");
        }
        self.step(Side::Fetch, 4);
        for _ in 0..4 {
            if self.busy(Side::Fetch) {
                let left = self.steps_left(Side::Fetch);
                self.step(Side::Fetch, left);
            }
        }
    }

    /// A message or a command whose text passes, or just fits, the end of 18 bits.
    pub(super) fn far_text(&mut self) {
        let Some(half) = self.running() else { return };
        let area = Area::of_words(half.words[0], half.words[1], half.words[2]);
        let (post_slot, fetch_slot) = (half.post_slot, half.fetch_slot);
        let text = memory::END as u32 - 2 - 2 * self.random.below(6);
        let size = self.random.below(13);
        let (side, descriptor) = if self.random.chance(50) {
            (Side::Post, area.slot(Ring::Response, post_slot))
        } else {
            (Side::Fetch, area.slot(Ring::Command, fetch_slot))
        };
        self.poke(descriptor, text as u16);
        self.poke(descriptor + 2, 0xC003);
        if side == Side::Post {
            let text = self.text_of(size);
            self.say(format!("begin-unsolicited {text}"));
        } else {
            self.poke(text - 4, size as u16);
            self.poke(text - 2, 0);
            self.say("begin-fetch");
        }
        for _ in 0..6 {
            if self.busy(side) {
                let left = self.steps_left(side);
                self.step(side, left);
            }
        }
    }

    /// A length word, mostly good.
    pub(super) fn length(&mut self) -> u16 {
        match self.random.below(3) {
            0 => self
                .random
                .pick(&[0, 1, 59, 60, 61, 62, 0x100, 0x8000, 0xFFFF]),
            _ => self.random.below(64) as u16,
        }
    }

    /// A header word, good or with a type, a connection or credits in it.
    pub(super) fn header(&mut self) -> u16 {
        match self.random.below(8) {
            0 => 0x10 << self.random.below(4),
            1 | 5 => 0x100 << self.random.below(8),
            2 => self.random.below(16) as u16,
            3 => 15,
            4 => self.random.word(),
            _ => 0,
        }
    }

    /// The envelope of a fetch or take under way is written over before it is read.
    pub(super) fn touch_live_envelope(&mut self, plan: &Plan) {
        let fetched = self.running().and_then(|half| {
            let fetch = half.fetch.as_ref()?;
            matches!(fetch.stage, Stage::Length | Stage::Header).then_some(fetch.envelope)
        });
        let taken = self.finished().and_then(|half| {
            let take = half.take.as_ref()?;
            matches!(take.stage, TakeStage::Length | TakeStage::Header)
                .then_some(half.pool + 64 * u32::from(take.slot))
        });
        let live = if self.random.chance(50) {
            fetched.or(taken)
        } else {
            taken.or(fetched)
        };
        match live {
            Some(envelope) if self.random.chance(50) => {
                let length = self.length();
                self.poke(envelope, length);
            }
            Some(envelope) => {
                let header = self.header();
                self.poke(envelope + 2, header);
            }
            None => self.forge(plan),
        }
    }

    /// The host finds a response with many credits, whoever wrote it; if `any`, perhaps a bad one.
    pub(super) fn gift(&mut self, plan: &Plan, any: bool) {
        let Some(half) = self.finished() else { return };
        let area = Area::of_words(half.words[0], half.words[1], half.words[2]);
        let slot = half.take_slot;
        let envelope = plan.pool + 64 * u32::from(slot);
        let descriptor = area.slot(Ring::Response, slot);
        let high = self.word_at(descriptor + 2);
        let (length, header) = if any && self.random.chance(45) {
            (self.length(), self.header())
        } else if any {
            (self.random.below(4) as u16, self.random.below(16) as u16)
        } else {
            (self.random.below(4) as u16, 15)
        };
        self.poke(descriptor + 2, high & 0x7FFF);
        self.poke(envelope, length);
        self.poke(envelope + 2, header);
        if !self.busy(Side::Take) {
            self.say("begin-take");
        }
        let words = u32::from(length.min(60)).div_ceil(2);
        self.step(Side::Take, 5 + words);
    }

    pub(super) fn other_length(&mut self, plan: &Plan) {
        let rings = plan.base + 4 * plan.slots();
        let pool = plan.pool + 64 * plan.slots();
        let edge = self.random.pick(&[
            0,
            1,
            plan.base.saturating_sub(4),
            plan.base.saturating_sub(2),
            plan.base,
            plan.base + 2,
            rings,
            rings - 2,
            plan.pool,
            plan.pool + 4,
            pool,
            pool - 2,
            plan.length,
            plan.length + 1,
        ]);
        let length = match self.random.below(4) {
            0 => self.random.below(plan.length + 40),
            1 => edge + 1,
            _ => edge,
        };
        self.say(format!("memory {}", length.min(MOST_LENT as u32)));
    }

    /// A post or fetch goes on to its tail; memory ends before the indicator, or just after it.
    pub(super) fn cut_the_mark(&mut self, plan: &Plan) {
        let side = self.random.pick(&[Side::Post, Side::Post, Side::Fetch]);
        if !self.busy(side) {
            if side == Side::Post {
                let text = self.text_of(2);
                self.say(format!("begin-unsolicited {text}"));
            } else {
                self.say("begin-fetch");
            }
        }
        for _ in 0..60 {
            let operation = self.running().and_then(|half| match side {
                Side::Post => half.post.as_ref(),
                _ => half.fetch.as_ref(),
            });
            match operation.map(|operation| operation.stage) {
                None => return,
                Some(Stage::Mark) => break,
                Some(_) => {
                    let left = self.steps_left(side);
                    self.step(side, left);
                }
            }
        }
        let Some(touched) = self.next_touch(side) else {
            return;
        };
        let length = touched.saturating_sub(2) + self.random.below(5);
        self.say(format!("memory {length}"));
        self.step(side, 1);
        let length = plan.length;
        self.say(format!("memory {length}"));
    }

    /// Memory ends just before or after the word that the next step touches.
    pub(super) fn end_at_touch(&mut self, plan: &Plan) {
        let mut side = self.random.pick(&SIDES);
        for _ in 0..4 {
            if self.busy(side) || self.promises(side) {
                break;
            }
            side = self.random.pick(&SIDES);
        }
        if !self.busy(side) {
            self.begin_side(side);
        }
        for _ in 0..self.random.below(7) {
            if self.busy(side) {
                let left = self.steps_left(side);
                let times = self.random.from(1, left);
                self.step(side, times);
            }
        }
        let Some(touched) = self.next_touch(side) else {
            return self.other_length(plan);
        };
        let length = (touched + self.random.below(4)).min(MOST_LENT as u32);
        self.say(format!("memory {length}"));
        self.step(side, 1);
        if self.random.chance(85) {
            let length = plan.length;
            self.say(format!("memory {length}"));
        }
    }
}
