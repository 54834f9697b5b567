//! The host half: its side of the handshake, the setup, send side and take side.

use crate::area::{Area, Ring};
use crate::memory::Memory;
use crate::reply::{Act, Refusal, Reply, Text};
use crate::words;

/// "the host's envelopes are 64 bytes each"
const ENVELOPE: u32 = 64;

// A finished half is nearly all of a host's life: its state stands here, not behind a box.
#[allow(clippy::large_enum_variant)]
pub enum Host {
    /// Before the first beginning, or after the second mishap.
    Dead,
    Expecting(Expecting),
    Finished(Finished),
}

/// A handshake under way.
#[derive(Clone, Copy)]
pub struct Expecting {
    /// The step expected, 1 to 4.
    pub step: u8,
    /// Whether IP was written a second time.
    pub retried: bool,
    /// What the host writes in Steps 1 to 3.
    pub words: [u16; 3],
}

pub struct Finished {
    pub words: [u16; 3],
    area: Area,
    /// Whether a setup was accepted.
    pub ready: bool,
    pub pool: u32,
    pub send_slot: u8,
    pub take_slot: u8,
    pub account: u8,
    pub send: Option<Send>,
    pub take: Option<Take>,
}

/// What a send's next step touches.
#[derive(Clone, Copy, PartialEq, Eq, Debug)]
pub enum SendStage {
    High,
    Length,
    Header,
    Text,
    Low,
    Release,
}

pub struct Send {
    pub stage: SendStage,
    pub slot: u8,
    pub high: u16,
    /// The address of text-4.
    pub envelope: u32,
    pub at: usize,
    pub flag: bool,
    pub text: Text,
}

/// What a take's next step touches.
#[derive(Clone, Copy, PartialEq, Eq, Debug)]
pub enum TakeStage {
    High,
    Length,
    Header,
    Text,
    Refill,
    Release,
}

pub struct Take {
    pub stage: TakeStage,
    pub slot: u8,
    pub high: u16,
    /// The address of text-4.
    pub envelope: u32,
    /// The length as read; it may be over 60 until the header is looked at.
    pub size: u16,
    pub at: usize,
    pub credits: u8,
    pub text: Text,
}

impl Send {
    fn go_to_text(&mut self, at: usize) {
        if at < self.text.words() {
            self.stage = SendStage::Text;
            self.at = at;
        } else {
            self.stage = SendStage::Low;
            self.at = 0;
        }
    }
}

impl Take {
    fn go_to_text(&mut self, at: usize) {
        if at < self.text.words() {
            self.stage = TakeStage::Text;
            self.at = at;
        } else {
            self.stage = TakeStage::Refill;
            self.at = 0;
        }
    }
}

impl Host {
    /// "at the host's beginning, exponent over 7, vector/4 over 127, or ring base odd or wider
    /// than 18 bits" is refusal 11, which "changes nothing at all".
    pub fn begin(&mut self, command: u8, response: u8, ie: bool, vector: u8, base: u32) -> Act {
        if command > 7 || response > 7 || vector > 127 || base & 1 != 0 || base >> 18 != 0 {
            return Act::Refused(Refusal::BadSetting);
        }
        *self = Host::Expecting(Expecting {
            step: 1,
            retried: false,
            words: [
                words::host_step_1(command, response, ie, vector),
                words::host_step_2(base),
                words::host_step_3(base),
            ],
        });
        Act::WriteIp
    }

    pub fn sa_seen(&mut self, word: u16) -> Act {
        match self {
            Host::Dead => Act::Dead,
            Host::Finished(_) if word & words::ERROR != 0 => Act::PortFailed(word & 0x07FF),
            Host::Finished(_) => Act::None,
            Host::Expecting(expecting) => {
                let expecting = *expecting;
                match expecting.judge(word) {
                    Judged::Waiting => Act::Waiting,
                    Judged::Mishap => self.mishap(expecting),
                    Judged::Expected => self.answer_step(expecting),
                }
            }
        }
    }

    pub fn time_is_up(&mut self) -> Act {
        match self {
            Host::Dead => Act::Dead,
            Host::Finished(_) => Act::None,
            Host::Expecting(expecting) => {
                let expecting = *expecting;
                self.mishap(expecting)
            }
        }
    }

    /// "makes it write IP once more; the second such event answers Dead".
    fn mishap(&mut self, expecting: Expecting) -> Act {
        if expecting.retried {
            *self = Host::Dead;
            return Act::Dead;
        }
        *self = Host::Expecting(Expecting {
            step: 1,
            retried: true,
            ..expecting
        });
        Act::WriteIp
    }

    fn answer_step(&mut self, expecting: Expecting) -> Act {
        let [first, second, third] = expecting.words;
        if expecting.step == 4 {
            // "Its handshake is finished when it has written GO".
            *self = Host::Finished(Finished {
                words: expecting.words,
                area: Area::of_words(first, second, third),
                ready: false,
                pool: 0,
                send_slot: 0,
                take_slot: 0,
                account: 0,
                send: None,
                take: None,
            });
            return Act::WriteSa(words::GO);
        }
        let word = expecting.words[usize::from(expecting.step - 1)];
        *self = Host::Expecting(Expecting {
            step: expecting.step + 1,
            ..expecting
        });
        Act::WriteSa(word)
    }

    fn finished(&mut self) -> Result<&mut Finished, Refusal> {
        match self {
            Host::Finished(finished) => Ok(finished),
            _ => Err(Refusal::NotRunning),
        }
    }

    /// For sends and takes, which come after an accepted setup.
    fn ready(&mut self) -> Result<&mut Finished, Refusal> {
        match self {
            Host::Finished(finished) if finished.ready => Ok(finished),
            _ => Err(Refusal::NotRunning),
        }
    }

    pub fn set_up(&mut self, pool: u32, memory: &mut Memory) -> Reply {
        told(self.finished().and_then(|half| half.set_up(pool, memory)))
    }

    pub fn begin_send(&mut self, flag: bool, text: &[u8]) -> Reply {
        told(self.ready().and_then(|half| half.begin_send(flag, text)))
    }

    pub fn begin_take(&mut self) -> Reply {
        told(self.ready().and_then(Finished::begin_take))
    }

    pub fn step_send(&mut self, memory: &mut Memory) -> Reply {
        let half = match self.ready() {
            Ok(half) => half,
            Err(refusal) => return Reply::Refused(refusal),
        };
        half.step_send(memory).unwrap_or_else(|refusal| {
            half.send = None;
            Reply::Refused(refusal)
        })
    }

    pub fn step_take(&mut self, memory: &mut Memory) -> Reply {
        let half = match self.ready() {
            Ok(half) => half,
            Err(refusal) => return Reply::Refused(refusal),
        };
        half.step_take(memory).unwrap_or_else(|refusal| {
            half.take = None;
            Reply::Refused(refusal)
        })
    }

    /// "Clearing an indicator is a host step"; it "needs the handshake but no setup".
    pub fn clear(&mut self, ring: Ring, memory: &mut Memory) -> Reply {
        told(self.finished().and_then(|half| {
            half.area
                .indicator(ring)
                .and_then(|address| memory.write(address, 0))
                .ok_or(Refusal::DoesNotFit)?;
            Ok(Reply::DONE)
        }))
    }
}

fn told(result: Result<Reply, Refusal>) -> Reply {
    result.unwrap_or_else(Reply::Refused)
}

/// What a word of SA is to a host that expects a step.
enum Judged {
    Expected,
    Waiting,
    Mishap,
}

impl Expecting {
    fn judge(&self, word: u16) -> Judged {
        if word & words::ERROR != 0 {
            return Judged::Mishap;
        }
        // Bit 11 is Step 1, bit 14 Step 4.
        let shown = word >> 11 & 0x0F;
        let expected = 1 << (self.step - 1);
        match shown.count_ones() {
            0 => Judged::Waiting,
            1 if shown == expected && self.echo_is_right(word) => Judged::Expected,
            1 if shown << 1 == expected => Judged::Waiting,
            _ => Judged::Mishap,
        }
    }

    /// Only Steps 2 and 3 show back what the host wrote, in bits 7-0.
    fn echo_is_right(&self, word: u16) -> bool {
        match self.step {
            2 => word & 0xFF == self.words[0] >> 8,
            3 => word & 0xFF == self.words[0] & 0xFF,
            _ => true,
        }
    }
}

/// The address of a slot's length word: "response slots first, then command slots".
fn envelope_at(pool: u32, area: &Area, ring: Ring, slot: u8) -> u32 {
    let before = match ring {
        Ring::Response => 0,
        Ring::Command => area.slots(Ring::Response),
    };
    pool + ENVELOPE * (before + u32::from(slot))
}

impl Finished {
    fn set_up(&mut self, pool: u32, memory: &mut Memory) -> Result<Reply, Refusal> {
        if self.send.is_some() || self.take.is_some() {
            return Err(Refusal::Busy);
        }
        let area = self.area;
        let slots = area.slots(Ring::Response) + area.slots(Ring::Command);
        let pool_end = u64::from(pool) + u64::from(ENVELOPE * slots);
        let start = area.indicator(Ring::Command).ok_or(Refusal::DoesNotFit)?;
        let fits = pool & 1 == 0
            && u64::from(area.end()) <= memory.end()
            && pool_end <= memory.end()
            && (pool_end <= u64::from(start) || area.end() <= pool);
        if !fits {
            return Err(Refusal::DoesNotFit);
        }
        self.ready = true;
        self.pool = pool;
        self.send_slot = 0;
        self.take_slot = 0;
        self.account = 1;
        self.write_set_up(memory).ok_or(Refusal::DoesNotFit)?;
        Ok(Reply::DONE)
    }

    /// "clears all of the pool, writes 60 as each response length, fills every descriptor's
    /// address, gives response slots to the port with F=1 and keeps command slots".
    fn write_set_up(&self, memory: &mut Memory) -> Option<()> {
        let slots = self.area.slots(Ring::Response) + self.area.slots(Ring::Command);
        memory.clear(self.pool, self.pool + ENVELOPE * slots)?;
        for ring in [Ring::Response, Ring::Command] {
            for slot in 0..self.area.slots(ring) as u8 {
                let envelope = envelope_at(self.pool, &self.area, ring, slot);
                let mut high = words::high_address(envelope + 4);
                if ring == Ring::Response {
                    memory.write(envelope, words::TEXT as u16)?;
                    high = words::given_to_port(high, true);
                }
                let at = self.area.slot(ring, slot);
                memory.write(at, words::low_word(envelope + 4))?;
                memory.write(at + 2, high)?;
            }
        }
        Some(())
    }

    fn begin_send(&mut self, flag: bool, text: &[u8]) -> Result<Reply, Refusal> {
        if self.send.is_some() {
            return Err(Refusal::Busy);
        }
        self.send = Some(Send {
            stage: SendStage::High,
            slot: self.send_slot,
            high: 0,
            envelope: envelope_at(self.pool, &self.area, Ring::Command, self.send_slot),
            at: 0,
            flag,
            text: Text::of(text).ok_or(Refusal::TooLong)?,
        });
        Ok(Reply::Going)
    }

    fn begin_take(&mut self) -> Result<Reply, Refusal> {
        if self.take.is_some() {
            return Err(Refusal::Busy);
        }
        self.take = Some(Take {
            stage: TakeStage::High,
            slot: self.take_slot,
            high: 0,
            envelope: envelope_at(self.pool, &self.area, Ring::Response, self.take_slot),
            size: 0,
            at: 0,
            credits: 0,
            text: Text::EMPTY,
        });
        Ok(Reply::Going)
    }

    fn step_send(&mut self, memory: &mut Memory) -> Result<Reply, Refusal> {
        let outside = Refusal::DoesNotFit;
        let Some(send) = &mut self.send else {
            return Err(Refusal::IdleSide);
        };
        let envelope = send.envelope;
        let descriptor = self.area.slot(Ring::Command, send.slot);
        match send.stage {
            SendStage::High => {
                // "5 comes before the read that could give 10"
                if self.account == 0 {
                    return Err(Refusal::NoCredit);
                }
                send.high = memory.read(descriptor + 2).ok_or(outside)?;
                if words::port_owns(send.high) {
                    return Err(Refusal::RingFull);
                }
                send.stage = SendStage::Length;
            }
            SendStage::Length => {
                memory
                    .write(envelope, send.text.length as u16)
                    .ok_or(outside)?;
                send.stage = SendStage::Header;
            }
            SendStage::Header => {
                memory.write(envelope + 2, 0).ok_or(outside)?;
                send.go_to_text(0);
            }
            SendStage::Text => {
                memory
                    .write(envelope + 4 + 2 * send.at as u32, send.text.word(send.at))
                    .ok_or(outside)?;
                send.go_to_text(send.at + 1);
            }
            SendStage::Low => {
                memory
                    .write(descriptor, words::low_word(envelope + 4))
                    .ok_or(outside)?;
                send.stage = SendStage::Release;
            }
            SendStage::Release => {
                let high = words::with_address(send.high, envelope + 4);
                memory
                    .write(descriptor + 2, words::given_to_port(high, send.flag))
                    .ok_or(outside)?;
                self.send_slot = self.area.next(Ring::Command, send.slot);
                self.account -= 1;
                self.send = None;
                return Ok(Reply::DONE);
            }
        }
        Ok(Reply::Going)
    }

    fn step_take(&mut self, memory: &mut Memory) -> Result<Reply, Refusal> {
        let outside = Refusal::DoesNotFit;
        let Some(take) = &mut self.take else {
            return Err(Refusal::IdleSide);
        };
        let envelope = take.envelope;
        let descriptor = self.area.slot(Ring::Response, take.slot);
        match take.stage {
            TakeStage::High => {
                take.high = memory.read(descriptor + 2).ok_or(outside)?;
                if words::port_owns(take.high) {
                    return Err(Refusal::Empty);
                }
                take.stage = TakeStage::Length;
            }
            TakeStage::Length => {
                take.size = memory.read(envelope).ok_or(outside)?;
                take.stage = TakeStage::Header;
            }
            TakeStage::Header => {
                let header = memory.read(envelope + 2).ok_or(outside)?;
                take.credits = words::credits(header);
                if usize::from(take.size) > words::TEXT
                    || words::kind(header) != 0
                    || words::connection(header) != 0
                    || self.account.checked_add(take.credits).is_none()
                {
                    return Err(Refusal::BadEnvelope);
                }
                take.text.length = usize::from(take.size);
                take.go_to_text(0);
            }
            TakeStage::Text => {
                let word = memory
                    .read(envelope + 4 + 2 * take.at as u32)
                    .ok_or(outside)?;
                take.text.set_word(take.at, word);
                take.go_to_text(take.at + 1);
            }
            TakeStage::Refill => {
                memory.write(envelope, words::TEXT as u16).ok_or(outside)?;
                take.stage = TakeStage::Release;
            }
            TakeStage::Release => {
                memory
                    .write(descriptor + 2, words::given_to_port(take.high, true))
                    .ok_or(outside)?;
                self.take_slot = self.area.next(Ring::Response, take.slot);
                self.account += take.credits;
                return Ok(self.close_take());
            }
        }
        Ok(Reply::Going)
    }

    fn close_take(&mut self) -> Reply {
        match self.take.take() {
            Some(take) => Reply::Delivered {
                text: take.text,
                interrupt: false,
            },
            None => Reply::DONE,
        }
    }
}
