//! The port half: registers, handshake, fetch side and post side.

use crate::area::{Area, Ring};
use crate::memory::Memory;
use crate::reply::{Fatal, Refusal, Reply, Text};
use crate::words;

pub struct Port {
    pub nv: bool,
    pub qb: bool,
    pub di: bool,
    pub version: u8,
    pub limit: u8,
    pub phase: Phase,
}

// A running port is nearly all of a port's life: its state stands here, not behind a box.
#[allow(clippy::large_enum_variant)]
pub enum Phase {
    Step1,
    /// The word shown back.
    Wrap(u16),
    /// The host's words so far.
    Step2(u16),
    Step3(u16, u16),
    Step4(u16, u16, u16),
    Running(Running),
    Fatal(Fatal),
}

pub struct Running {
    /// The host's four words, the last with GO.
    pub words: [u16; 4],
    area: Area,
    /// Whether an indicator write reports an interrupt: the vector is not 0.
    interrupts: bool,
    pub fetch_slot: u8,
    pub post_slot: u8,
    /// Credits still to grant.
    pub owed: u8,
    /// Commands fetched and not answered.
    pub unanswered: u8,
    pub fetch: Option<Operation>,
    pub post: Option<Operation>,
}

/// What an operation's next step touches.
#[derive(Clone, Copy, PartialEq, Eq, Debug)]
pub enum Stage {
    High,
    Low,
    Length,
    Header,
    Text,
    Release,
    Test,
    Mark,
}

/// An operation of the fetch side or the post side.
pub struct Operation {
    pub stage: Stage,
    pub slot: u8,
    /// The slot's high word as read.
    pub high: u16,
    /// The address of text-4.
    pub envelope: u32,
    /// The length as read by a fetch; it may be over 60 until the header is looked at.
    pub size: u16,
    /// The text word touched next.
    pub at: usize,
    pub answers: bool,
    pub text: Text,
}

impl Operation {
    fn begun(slot: u8, answers: bool, text: Text) -> Self {
        Operation {
            stage: Stage::High,
            slot,
            high: 0,
            envelope: 0,
            size: text.length as u16,
            at: 0,
            answers,
            text,
        }
    }

    /// After the header, and after each text word.
    fn go_to_text(&mut self, at: usize) {
        if at < self.text.words() {
            self.stage = Stage::Text;
            self.at = at;
        } else {
            self.stage = Stage::Release;
            self.at = 0;
        }
    }

    fn text_word(&self) -> u32 {
        self.envelope + 4 + 2 * self.at as u32
    }

    /// "If F was 1": the stage that follows the high-word write, if any does.
    fn tail(&self, area: &Area, ring: Ring) -> Option<Stage> {
        if self.high & words::FLAG == 0 {
            None
        } else if area.slots(ring) == 1 {
            // "In a ring of one slot the test makes no read and always succeeds."
            Some(Stage::Mark)
        } else {
            Some(Stage::Test)
        }
    }
}

/// What ends an operation otherwise than by its own last step.
enum Stop {
    Refused(Refusal),
    Fatal(Fatal),
}

impl From<Fatal> for Stop {
    fn from(code: Fatal) -> Self {
        Stop::Fatal(code)
    }
}

impl Port {
    /// "at creation, limit not 1 to 64 (the port handed back has limit 1)" is refusal 11.
    pub fn create(nv: bool, qb: bool, di: bool, version: u8, limit: u8) -> (Port, Reply) {
        let good = (1..=64).contains(&limit);
        let port = Port {
            nv,
            qb,
            di,
            version,
            limit: if good { limit } else { 1 },
            phase: Phase::Step1,
        };
        let reply = if good {
            Reply::DONE
        } else {
            Reply::Refused(Refusal::BadSetting)
        };
        (port, reply)
    }

    /// "Any write to IP, at any time, puts it there and forgets all but what creation gave".
    pub fn write_ip(&mut self) {
        self.phase = Phase::Step1;
    }

    pub fn read_sa(&self) -> u16 {
        match &self.phase {
            Phase::Step1 => words::step_1_shown(self.nv, self.qb, self.di),
            Phase::Wrap(shown) => *shown,
            Phase::Step2(first) => words::step_2_shown(*first),
            Phase::Step3(first, _) => words::step_3_shown(*first),
            Phase::Step4(..) => words::step_4_shown(self.version),
            Phase::Running(_) => 0,
            Phase::Fatal(code) => words::fatal_shown(*code as u16),
        }
    }

    pub fn write_sa(&mut self, word: u16, memory: &mut Memory) -> Reply {
        match self.phase {
            Phase::Step1 => {
                // "A Step 1 word without bit 15 changes nothing."
                if word & 0x8000 == 0 {
                    return Reply::DONE;
                }
                // "WR counts only if DI was shown".
                if words::wraps(word) && self.di {
                    self.phase = Phase::Wrap(word);
                    return Reply::DONE;
                }
                self.phase = Phase::Step2(word);
                Reply::Done {
                    interrupt: words::step_interrupts(word),
                }
            }
            Phase::Wrap(_) => {
                self.phase = Phase::Wrap(word);
                Reply::DONE
            }
            Phase::Step2(first) => {
                self.phase = Phase::Step3(first, word);
                Reply::Done {
                    interrupt: words::step_interrupts(first),
                }
            }
            Phase::Step3(first, second) => self.end_step_3(first, second, word, memory),
            Phase::Step4(first, second, third) => {
                // "Step 4 without GO stays in Step 4."
                if word & words::GO != 0 {
                    self.phase = Phase::Running(Running {
                        words: [first, second, third, word],
                        area: Area::of_words(first, second, third),
                        interrupts: words::vector(first) != 0,
                        fetch_slot: 0,
                        post_slot: 0,
                        owed: self.limit - 1,
                        unanswered: 0,
                        fetch: None,
                        post: None,
                    });
                }
                Reply::DONE
            }
            Phase::Running(_) | Phase::Fatal(_) => Reply::DONE,
        }
    }

    /// "The word that ends Step 3 makes the port write zeros from base-4 (from base-8 if PI) to
    /// the end of the rings."
    fn end_step_3(&mut self, first: u16, second: u16, third: u16, memory: &mut Memory) -> Reply {
        let area = Area::of_words(first, second, third);
        let interrupt = words::step_interrupts(first);
        let before = if words::purge_interrupts(second) {
            8
        } else {
            4
        };
        let cleared = area
            .base
            .checked_sub(before)
            .and_then(|start| memory.clear(start, area.end()));
        match cleared {
            Some(()) => {
                self.phase = Phase::Step4(first, second, third);
                Reply::Done { interrupt }
            }
            None => {
                self.phase = Phase::Fatal(Fatal::RingWrite);
                Reply::Fatal {
                    code: Fatal::RingWrite,
                    interrupt,
                }
            }
        }
    }

    pub fn begin_fetch(&mut self) -> Reply {
        let Phase::Running(running) = &mut self.phase else {
            return Reply::Refused(Refusal::NotRunning);
        };
        if running.fetch.is_some() {
            return Reply::Refused(Refusal::Busy);
        }
        running.fetch = Some(Operation::begun(running.fetch_slot, false, Text::EMPTY));
        Reply::Going
    }

    pub fn begin_answer(&mut self, text: &[u8]) -> Reply {
        self.begin_post(text, true)
    }

    pub fn begin_unsolicited(&mut self, text: &[u8]) -> Reply {
        self.begin_post(text, false)
    }

    fn begin_post(&mut self, text: &[u8], answers: bool) -> Reply {
        let Phase::Running(running) = &mut self.phase else {
            return Reply::Refused(Refusal::NotRunning);
        };
        if running.post.is_some() {
            return Reply::Refused(Refusal::Busy);
        }
        let Some(text) = Text::of(text) else {
            return Reply::Refused(Refusal::TooLong);
        };
        if answers && running.unanswered == 0 {
            return Reply::Refused(Refusal::NothingOpen);
        }
        running.post = Some(Operation::begun(running.post_slot, answers, text));
        Reply::Going
    }

    pub fn step_fetch(&mut self, memory: &mut Memory) -> Reply {
        let Phase::Running(running) = &mut self.phase else {
            return Reply::Refused(Refusal::NotRunning);
        };
        match running.step_fetch(self.limit, memory) {
            Ok(reply) => reply,
            Err(Stop::Refused(refusal)) => {
                running.fetch = None;
                Reply::Refused(refusal)
            }
            Err(Stop::Fatal(code)) => self.fail(code),
        }
    }

    pub fn step_post(&mut self, memory: &mut Memory) -> Reply {
        let Phase::Running(running) = &mut self.phase else {
            return Reply::Refused(Refusal::NotRunning);
        };
        match running.step_post(memory) {
            Ok(reply) => reply,
            Err(Stop::Refused(refusal)) => {
                running.post = None;
                Reply::Refused(refusal)
            }
            Err(Stop::Fatal(code)) => self.fail(code),
        }
    }

    /// "both sides end, words already written stay, only IP helps".
    fn fail(&mut self, code: Fatal) -> Reply {
        self.phase = Phase::Fatal(code);
        Reply::Fatal {
            code,
            interrupt: false,
        }
    }
}

impl Running {
    fn step_fetch(&mut self, limit: u8, memory: &mut Memory) -> Result<Reply, Stop> {
        let Some(operation) = &mut self.fetch else {
            return Err(Stop::Refused(Refusal::IdleSide));
        };
        let slot = self.area.slot(Ring::Command, operation.slot);
        match operation.stage {
            Stage::High => {
                operation.high = memory.read(slot + 2).ok_or(Fatal::RingRead)?;
                if !words::port_owns(operation.high) {
                    return Err(Stop::Refused(Refusal::Empty));
                }
                operation.stage = Stage::Low;
            }
            Stage::Low => {
                let low = memory.read(slot).ok_or(Fatal::RingRead)?;
                let text = words::text_address(low, operation.high);
                // "after the low word, the four bytes from text-4 outside memory, 1"
                operation.envelope = envelope_inside(text, 0, memory).ok_or(Fatal::EnvelopeRead)?;
                operation.stage = Stage::Length;
            }
            Stage::Length => {
                operation.size = memory.read(operation.envelope).ok_or(Fatal::EnvelopeRead)?;
                operation.stage = Stage::Header;
            }
            Stage::Header => {
                let header = memory
                    .read(operation.envelope + 2)
                    .ok_or(Fatal::EnvelopeRead)?;
                let out = limit - self.owed - self.unanswered;
                check_command(operation, header, out, memory)?;
                operation.text.length = usize::from(operation.size);
                operation.go_to_text(0);
            }
            Stage::Text => {
                let word = memory
                    .read(operation.text_word())
                    .ok_or(Fatal::EnvelopeRead)?;
                operation.text.set_word(operation.at, word);
                operation.go_to_text(operation.at + 1);
            }
            Stage::Release => {
                memory
                    .write(slot + 2, words::given_back(operation.high))
                    .ok_or(Fatal::RingWrite)?;
                self.fetch_slot = self.area.next(Ring::Command, operation.slot);
                self.unanswered += 1;
                match operation.tail(&self.area, Ring::Command) {
                    Some(stage) => operation.stage = stage,
                    None => return Ok(self.close_fetch(false)),
                }
            }
            Stage::Test => {
                if !full_before(&self.area, Ring::Command, operation.slot, memory)? {
                    return Ok(self.close_fetch(false));
                }
                operation.stage = Stage::Mark;
            }
            Stage::Mark => {
                mark(&self.area, Ring::Command, memory)?;
                return Ok(self.close_fetch(self.interrupts));
            }
        }
        Ok(Reply::Going)
    }

    fn step_post(&mut self, memory: &mut Memory) -> Result<Reply, Stop> {
        let Some(operation) = &mut self.post else {
            return Err(Stop::Refused(Refusal::IdleSide));
        };
        let slot = self.area.slot(Ring::Response, operation.slot);
        match operation.stage {
            Stage::High => {
                operation.high = memory.read(slot + 2).ok_or(Fatal::RingRead)?;
                if !words::port_owns(operation.high) {
                    return Err(Stop::Refused(Refusal::NoSlot));
                }
                operation.stage = Stage::Low;
            }
            Stage::Low => {
                let low = memory.read(slot).ok_or(Fatal::RingRead)?;
                let text = words::text_address(low, operation.high);
                // "Post checks, after the low word, from text-4 to its last text word: outside, 2"
                operation.envelope =
                    envelope_inside(text, operation.size, memory).ok_or(Fatal::EnvelopeWrite)?;
                operation.stage = Stage::Length;
            }
            Stage::Length => {
                memory
                    .write(operation.envelope, operation.size)
                    .ok_or(Fatal::EnvelopeWrite)?;
                operation.stage = Stage::Header;
            }
            Stage::Header => {
                let credits = credits_carried(operation.answers, self.owed);
                memory
                    .write(operation.envelope + 2, u16::from(credits))
                    .ok_or(Fatal::EnvelopeWrite)?;
                operation.go_to_text(0);
            }
            Stage::Text => {
                memory
                    .write(operation.text_word(), operation.text.word(operation.at))
                    .ok_or(Fatal::EnvelopeWrite)?;
                operation.go_to_text(operation.at + 1);
            }
            Stage::Release => {
                memory
                    .write(slot + 2, words::given_back(operation.high))
                    .ok_or(Fatal::RingWrite)?;
                self.post_slot = self.area.next(Ring::Response, operation.slot);
                if operation.answers {
                    // "reduces what is still to grant by one less than it carries"
                    self.owed -= credits_carried(true, self.owed) - 1;
                    self.unanswered -= 1;
                }
                match operation.tail(&self.area, Ring::Response) {
                    Some(stage) => operation.stage = stage,
                    None => return Ok(self.close_post(false)),
                }
            }
            Stage::Test => {
                if !full_before(&self.area, Ring::Response, operation.slot, memory)? {
                    return Ok(self.close_post(false));
                }
                operation.stage = Stage::Mark;
            }
            Stage::Mark => {
                mark(&self.area, Ring::Response, memory)?;
                return Ok(self.close_post(self.interrupts));
            }
        }
        Ok(Reply::Going)
    }

    fn close_fetch(&mut self, interrupt: bool) -> Reply {
        match self.fetch.take() {
            Some(operation) => Reply::Delivered {
                text: operation.text,
                interrupt,
            },
            None => Reply::Done { interrupt },
        }
    }

    fn close_post(&mut self, interrupt: bool) -> Reply {
        self.post = None;
        Reply::Done { interrupt }
    }
}

/// The address of text-4 if all of the envelope with `size` bytes of text is inside.
fn envelope_inside(text: u32, size: u16, memory: &Memory) -> Option<u32> {
    let words = u64::from(size).div_ceil(2);
    let envelope = text.checked_sub(4)?;
    (u64::from(text) + 2 * words <= memory.end()).then_some(envelope)
}

/// "Fetch checks, in order: .. after the header".
fn check_command(
    operation: &Operation,
    header: u16,
    out: u8,
    memory: &Memory,
) -> Result<(), Fatal> {
    if words::kind(header) != 0 {
        Err(Fatal::Incompatible)
    } else if words::connection(header) != 0 {
        Err(Fatal::InvalidConnection)
    } else if usize::from(operation.size) > words::TEXT {
        Err(Fatal::Incompatible)
    } else if envelope_inside(operation.envelope + 4, operation.size, memory).is_none() {
        Err(Fatal::EnvelopeRead)
    } else if out == 0 {
        Err(Fatal::CreditLimit)
    } else {
        Ok(())
    }
}

/// "Each posted answer to a command carries 1 + (still to grant), at most 15"; "An unsolicited
/// message carries 0".
fn credits_carried(answers: bool, owed: u8) -> u8 {
    if answers {
        (1 + owed).min(15)
    } else {
        0
    }
}

/// "read the previous slot's high word": whether O=1 there.
fn full_before(area: &Area, ring: Ring, slot: u8, memory: &Memory) -> Result<bool, Fatal> {
    let before = area.slot(ring, area.previous(ring, slot));
    let high = memory.read(before + 2).ok_or(Fatal::RingRead)?;
    Ok(words::port_owns(high))
}

/// "write 1 to the ring's indicator"; outside it is chapter 7's "015 Interrupt Write".
fn mark(area: &Area, ring: Ring, memory: &mut Memory) -> Result<(), Fatal> {
    area.indicator(ring)
        .and_then(|address| memory.write(address, 1))
        .ok_or(Fatal::InterruptWrite)
}
