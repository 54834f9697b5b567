//! The writer plays each line on a scene of its own, so that it knows what is under way and can
//! choose what makes progress.

use crate::area::{Area, Ring};
use crate::host::{Finished, Host, SendStage, TakeStage};
use crate::port::{Phase, Running, Stage};
use crate::random::Random;
use crate::reply::Act;
use crate::script::{Answer, Call, Scene};

/// Limits that lead to each kind of credit walk.
pub(super) const LIMITS: [u8; 6] = [1, 15, 16, 17, 28, 64];

#[derive(Clone, Copy, PartialEq, Eq)]
pub(super) enum Side {
    Send,
    Take,
    Fetch,
    Post,
}

pub(super) const SIDES: [Side; 4] = [Side::Send, Side::Fetch, Side::Post, Side::Take];

/// Where everything stands in a script.
#[derive(Clone, Copy)]
pub(super) struct Plan {
    pub(super) command: u8,
    pub(super) response: u8,
    pub(super) ie: bool,
    pub(super) vector: u8,
    pub(super) base: u32,
    pub(super) pool: u32,
    pub(super) length: u32,
    pub(super) limit: u8,
}

impl Plan {
    pub(super) fn slots(&self) -> u32 {
        (1 << self.command) + (1 << self.response)
    }
}

/// Writes a script, line by line.
pub(super) struct Writer<'a> {
    pub(super) random: &'a mut Random,
    pub(super) scene: Scene,
    pub(super) lines: Vec<String>,
}

impl Writer<'_> {
    /// Writes a line and plays it.
    pub(super) fn say(&mut self, line: impl Into<String>) -> Answer {
        let line = line.into();
        let call = Call::parse(line.as_bytes()).expect("the writer writes calls only");
        let mut answer = Answer::Nothing;
        for _ in 0..call.times() {
            answer = self.scene.make(&call);
        }
        self.lines.push(line);
        answer
    }

    // ---- what is under way ----

    pub(super) fn running(&self) -> Option<&Running> {
        match &self.scene.port.phase {
            Phase::Running(running) => Some(running),
            _ => None,
        }
    }

    pub(super) fn finished(&self) -> Option<&Finished> {
        match &self.scene.host {
            Host::Finished(half) => Some(half),
            _ => None,
        }
    }

    pub(super) fn busy(&self, side: Side) -> bool {
        match side {
            Side::Send => self.finished().is_some_and(|half| half.send.is_some()),
            Side::Take => self.finished().is_some_and(|half| half.take.is_some()),
            Side::Fetch => self.running().is_some_and(|half| half.fetch.is_some()),
            Side::Post => self.running().is_some_and(|half| half.post.is_some()),
        }
    }

    /// The address that a side's next step touches, so that memory can end just there.
    pub(super) fn next_touch(&self, side: Side) -> Option<u32> {
        if matches!(side, Side::Send | Side::Take) {
            let half = self.finished()?;
            let [first, second, third] = half.words;
            let area = Area::of_words(first, second, third);
            return Some(match side {
                Side::Send => {
                    let send = half.send.as_ref()?;
                    let before = area.slots(Ring::Response) + u32::from(send.slot);
                    let envelope = half.pool + 64 * before;
                    let descriptor = area.slot(Ring::Command, send.slot);
                    match send.stage {
                        SendStage::High | SendStage::Release => descriptor + 2,
                        SendStage::Low => descriptor,
                        SendStage::Length => envelope,
                        SendStage::Header => envelope + 2,
                        SendStage::Text => envelope + 4 + 2 * send.at as u32,
                    }
                }
                _ => {
                    let take = half.take.as_ref()?;
                    let envelope = half.pool + 64 * u32::from(take.slot);
                    match take.stage {
                        TakeStage::High | TakeStage::Release => {
                            area.slot(Ring::Response, take.slot) + 2
                        }
                        TakeStage::Length | TakeStage::Refill => envelope,
                        TakeStage::Header => envelope + 2,
                        TakeStage::Text => envelope + 4 + 2 * take.at as u32,
                    }
                }
            });
        }
        let half = self.running()?;
        let area = Area::of_words(half.words[0], half.words[1], half.words[2]);
        let (ring, operation) = match side {
            Side::Fetch => (Ring::Command, half.fetch.as_ref()?),
            _ => (Ring::Response, half.post.as_ref()?),
        };
        let descriptor = area.slot(ring, operation.slot);
        Some(match operation.stage {
            Stage::High | Stage::Release => descriptor + 2,
            Stage::Low => descriptor,
            Stage::Length => operation.envelope,
            Stage::Header => operation.envelope + 2,
            Stage::Text => operation.envelope + 4 + 2 * operation.at as u32,
            Stage::Test => area.slot(ring, area.previous(ring, operation.slot)) + 2,
            Stage::Mark => area.indicator(ring)?,
        })
    }

    // ---- choices ----

    pub(super) fn limit(&mut self) -> u8 {
        if self.random.chance(75) {
            self.random.pick(&LIMITS)
        } else {
            self.random.from(1, 64) as u8
        }
    }

    pub(super) fn exponent(&mut self) -> u8 {
        if self.random.chance(55) {
            self.random.pick(&[0, 0, 1, 1, 2, 3])
        } else {
            self.random.below(8) as u8
        }
    }

    pub(super) fn vector(&mut self) -> u8 {
        match self.random.below(4) {
            0 => 0,
            1 => 127,
            _ => self.random.below(128) as u8,
        }
    }

    /// Rings and pool in either order, with gaps, in a memory that just holds them or more.
    pub(super) fn plan(&mut self) -> Plan {
        let (command, response) = (self.exponent(), self.exponent());
        self.plan_with(command, response)
    }

    /// The same with exponents below these.
    pub(super) fn plan_below(&mut self, command: u32, response: u32) -> Plan {
        let command = self.random.below(command) as u8;
        let response = self.random.below(response) as u8;
        self.plan_with(command, response)
    }

    pub(super) fn plan_with(&mut self, command: u8, response: u8) -> Plan {
        let slots = (1 << command) + (1 << response);
        let first_gap = 2 * self.random.pick(&[0, 0, 1, 2, 3, 9]);
        let second_gap = 2 * self.random.pick(&[0, 0, 1, 2, 11]);
        let (base, pool, end) = if self.random.chance(65) {
            let base = 4 + first_gap;
            let pool = base + 4 * slots + second_gap;
            (base, pool, pool + 64 * slots)
        } else {
            let pool = first_gap;
            let base = pool + 64 * slots + second_gap + 4;
            (base, pool, base + 4 * slots)
        };
        Plan {
            command,
            response,
            ie: self.random.chance(50),
            vector: self.vector(),
            base,
            pool,
            length: end + self.random.pick(&[0, 0, 1, 2, 3, 64, 101]),
            limit: self.limit(),
        }
    }

    pub(super) fn text(&mut self) -> String {
        let size = match self.random.below(10) {
            0..=3 => self.random.pick(&[0, 1, 2, 3, 4]),
            4..=6 => self.random.pick(&[0, 1, 2, 59, 60]),
            7 => self.random.pick(&[60, 61]),
            _ => self.random.below(62),
        };
        self.text_of(size)
    }

    pub(super) fn text_of(&mut self, size: u32) -> String {
        if size == 0 {
            return "-".to_string();
        }
        let plain = self.random.chance(80);
        (0..size)
            .map(|_| {
                let byte = if plain || self.random.chance(30) {
                    self.random.below(256)
                } else {
                    0
                };
                format!("{byte:02x}")
            })
            .collect()
    }

    pub(super) fn number(&mut self, value: u32) -> String {
        if self.random.chance(20) {
            format!("0x{value:x}")
        } else {
            value.to_string()
        }
    }

    // ---- parts of scripts ----

    pub(super) fn create(&mut self, limit: u8) {
        let bits: Vec<u32> = (0..3).map(|_| self.random.below(2)).collect();
        let version = self.random.below(256);
        let line = format!(
            "create {} {} {} {version} {limit}",
            bits[0], bits[1], bits[2]
        );
        self.say(line);
    }

    pub(super) fn begin_host(&mut self, plan: &Plan) -> Answer {
        self.say(format!(
            "begin {} {} {} {} {}",
            plan.command,
            plan.response,
            u8::from(plan.ie),
            plan.vector,
            plan.base
        ))
    }

    /// A handshake; `trouble` is how many of a hundred words go wrong.
    pub(super) fn meet(&mut self, plan: &Plan, trouble: u32) {
        let mut answer = self.begin_host(plan);
        for _ in 0..30 {
            match answer {
                Answer::Act(Act::WriteIp) => {
                    self.say("write-ip");
                }
                Answer::Act(Act::WriteSa(word)) => {
                    let word = if self.random.chance(trouble / 2) {
                        self.other_host_word(word)
                    } else {
                        word
                    };
                    self.say(format!("write-sa 0x{word:04x}"));
                }
                Answer::Act(Act::Dead | Act::None | Act::PortFailed(_)) => return,
                _ => {}
            }
            if self.finished().is_some() {
                return;
            }
            if self.random.chance(15) {
                self.say("read-sa");
            }
            let shown = self.scene.port.read_sa();
            answer = if !self.random.chance(trouble) {
                self.say(format!("sa-seen 0x{shown:04x}"))
            } else if self.random.chance(15) {
                self.say("time-is-up")
            } else {
                let word = self.other_port_word(shown);
                self.say(format!("sa-seen 0x{word:04x}"))
            };
        }
    }

    /// What somebody else might write to SA instead.
    pub(super) fn other_host_word(&mut self, word: u16) -> u16 {
        match self.random.below(7) {
            0 => word ^ 1,
            1 => word ^ 0x8000,
            2 => word | 0x4000,
            3 => word ^ 1 << self.random.below(16),
            4 => word & 0x7FFF,
            5 => word | 0x7FFC,
            _ => self.random.word(),
        }
    }

    /// What a broken port might show.
    pub(super) fn other_port_word(&mut self, shown: u16) -> u16 {
        match self.random.below(11) {
            0 => shown ^ 1 << self.random.below(8),
            1 => shown | 0x8000,
            2 => shown | 0x0800 << self.random.below(4),
            3 => shown >> 1,
            4 => shown & 0x87FF,
            5 => shown & 0x07FF | 0x0800 << self.random.below(4),
            6 => shown ^ 0x0100 << self.random.below(3),
            7 => 0,
            8 => 0x8000 | self.random.below(2048) as u16,
            9 => (shown & 0x7800) >> 1,
            _ => self.random.word(),
        }
    }

    /// The port is started anew by words with PI, PP and bits that are not used.
    fn meet_with_more_bits(&mut self, plan: &Plan) {
        let Some([first, second, third]) = self.finished().map(|half| half.words) else {
            return;
        };
        if self.random.chance(60) {
            self.say("fill 0xff");
        }
        let unused = self.random.pick(&[0, 0x8000, 0x7FFC, 0xFFFC]);
        let go = 1 | self.random.word();
        self.say("write-ip");
        self.say(format!("write-sa {first}"));
        self.say(format!("write-sa {}", second | 1));
        self.say(format!("write-sa {}", third | unused));
        self.say(format!("write-sa {go}"));
        if self.running().is_none() && self.random.chance(50) {
            self.meet(plan, 0);
        }
    }

    pub(super) fn open_with(&mut self, plan: &Plan) {
        let line = format!("memory {}", plan.length);
        self.say(line);
        if self.random.chance(25) {
            let value = self.random.below(256);
            self.say(format!("fill {value}"));
        }
        self.create(plan.limit);
        self.meet(plan, 0);
        if self.random.chance(12) {
            self.meet_with_more_bits(plan);
        }
        if self.random.chance(15) {
            // "A port polling in between finds zeros".
            self.say("begin-fetch");
            self.say("step-fetch");
            self.say("begin-unsolicited 01");
            if self.random.chance(50) {
                self.say("step-post");
            }
        }
        self.say(format!("set-up {}", plan.pool));
    }

    pub(super) fn step(&mut self, side: Side, times: u32) {
        let call = match side {
            Side::Send => "step-send",
            Side::Take => "step-take",
            Side::Fetch => "step-fetch",
            Side::Post => "step-post",
        };
        self.say(if times == 1 {
            call.to_string()
        } else {
            format!("{call} {times}")
        });
    }

    pub(super) fn begin_side(&mut self, side: Side) {
        let line = match side {
            Side::Send => {
                let flag = self.random.below(2);
                format!("begin-send {flag} {}", self.text())
            }
            Side::Take => "begin-take".to_string(),
            Side::Fetch => "begin-fetch".to_string(),
            Side::Post => {
                let open = self.running().is_some_and(|half| half.unanswered > 0);
                if self.random.chance(if open { 85 } else { 15 }) {
                    format!("begin-answer {}", self.text())
                } else {
                    format!("begin-unsolicited {}", self.text())
                }
            }
        };
        self.say(line);
    }

    /// Whether beginning on this side would lead somewhere.
    pub(super) fn promises(&self, side: Side) -> bool {
        let (Some(port), Some(host)) = (self.running(), self.finished()) else {
            return false;
        };
        let area = Area::of_words(port.words[0], port.words[1], port.words[2]);
        let owned = |ring, slot| self.word_at(area.slot(ring, slot) + 2) & 0x8000 != 0;
        match side {
            Side::Send => host.account > 0 && !owned(Ring::Command, host.send_slot),
            Side::Fetch => owned(Ring::Command, port.fetch_slot),
            Side::Post => owned(Ring::Response, port.post_slot) && port.unanswered > 0,
            Side::Take => host.ready && !owned(Ring::Response, host.take_slot),
        }
    }

    /// Steps a busy side, or begins an idle one and mostly steps it on.
    pub(super) fn further(&mut self) {
        let mut side = self.random.pick(&SIDES);
        for _ in 0..4 {
            if self.busy(side) || self.promises(side) || self.random.chance(10) {
                break;
            }
            side = self.random.pick(&SIDES);
        }
        if !self.busy(side) {
            self.begin_side(side);
            if self.random.chance(20) {
                return;
            }
        }
        match self.random.below(8) {
            0..=2 => self.step(side, 1),
            3 => self.step(side, 2),
            4 => {
                let times = self.random.from(3, 12);
                self.step(side, times);
            }
            _ => {
                // What is left of the operation, rather than refusals for an idle side.
                for _ in 0..7 {
                    if self.busy(side) {
                        let left = self.steps_left(side);
                        self.step(side, left);
                    }
                }
            }
        }
    }

    /// At most as many steps as the operation surely has left.
    pub(super) fn steps_left(&self, side: Side) -> u32 {
        let words = |size: u16, at: usize| u32::from(size.min(60)).div_ceil(2) - at as u32;
        let left = match side {
            Side::Send => self.finished().and_then(|half| {
                let send = half.send.as_ref()?;
                let words = words(send.text.length as u16, send.at);
                Some(match send.stage {
                    SendStage::High => 1,
                    SendStage::Length => words + 4,
                    SendStage::Header => words + 3,
                    SendStage::Text => words + 2,
                    SendStage::Low => 2,
                    SendStage::Release => 1,
                })
            }),
            Side::Take => self.finished().and_then(|half| {
                let take = half.take.as_ref()?;
                Some(match take.stage {
                    TakeStage::Text => words(take.size, take.at) + 2,
                    TakeStage::Refill => 2,
                    TakeStage::Length => 2,
                    _ => 1,
                })
            }),
            Side::Fetch | Side::Post => self.running().and_then(|half| {
                let operation = match side {
                    Side::Fetch => half.fetch.as_ref()?,
                    _ => half.post.as_ref()?,
                };
                Some(match operation.stage {
                    Stage::Text => words(operation.size, operation.at) + 1,
                    Stage::Low if side == Side::Post => words(operation.size, 0) + 4,
                    Stage::Low => 3,
                    Stage::Length => 2,
                    _ => 1,
                })
            }),
        };
        left.unwrap_or(1)
    }

    /// A call that is refused, or one that says nothing new.
    pub(super) fn aside(&mut self) {
        match self.random.below(15) {
            0 => {
                self.say("clear-command");
            }
            1 => {
                self.say("clear-response");
            }
            2 => {
                self.say("read-sa");
            }
            3 => {
                let shown = self.scene.port.read_sa();
                self.say(format!("sa-seen 0x{shown:04x}"));
            }
            4 => {
                let word = self.random.word();
                self.say(format!("write-sa {word}"));
            }
            5 => {
                self.say("time-is-up");
            }
            6 | 7 => {
                let size = self.random.from(61, 64);
                let text = self.text_of(size);
                let call = self.random.pick(&[
                    "begin-send 0",
                    "begin-send 1",
                    "begin-answer",
                    "begin-unsolicited",
                ]);
                self.say(format!("{call} {text}"));
            }
            8 => {
                let side = self.random.pick(&SIDES);
                self.begin_side(side);
            }
            9 => {
                let side = self.random.pick(&SIDES);
                if !self.busy(side) {
                    self.step(side, 1);
                }
            }
            10 => {
                let text = self.text();
                self.say(format!("begin-answer {text}"));
            }
            11 => {
                let at = self.random.below(self.scene.lent as u32 + 4);
                let count = self.random.below(65);
                self.say(format!("peek {at} {count}"));
            }
            12 => {
                let word = self.random.word();
                self.say(format!("sa-seen {word}"));
            }
            13 => {
                // A second setup, refused as long as a side is busy.
                if let Some(pool) = self.finished().map(|half| half.pool) {
                    self.say(format!("set-up {pool}"));
                }
            }
            _ => {
                let word = self.random.word();
                let line = format!("sa-seen 0x{:04x}", word | 0x8000);
                self.say(line);
            }
        }
    }
}
