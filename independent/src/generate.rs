//! Random scripts and schedules.

mod damage;
mod spoiled;
mod writer;

pub use spoiled::spoiled;

use crate::host::Host;
use crate::memory;
use crate::random::Random;
use crate::reply::Reply;
use crate::script::{Answer, Scene};
use writer::{Plan, Side, Writer, LIMITS};

/// A random script of one of the families; it begins with `new`.
pub fn script(random: &mut Random) -> String {
    let mut writer = Writer {
        random,
        scene: Scene::new(),
        lines: Vec::new(),
    };
    writer.say("new");
    match writer.random.below(100) {
        0..=37 => writer.clean(),
        38..=62 => writer.damaged(),
        63..=70 => writer.any_calls(),
        71..=83 => writer.handshakes(),
        84..=87 => writer.account(),
        88..=96 => writer.edges(),
        97 => writer.long_run(),
        _ => writer.far_end(),
    }
    // "a line may end with CR LF as well"
    let end = if writer.random.chance(10) {
        "\r\n"
    } else {
        "\n"
    };
    writer.lines.join(end) + end
}

/// The families of scripts.
impl Writer<'_> {
    /// Fewer calls where each line sums up a larger memory.
    fn calls_for(&mut self, plan: &Plan, low: u32, high: u32) -> u32 {
        let calls = self.random.from(low, high);
        match plan.length {
            0..=4095 => calls,
            4096..=9999 => calls.min(160),
            10_000..=16_383 => calls.min(100),
            _ => calls.min(50),
        }
    }

    /// Traffic after a real handshake; nobody else writes.
    fn clean(&mut self) {
        let plan = self.plan();
        let calls = self.calls_for(&plan, 50, 400);
        self.open_with(&plan);
        let asides = self.random.pick(&[0, 5, 12, 25]);
        let restarts = self.random.chance(25);
        while self.lines.len() < calls as usize {
            if restarts && self.random.chance(1) {
                self.restart(&plan);
            } else if self.random.chance(asides) {
                self.aside();
            } else {
                self.further();
            }
        }
    }

    /// Enough rounds to come to the end of the longer ring and to begin it anew.
    fn long_run(&mut self) {
        let plan = if self.random.chance(50) {
            self.plan_below(2, 8)
        } else {
            self.plan_below(8, 2)
        };
        self.open_with(&plan);
        let rounds = (1 << plan.command.max(plan.response)) + 3;
        for round in 0..rounds {
            let flag = self.random.below(2);
            self.say(format!("begin-send {flag} {round:02x}"));
            self.step(Side::Send, 6);
            self.say("begin-fetch");
            self.step(Side::Fetch, 6);
            self.say(format!("begin-answer {round:02x}"));
            self.step(Side::Post, 7);
            for side in [Side::Fetch, Side::Post] {
                while self.busy(side) {
                    self.step(side, 1);
                }
            }
            self.say("begin-take");
            self.step(Side::Take, 6);
        }
    }

    fn restart(&mut self, plan: &Plan) {
        match self.random.below(5) {
            0 => {
                self.say(format!("set-up {}", plan.pool));
            }
            1 => {
                self.say("write-ip");
            }
            2 => {
                self.begin_host(plan);
            }
            _ => {
                let trouble = self.random.pick(&[0, 0, 5]);
                self.meet(plan, trouble);
                self.say(format!("set-up {}", plan.pool));
            }
        }
    }

    /// The same with memory written and cut by others.
    fn damaged(&mut self) {
        let plan = self.plan();
        let calls = self.calls_for(&plan, 50, 250);
        self.open_with(&plan);
        let damage = self.random.pick(&[3, 8, 20]);
        while self.lines.len() < calls as usize {
            let stopped = self.running().is_none() || !self.finished().is_some_and(|h| h.ready);
            if stopped && self.random.chance(60) {
                if self.random.chance(90) {
                    let length = plan.length;
                    self.say(format!("memory {length}"));
                }
                self.meet(&plan, 0);
                self.say(format!("set-up {}", plan.pool));
            } else if self.random.chance(damage) {
                self.damage(&plan);
            } else if self.scene.lent < plan.length as usize && self.random.chance(30) {
                let length = plan.length;
                self.say(format!("memory {length}"));
            } else if self.random.chance(8) {
                self.aside();
            } else {
                self.further();
            }
        }
    }

    /// The account climbs to its end by credits that the port never granted.
    fn account(&mut self) {
        let plan = self.plan_below(3, 3);
        self.open_with(&plan);
        let gifts = self.random.from(15, 24);
        for _ in 0..gifts {
            if self.random.chance(30) {
                self.further();
            }
            self.gift(&plan, false);
        }
        for _ in 0..6 {
            self.gift(&plan, true);
            self.further();
        }
    }

    /// Calls drawn without looking at what is under way.
    fn any_calls(&mut self) {
        let plan = self.plan_below(1, 2);
        if self.random.chance(60) {
            self.open_with(&plan);
        }
        for _ in 0..self.random.from(50, 160) {
            let line = self.any_call(&plan);
            self.say(line);
        }
    }

    fn any_call(&mut self, plan: &Plan) -> String {
        let word = self.random.word();
        let text = self.text();
        match self.random.below(30) {
            0 => format!("memory {}", self.random.below(plan.length + 9)),
            1 => format!("memory {}", plan.length),
            2 => format!("fill {}", self.random.pick(&[0, 1, 64, 128, 192, 255])),
            3 => format!("poke {} {word}", self.random.below(plan.length + 2)),
            4 => format!("peek {} 16", self.random.below(plan.length)),
            5 => {
                let bits = self.random.below(8);
                format!(
                    "create {} {} {} {} {}",
                    bits & 1,
                    bits >> 1 & 1,
                    bits >> 2,
                    word >> 8,
                    self.random.below(70)
                )
            }
            6 => "write-ip".to_string(),
            7 => "read-sa".to_string(),
            8 | 9 => format!("write-sa 0x{word:04x}"),
            10 => format!("write-sa {}", self.random.pick(&[0x8000, 0x8001, 8, 0, 1])),
            11 | 12 => "begin-fetch".to_string(),
            13 | 14 => format!("step-fetch {}", self.random.from(0, 5)),
            15 => format!("begin-answer {text}"),
            16 => format!("begin-unsolicited {text}"),
            17 | 18 => format!("step-post {}", self.random.from(1, 5)),
            19 => format!(
                "begin {} {} {} {} {}",
                self.random.below(9),
                self.random.below(9),
                self.random.below(2),
                self.random.below(130),
                self.random.pick(&[0, 2, 4, 7, 8, 0x3FFFE, 0x40000])
            ),
            20 => {
                let shown = self.scene.port.read_sa();
                format!("sa-seen 0x{shown:04x}")
            }
            21 => format!("sa-seen {word}"),
            22 => "time-is-up".to_string(),
            23 => format!("set-up {}", self.random.pick(&[0, 8, 24, 25, plan.pool])),
            24 | 25 => format!("begin-send {} {text}", word & 1),
            26 => format!("step-send {}", self.random.from(1, 5)),
            27 => "begin-take".to_string(),
            28 => format!("step-take {}", self.random.from(1, 5)),
            _ => self
                .random
                .pick(&["clear-command", "clear-response"])
                .to_string(),
        }
    }

    /// Handshakes that go wrong on either side.
    fn handshakes(&mut self) {
        for _ in 0..self.random.from(2, 7) {
            let mut plan = self.plan_below(8, 8);
            // Small memories, whether the rings fit or not.
            plan.length = self.random.pick(&[0, 1, 64, 600, 1100, 1103]);
            let rings = 4 * plan.slots();
            plan.base = match self.random.below(10) {
                0 => 0,
                1 => 2,
                2 => 4,
                3 => 6,
                4 => 8,
                5 => plan.length.saturating_sub(rings) & !1,
                6 => (plan.length.saturating_sub(rings) & !1) + 2,
                7 => self.random.below(0x40000) & !1,
                8 => self
                    .random
                    .pick(&[1, 7, 0x3FFFE, 0x3FFFF, 0x40000, 0x40001, 0xFFFF_FFFE]),
                _ => 2 * self.random.below(20),
            };
            if self.random.chance(10) {
                plan.command = self.random.pick(&[7, 8, 255]);
            }
            if self.random.chance(10) {
                plan.vector = self.random.pick(&[0, 127, 128, 255]);
            }
            self.say(format!("memory {}", plan.length));
            if self.random.chance(40) {
                self.say("fill 0xa5");
            }
            if self.random.chance(20) {
                let limit = self.random.pick(&[0, 1, 64, 65, 255]);
                self.create(limit);
            } else {
                let limit = self.limit();
                self.create(limit);
            }
            match self.random.below(5) {
                0 => self.port_alone(),
                1 => self.host_alone(&plan),
                _ => {
                    let trouble = self.random.pick(&[0, 8, 20, 40]);
                    self.meet(&plan, trouble);
                }
            }
            for _ in 0..self.random.below(6) {
                self.aside();
            }
            if self.random.chance(30) {
                let pool = self.random.below(plan.length + 4);
                self.say(format!("set-up {pool}"));
            }
        }
    }

    /// The port is written to by hand, wrap and PI among it.
    fn port_alone(&mut self) {
        for _ in 0..self.random.from(3, 14) {
            let word = self.random.word();
            let line = match self.random.below(10) {
                0 => "write-ip".to_string(),
                1 => format!("write-sa 0x{:04x}", word & 0x7FFF),
                2 => format!("write-sa 0x{:04x}", word | 0xC000),
                3 | 4 => format!("write-sa 0x{:04x}", word & 0x3F | 0x8080),
                5 => format!("write-sa {}", self.random.pick(&[4, 5, 8, 9, 0x4005])),
                6 => format!("write-sa {}", self.random.pick(&[0, 1, 0x8000, 0x7FFC])),
                7 => format!("write-sa {word}"),
                _ => "read-sa".to_string(),
            };
            self.say(line);
        }
    }

    /// The host sees words that no port shows.
    fn host_alone(&mut self, plan: &Plan) {
        if self.random.chance(80) {
            self.begin_host(plan);
        }
        for _ in 0..self.random.from(3, 14) {
            let line = match (&self.scene.host, self.random.below(8)) {
                (Host::Expecting(expecting), 0..=4) => {
                    let echo = match expecting.step {
                        2 => expecting.words[0] >> 8,
                        3 => expecting.words[0] & 0xFF,
                        _ => self.random.word() & 0xFF,
                    };
                    let step = 0x0800u16 << (expecting.step - 1);
                    let reserved = (self.random.word() & 7) << 8;
                    format!("sa-seen 0x{:04x}", step | echo | reserved)
                }
                (Host::Expecting(expecting), 5) => {
                    format!("sa-seen 0x{:04x}", 0x0400u16 << (expecting.step - 1))
                }
                (_, 6) => "time-is-up".to_string(),
                _ => {
                    let word = self.random.word();
                    let word = self.other_port_word(word);
                    format!("sa-seen {word}")
                }
            };
            self.say(line);
        }
        if self.random.chance(60) {
            self.say("clear-command");
            self.say("clear-response");
        }
    }

    /// One slot or two, full and empty rings, pools that do not fit, memory that ends early.
    fn edges(&mut self) {
        let (command, response) = (
            self.random.pick(&[0, 0, 1]) as u8,
            self.random.pick(&[0, 0, 1]) as u8,
        );
        let mut plan = self.plan_with(command, response);
        if self.random.chance(30) {
            self.say(format!("memory {}", plan.length));
            let limit = self.random.pick(&[0, 65]);
            self.create(limit);
        }
        self.open_with(&plan);
        for _ in 0..self.random.from(1, 4) {
            let rings = plan.base + 4 * plan.slots();
            let pool = self.random.pick(&[
                plan.pool + 1,
                plan.pool + 2,
                plan.pool.wrapping_sub(2),
                rings - 2,
                rings,
                plan.base.wrapping_sub(4 + 64 * plan.slots()),
                plan.base.wrapping_sub(2 + 64 * plan.slots()),
                (plan.length & !1) - 64 * plan.slots(),
                (plan.length & !1) - 64 * plan.slots() + 2,
                u32::MAX - 1,
                0x40000,
            ]);
            if self.say(format!("set-up {pool}")) == Answer::Reply(Reply::DONE) {
                plan.pool = pool;
            }
        }
        self.say(format!("set-up {}", plan.pool));
        // Fill the response ring with messages, and the command ring as far as credits go.
        for _ in 0..(1 << plan.response) + self.random.below(2) {
            let size = self.random.pick(&[0, 1, 2, 59, 60, 61]);
            let text = self.text_of(size);
            self.say(format!("begin-unsolicited {text}"));
            let steps = 8 + size.div_ceil(2) - self.random.below(2);
            self.step(Side::Post, steps);
        }
        for _ in 0..2 {
            let size = self.random.pick(&[0, 1, 2, 59, 60, 61]);
            let text = self.text_of(size);
            let flag = self.random.below(2);
            self.say(format!("begin-send {flag} {text}"));
            self.step(Side::Send, 5 + size.div_ceil(2));
        }
        let calls = self.lines.len() as u32 + self.random.from(20, 120);
        while (self.lines.len() as u32) < calls {
            if self.running().is_none() && self.random.chance(50) {
                let length = plan.length;
                self.say(format!("memory {length}"));
                self.meet(&plan, 0);
                self.say(format!("set-up {}", plan.pool));
            }
            match self.random.below(10) {
                0 if self.random.chance(50) => self.cut_the_mark(&plan),
                0 => self.end_at_touch(&plan),
                1 => self.aside(),
                2 => {
                    // A full command ring with an account that would allow more.
                    self.gift(&plan, true);
                }
                _ => self.further(),
            }
        }
    }

    /// Areas near the 18-bit end of a large memory; few calls, since each sums it all up.
    fn far_end(&mut self) {
        let mut plan = self.plan_below(2, 2);
        let end = memory::END as u32;
        let used = (plan.base + 4 * plan.slots()).max(plan.pool + 64 * plan.slots());
        let wanted = match self.random.below(6) {
            0 | 1 => end + 2 * self.random.below(4),
            2 => 0x10000 + used / 2,
            3 => 0x20000 + used / 2,
            _ => end - 2 * self.random.below(3),
        };
        let shift = (wanted - used) & !1;
        plan.base += shift;
        plan.pool += shift;
        plan.length = self.random.pick(&[
            262_143, 262_144, 262_145, 262_146, 262_400, 262_400, 262_400,
        ]);
        self.open_with(&plan);
        let last = end - 64 * plan.slots();
        let pool = last + 2 - 2 * self.random.below(3);
        self.say(format!("set-up {pool}"));
        self.say(format!("set-up {}", plan.pool));
        for _ in 0..self.random.from(3, 8) {
            self.further();
        }
        self.far_text();
        self.end_at_touch(&plan);
        self.further();
    }
}

/// A schedule's input: mostly good, of any length.
pub fn schedule(random: &mut Random) -> Vec<u8> {
    let exponent = |random: &mut Random| {
        if random.chance(60) {
            random.pick(&[0, 0, 1, 1, 2])
        } else {
            random.below(8) as u8
        }
    };
    let mut input = vec![exponent(random) << 5 | exponent(random) << 2];
    input.push(if random.chance(70) {
        random.pick(&LIMITS)
    } else {
        random.from(1, 64) as u8
    });
    let turns = match random.below(6) {
        0 => random.below(8),
        1 => random.below(4095),
        2 => 4094,
        _ => random.below(500),
    };
    let most = random.pick(&[4, 8, 9, 13, 64]);
    for _ in 0..turns {
        input.push((random.below(4) << 6 | random.below(most)) as u8);
    }
    match random.below(40) {
        0 => input[0] |= random.from(1, 3) as u8,
        1 => input[1] = random.pick(&[0, 65, 128, 255]),
        2 => input.truncate(random.below(3) as usize),
        3 => input.resize(random.pick(&[4095, 4096, 4097, 5000]), 0x46),
        _ => {}
    }
    input
}
