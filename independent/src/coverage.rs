//! Counts what the scripts of a comparison reached.

use crate::host::Host;
use crate::port::Phase;
use crate::reply::{Act, Refusal, Reply};
use crate::script::{Answer, Call, Reason, Scene, Watch};
use crate::words;

pub struct Coverage {
    pub calls: u64,
    counts: Vec<(String, u64)>,
    /// Whether the host had written IP a second time when the next call comes.
    retried: bool,
}

/// Everything that a long comparison has to reach.
fn wanted() -> Vec<String> {
    let mut names = Vec::new();
    let mut all = |start: &str, ends: &[&str]| {
        names.extend(ends.iter().map(|end| format!("{start} {end}")));
    };
    let numbers = [
        "1", "2", "3", "4", "5", "6", "7", "8", "9", "10", "11", "12",
    ];
    all("refusal", &numbers);
    all("fatal", &["1", "2", "6", "7", "10", "14", "15", "20"]);
    all(
        "handshake",
        &[
            "write-ip",
            "write-sa",
            "waiting",
            "dead",
            "none",
            "port-failed",
            "refused",
        ],
    );
    let exponents = ["0", "1", "2", "3", "4", "5", "6", "7"];
    all("command ring exponent", &exponents);
    all("response ring exponent", &exponents);
    all("limit", &["1", "15", "16", "17", "28", "64"]);
    all("limit refused", &["0", "65"]);
    all("text of", &["0", "1", "2", "59", "60", "61"]);
    all("interrupt of", &["write-sa", "fetch", "post", "fatal"]);
    all("done of", &["send", "fetch", "post", "take"]);
    all("state", &["wrap", "retry", "dead"]);
    all(
        "bad envelope by",
        &["length", "type", "connection", "account"],
    );
    all("not a call:", &Reason::ALL.map(Reason::said));
    names
}

impl Coverage {
    pub fn new() -> Self {
        Coverage {
            calls: 0,
            counts: wanted().into_iter().map(|name| (name, 0)).collect(),
            retried: false,
        }
    }

    /// Names that nobody asked for are not counted.
    fn count(&mut self, start: &str, end: impl ToString) {
        let name = format!("{start} {}", end.to_string());
        if let Some((_, count)) = self.counts.iter_mut().find(|(known, _)| *known == name) {
            *count += 1;
        }
    }

    pub fn missed(&self) -> Vec<&str> {
        self.counts
            .iter()
            .filter(|(_, count)| *count == 0)
            .map(|(name, _)| name.as_str())
            .collect()
    }

    pub fn table(&self) -> String {
        self.counts
            .iter()
            .map(|(name, count)| format!("{count:>10}  {name}\n"))
            .collect()
    }

    fn saw_reply(&mut self, call: &Call, reply: &Reply, scene: &Scene) {
        match reply {
            Reply::Refused(refusal) => {
                self.count("refusal", *refusal as u8);
                if *refusal == Refusal::BadEnvelope {
                    self.saw_bad_envelope(scene);
                }
                if let Call::Create { limit, .. } = call {
                    self.count("limit refused", limit);
                }
                if let Call::BeginSend(_, text)
                | Call::BeginAnswer(text)
                | Call::BeginUnsolicited(text) = call
                {
                    if *refusal == Refusal::TooLong {
                        self.count("text of", text.len());
                    }
                }
            }
            Reply::Fatal { code, interrupt } => {
                self.count("fatal", *code as u8);
                if *interrupt {
                    self.count("interrupt of", "fatal");
                }
            }
            Reply::Done { .. } | Reply::Delivered { .. } => self.saw_done(call, reply, scene),
            Reply::Going => {}
        }
    }

    /// "Refusal 9 leaves the slot where it is", so its envelope can still be read.
    fn saw_bad_envelope(&mut self, scene: &Scene) {
        let Host::Finished(half) = &scene.host else {
            return;
        };
        let at = half.pool as usize + 64 * usize::from(half.take_slot);
        let word = |at: usize| {
            let pair = scene.bytes().get(at..at + 2);
            pair.map_or(0, |pair| u16::from_le_bytes([pair[0], pair[1]]))
        };
        let header = word(at + 2);
        let bad_length = usize::from(word(at)) > words::TEXT;
        let cause = match (bad_length, words::kind(header), words::connection(header)) {
            (true, 0, 0) => "length",
            (false, 1.., 0) => "type",
            (false, 0, 1..) => "connection",
            (false, 0, 0) => "account",
            _ => return,
        };
        self.count("bad envelope by", cause);
    }

    fn saw_done(&mut self, call: &Call, reply: &Reply, scene: &Scene) {
        let side = match call {
            Call::StepSend(_) => "send",
            Call::StepFetch(_) => "fetch",
            Call::StepPost(_) => "post",
            Call::StepTake(_) => "take",
            Call::WriteSa(_) => "write-sa",
            _ => return,
        };
        self.count("done of", side);
        if reply.interrupt() {
            self.count("interrupt of", side);
        }
        if let Reply::Delivered { text, .. } = reply {
            self.count("text of", text.length);
        }
        if let Phase::Running(running) = &scene.port.phase {
            let first = running.words[0];
            match side {
                "fetch" => self.count("command ring exponent", first >> 11 & 7),
                "post" => {
                    self.count("response ring exponent", first >> 8 & 7);
                    self.count("limit", scene.port.limit);
                }
                _ => {}
            }
        }
    }

    fn saw_act(&mut self, act: Act) {
        let name = match act {
            Act::WriteIp => "write-ip",
            Act::WriteSa(_) => "write-sa",
            Act::Waiting => "waiting",
            Act::Dead => "dead",
            Act::None => "none",
            Act::PortFailed(_) => "port-failed",
            Act::Refused(_) => "refused",
        };
        self.count("handshake", name);
        if let Act::Refused(refusal) = act {
            self.count("refusal", refusal as u8);
        }
    }
}

impl Watch for Coverage {
    fn stopped(&mut self, reason: Reason) {
        self.count("not a call:", reason.said());
    }

    fn saw(&mut self, call: &Call, answer: &Answer, scene: &Scene) {
        match answer {
            Answer::Nothing | Answer::Bytes(_) => {}
            _ => self.calls += 1,
        }
        match answer {
            Answer::Reply(reply) => self.saw_reply(call, reply, scene),
            Answer::Act(act) => self.saw_act(*act),
            _ => {}
        }
        let retried = matches!(&scene.host, Host::Expecting(expecting) if expecting.retried);
        if retried && !self.retried {
            self.count("state", "retry");
        }
        let second = self.retried && *answer == Answer::Act(Act::Dead);
        if second {
            self.count("state", "dead");
        }
        self.retried = retried;
        if matches!(
            (&scene.port.phase, call),
            (Phase::Wrap(_), Call::WriteSa(_))
        ) {
            self.count("state", "wrap");
        }
    }
}
