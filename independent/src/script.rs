//! Scripts of calls: reads them, makes the calls and prints a line for each.

use std::fmt::{self, Write};

use crate::area::Ring;
use crate::host::Host;
use crate::memory::Memory;
use crate::port::Port;
use crate::reply::{Act, Reply};
use crate::show::{ShownAct, ShownHost, ShownPort, ShownReply};

/// The most bytes that a script has.
pub const LONGEST: usize = 1_048_576;
/// The most bytes that are lent.
pub const MOST_LENT: usize = 262_400;
const MOST_STEPS: u32 = 100_000;
const MOST_PEEKED: u32 = 64;
/// Texts of 61 to 64 bytes are there to be refused.
const LONGEST_TEXT: usize = 64;

#[derive(Clone, PartialEq, Eq, Debug)]
pub enum Call {
    New,
    Memory(usize),
    Fill(u8),
    Poke(u32, u16),
    Peek(u32, u32),
    Create {
        nv: bool,
        qb: bool,
        di: bool,
        version: u8,
        limit: u8,
    },
    WriteIp,
    ReadSa,
    WriteSa(u16),
    BeginFetch,
    StepFetch(u32),
    BeginAnswer(Vec<u8>),
    BeginUnsolicited(Vec<u8>),
    StepPost(u32),
    Begin {
        command: u8,
        response: u8,
        ie: bool,
        vector: u8,
        base: u32,
    },
    SaSeen(u16),
    TimeIsUp,
    SetUp(u32),
    BeginSend(bool, Vec<u8>),
    StepSend(u32),
    BeginTake,
    StepTake(u32),
    Clear(Ring),
}

/// Why a line is not a call. Lines are read from left to right: the first reason counts.
#[derive(Clone, Copy, PartialEq, Eq, Debug)]
pub enum Reason {
    NoSuchWord,
    NumberMissing,
    NotANumber,
    NumberTooLarge,
    TextMissing,
    NotAText,
    TextTooLong,
    SomethingFollows,
}

impl Reason {
    pub const ALL: [Reason; 8] = [
        Reason::NoSuchWord,
        Reason::NumberMissing,
        Reason::NotANumber,
        Reason::NumberTooLarge,
        Reason::TextMissing,
        Reason::NotAText,
        Reason::TextTooLong,
        Reason::SomethingFollows,
    ];

    pub fn said(self) -> &'static str {
        match self {
            Reason::NoSuchWord => "no such word",
            Reason::NumberMissing => "a number is missing",
            Reason::NotANumber => "not a number",
            Reason::NumberTooLarge => "the number is too large",
            Reason::TextMissing => "a text is missing",
            Reason::NotAText => "not a text",
            Reason::TextTooLong => "the text is longer than 64 bytes",
            Reason::SomethingFollows => "something follows",
        }
    }
}

/// "A number is decimal, or hexadecimal after `0x`, in digits of either case; leading zeros are
/// allowed; at most 4294967295, and at most what its place takes".
fn number(word: &[u8], most: u32) -> Result<u32, Reason> {
    let (digits, radix) = match word.strip_prefix(b"0x") {
        Some(digits) => (digits, 16),
        None => (word, 10),
    };
    let digits: Vec<u32> = digits
        .iter()
        .map(|digit| char::from(*digit).to_digit(radix))
        .collect::<Option<_>>()
        .filter(|digits: &Vec<u32>| !digits.is_empty())
        .ok_or(Reason::NotANumber)?;
    digits
        .iter()
        .try_fold(0u32, |value, digit| {
            value.checked_mul(radix)?.checked_add(*digit)
        })
        .filter(|value| *value <= most)
        .ok_or(Reason::NumberTooLarge)
}

/// "A text is `-` (no byte) or two hexadecimal digits for each byte, at most 64 bytes"; a word of
/// more than 128 characters is too long, whatever they are.
fn text(word: &[u8]) -> Result<Vec<u8>, Reason> {
    if word == b"-" {
        return Ok(Vec::new());
    }
    if word.len() > 2 * LONGEST_TEXT {
        return Err(Reason::TextTooLong);
    }
    let digits: Vec<u8> = word
        .iter()
        .map(|digit| char::from(*digit).to_digit(16).map(|value| value as u8))
        .collect::<Option<_>>()
        .ok_or(Reason::NotAText)?;
    if digits.is_empty() || !digits.len().is_multiple_of(2) {
        return Err(Reason::NotAText);
    }
    Ok(digits
        .chunks(2)
        .map(|pair| pair[0] << 4 | pair[1])
        .collect())
}

/// The words after the first.
struct Words<'a>(std::slice::Split<'a, u8, fn(&u8) -> bool>);

impl<'a> Words<'a> {
    fn number(&mut self, most: u32) -> Result<u32, Reason> {
        number(self.0.next().ok_or(Reason::NumberMissing)?, most)
    }

    fn any(&mut self) -> Result<u32, Reason> {
        self.number(u32::MAX)
    }

    fn bit(&mut self) -> Result<bool, Reason> {
        Ok(self.number(1)? == 1)
    }

    fn byte(&mut self) -> Result<u8, Reason> {
        Ok(self.number(255)? as u8)
    }

    fn word(&mut self) -> Result<u16, Reason> {
        Ok(self.number(65_535)? as u16)
    }

    fn text(&mut self) -> Result<Vec<u8>, Reason> {
        text(self.0.next().ok_or(Reason::TextMissing)?)
    }

    /// "The four step calls may carry a number".
    fn times(&mut self) -> Result<u32, Reason> {
        match self.0.next() {
            None => Ok(1),
            Some(word) => number(word, MOST_STEPS),
        }
    }
}

impl Call {
    pub fn parse(line: &[u8]) -> Result<Call, Reason> {
        let space: fn(&u8) -> bool = |byte| *byte == b' ';
        let mut words = Words(line.split(space));
        let first = words.0.next().unwrap_or_default();
        let call = match first {
            b"new" => Call::New,
            b"memory" => Call::Memory(words.number(MOST_LENT as u32)? as usize),
            b"fill" => Call::Fill(words.byte()?),
            b"poke" => Call::Poke(words.any()?, words.word()?),
            b"peek" => Call::Peek(words.any()?, words.number(MOST_PEEKED)?),
            b"create" => Call::Create {
                nv: words.bit()?,
                qb: words.bit()?,
                di: words.bit()?,
                version: words.byte()?,
                limit: words.byte()?,
            },
            b"write-ip" => Call::WriteIp,
            b"read-sa" => Call::ReadSa,
            b"write-sa" => Call::WriteSa(words.word()?),
            b"begin-fetch" => Call::BeginFetch,
            b"step-fetch" => Call::StepFetch(words.times()?),
            b"begin-answer" => Call::BeginAnswer(words.text()?),
            b"begin-unsolicited" => Call::BeginUnsolicited(words.text()?),
            b"step-post" => Call::StepPost(words.times()?),
            b"begin" => Call::Begin {
                command: words.byte()?,
                response: words.byte()?,
                ie: words.bit()?,
                vector: words.byte()?,
                base: words.any()?,
            },
            b"sa-seen" => Call::SaSeen(words.word()?),
            b"time-is-up" => Call::TimeIsUp,
            b"set-up" => Call::SetUp(words.any()?),
            b"begin-send" => Call::BeginSend(words.bit()?, words.text()?),
            b"step-send" => Call::StepSend(words.times()?),
            b"begin-take" => Call::BeginTake,
            b"step-take" => Call::StepTake(words.times()?),
            b"clear-command" => Call::Clear(Ring::Command),
            b"clear-response" => Call::Clear(Ring::Response),
            _ => return Err(Reason::NoSuchWord),
        };
        match words.0.next() {
            None => Ok(call),
            Some(_) => Err(Reason::SomethingFollows),
        }
    }

    /// How often the call is made.
    pub fn times(&self) -> u32 {
        match self {
            Call::StepFetch(times)
            | Call::StepPost(times)
            | Call::StepSend(times)
            | Call::StepTake(times) => *times,
            _ => 1,
        }
    }

    fn is_of_port(&self) -> bool {
        matches!(
            self,
            Call::Create { .. }
                | Call::WriteIp
                | Call::ReadSa
                | Call::WriteSa(_)
                | Call::BeginFetch
                | Call::StepFetch(_)
                | Call::BeginAnswer(_)
                | Call::BeginUnsolicited(_)
                | Call::StepPost(_)
        )
    }
}

/// What a call answered.
#[derive(Clone, PartialEq, Eq, Debug)]
pub enum Answer {
    /// The lines that set the stage answer nothing.
    Nothing,
    Bytes(Vec<Option<u8>>),
    Reply(Reply),
    Act(Act),
    /// What SA reads.
    Word(u16),
    /// A write to IP.
    Done,
}

/// One port, one host and one memory.
pub struct Scene {
    pub port: Port,
    pub host: Host,
    bytes: Vec<u8>,
    pub lent: usize,
}

impl Scene {
    pub fn new() -> Self {
        Scene {
            port: Port::create(false, false, false, 0, 1).0,
            host: Host::Dead,
            bytes: vec![0; MOST_LENT],
            lent: 0,
        }
    }

    pub fn bytes(&self) -> &[u8] {
        &self.bytes[..self.lent]
    }

    /// Makes a call once.
    pub fn make(&mut self, call: &Call) -> Answer {
        let mut memory = Memory::lent(&mut self.bytes[..self.lent]);
        let memory = &mut memory;
        Answer::Reply(match call {
            Call::New => {
                *self = Scene::new();
                return Answer::Nothing;
            }
            Call::Memory(length) => {
                self.lent = *length;
                return Answer::Nothing;
            }
            Call::Fill(value) => {
                self.bytes[..self.lent].fill(*value);
                return Answer::Nothing;
            }
            Call::Poke(address, word) => {
                let at = *address as usize;
                for (at, byte) in (at..).zip(word.to_le_bytes()) {
                    if at < self.lent {
                        self.bytes[at] = byte;
                    }
                }
                return Answer::Nothing;
            }
            Call::Peek(address, count) => {
                let at = *address as usize;
                let range = at..at + *count as usize;
                return Answer::Bytes(range.map(|at| self.bytes().get(at).copied()).collect());
            }
            Call::Create {
                nv,
                qb,
                di,
                version,
                limit,
            } => {
                let (port, reply) = Port::create(*nv, *qb, *di, *version, *limit);
                self.port = port;
                reply
            }
            Call::WriteIp => {
                self.port.write_ip();
                return Answer::Done;
            }
            Call::ReadSa => return Answer::Word(self.port.read_sa()),
            Call::WriteSa(word) => self.port.write_sa(*word, memory),
            Call::BeginFetch => self.port.begin_fetch(),
            Call::StepFetch(_) => self.port.step_fetch(memory),
            Call::BeginAnswer(text) => self.port.begin_answer(text),
            Call::BeginUnsolicited(text) => self.port.begin_unsolicited(text),
            Call::StepPost(_) => self.port.step_post(memory),
            Call::Begin {
                command,
                response,
                ie,
                vector,
                base,
            } => {
                return Answer::Act(self.host.begin(*command, *response, *ie, *vector, *base));
            }
            Call::SaSeen(word) => return Answer::Act(self.host.sa_seen(*word)),
            Call::TimeIsUp => return Answer::Act(self.host.time_is_up()),
            Call::SetUp(pool) => self.host.set_up(*pool, memory),
            Call::BeginSend(flag, text) => self.host.begin_send(*flag, text),
            Call::StepSend(_) => self.host.step_send(memory),
            Call::BeginTake => self.host.begin_take(),
            Call::StepTake(_) => self.host.step_take(memory),
            Call::Clear(ring) => self.host.clear(*ring, memory),
        })
    }
}

/// Sees each call once it is made.
pub trait Watch {
    fn saw(&mut self, call: &Call, answer: &Answer, scene: &Scene);
    /// The script ended with a line that is not a call.
    fn stopped(&mut self, reason: Reason);
}

/// For those who only want the lines.
pub struct NoWatch;

impl Watch for NoWatch {
    fn saw(&mut self, _: &Call, _: &Answer, _: &Scene) {}
    fn stopped(&mut self, _: Reason) {}
}

/// What a script prints.
pub fn replay(script: &[u8], watch: &mut impl Watch) -> String {
    if script.len() > LONGEST {
        return "script too long\n".to_string();
    }
    let mut out = String::new();
    let mut scene = Scene::new();
    for (line, bytes) in (1..).zip(script.split(|byte| *byte == b'\n')) {
        // "a line may end with CR LF as well"
        let bytes = bytes.strip_suffix(b"\r").unwrap_or(bytes);
        if bytes.is_empty() || bytes[0] == b'#' {
            continue;
        }
        let call = match Call::parse(bytes) {
            Ok(call) => call,
            Err(reason) => {
                put(
                    &mut out,
                    format_args!("{line}: not a call: {}\n", reason.said()),
                );
                watch.stopped(reason);
                break;
            }
        };
        for _ in 0..call.times() {
            let answer = scene.make(&call);
            print(&mut out, line, &call, &answer, &scene);
            watch.saw(&call, &answer, &scene);
        }
    }
    out
}

/// Writing to a string can't fail.
fn put(out: &mut String, args: fmt::Arguments) {
    let _ = out.write_fmt(args);
}

fn print(out: &mut String, line: u32, call: &Call, answer: &Answer, scene: &Scene) {
    match answer {
        Answer::Nothing => return,
        Answer::Bytes(bytes) => {
            put(out, format_args!("{line}: "));
            for byte in bytes {
                match byte {
                    Some(byte) => put(out, format_args!("{byte:02x}")),
                    None => out.push_str(".."),
                }
            }
            out.push('\n');
            return;
        }
        Answer::Reply(reply) => put(out, format_args!("{line}: {}", ShownReply(reply))),
        Answer::Act(act) => put(out, format_args!("{line}: {}", ShownAct(*act))),
        Answer::Word(word) => put(out, format_args!("{line}: {word:04x}")),
        Answer::Done => put(out, format_args!("{line}: done")),
    }
    if call.is_of_port() {
        put(out, format_args!(" | {}", ShownPort(&scene.port)));
    } else {
        put(out, format_args!(" | {}", ShownHost(&scene.host)));
    }
    let sum = fnv(FNV_START, scene.bytes());
    put(out, format_args!(" | {} {sum:08x}\n", scene.lent));
}

pub const FNV_START: u32 = 2_166_136_261;

/// FNV-1a of 32 bits, going on from `sum`.
pub fn fnv(sum: u32, bytes: &[u8]) -> u32 {
    bytes.iter().fold(sum, |sum, byte| {
        (sum ^ u32::from(*byte)).wrapping_mul(16_777_619)
    })
}
