//! How answers and states are printed.

use std::fmt::{self, Display, Formatter, Write};

use crate::host::{Finished, Host, Send, SendStage, Take, TakeStage};
use crate::port::{Operation, Phase, Port, Running, Stage};
use crate::reply::{Act, Reply, Text};

/// "The bytes are printed up to the last that is not 0, or `-` if all are 0."
struct ShownBytes<'a>(&'a Text);

impl Display for ShownBytes<'_> {
    fn fmt(&self, out: &mut Formatter) -> fmt::Result {
        match self.0.bytes.iter().rposition(|byte| *byte != 0) {
            None => out.write_char('-'),
            Some(last) => self.0.bytes[..=last]
                .iter()
                .try_for_each(|byte| write!(out, "{byte:02x}")),
        }
    }
}

pub struct ShownReply<'a>(pub &'a Reply);

impl Display for ShownReply<'_> {
    fn fmt(&self, out: &mut Formatter) -> fmt::Result {
        match self.0 {
            Reply::Going => out.write_str("going 0 -")?,
            Reply::Done { .. } => out.write_str("done 0 -")?,
            Reply::Delivered { text, .. } => {
                write!(out, "done {} {}", text.length, ShownBytes(text))?;
            }
            Reply::Refused(refusal) => write!(out, "refused {} 0 -", *refusal as u8)?,
            Reply::Fatal { code, .. } => write!(out, "fatal {} 0 -", *code as u8)?,
        }
        if self.0.interrupt() {
            out.write_str(" interrupt")?;
        }
        Ok(())
    }
}

pub struct ShownAct(pub Act);

impl Display for ShownAct {
    fn fmt(&self, out: &mut Formatter) -> fmt::Result {
        match self.0 {
            Act::WriteIp => out.write_str("write-ip"),
            Act::WriteSa(word) => write!(out, "write-sa {word:04x}"),
            Act::Waiting => out.write_str("waiting"),
            Act::Dead => out.write_str("dead"),
            Act::None => out.write_str("none"),
            Act::PortFailed(code) => write!(out, "port-failed {code}"),
            // "all return length 0 and 60 zero bytes"
            Act::Refused(refusal) => write!(out, "refused {} 0 -", refusal as u8),
        }
    }
}

/// The items of a state, each ` name=value`; "what is 0, idle or empty is left out".
struct Items<'a, 'b> {
    out: &'a mut Formatter<'b>,
    /// The side whose items are next; "" for those of the half itself.
    side: &'static str,
}

impl Items<'_, '_> {
    fn item(&mut self, name: &str, value: impl Display) -> fmt::Result {
        match self.side {
            "" => write!(self.out, " {name}={value}"),
            side => write!(self.out, " {side}.{name}={value}"),
        }
    }

    fn number(&mut self, name: &str, value: impl Into<u32>) -> fmt::Result {
        match value.into() {
            0 => Ok(()),
            value => self.item(name, value),
        }
    }

    fn word(&mut self, name: &str, value: u16) -> fmt::Result {
        match value {
            0 => Ok(()),
            value => self.item(name, format_args!("{value:04x}")),
        }
    }

    fn text(&mut self, value: &Text) -> fmt::Result {
        if value.bytes.iter().all(|byte| *byte == 0) {
            return Ok(());
        }
        self.item("text", ShownBytes(value))
    }

    /// The words that the host wrote, or will have written when it gets to GO.
    fn words(&mut self, words: &[u16]) -> fmt::Result {
        for (name, word) in ["first", "second", "third", "go"].into_iter().zip(words) {
            self.word(name, *word)?;
        }
        Ok(())
    }

    /// A side that has an operation, and what that stands at.
    fn stage(&mut self, side: &'static str, stage: &str) -> fmt::Result {
        self.side = "";
        self.item(side, stage)?;
        self.side = side;
        Ok(())
    }
}

pub struct ShownPort<'a>(pub &'a Port);

impl Display for ShownPort<'_> {
    fn fmt(&self, out: &mut Formatter) -> fmt::Result {
        let port = self.0;
        out.write_str("port")?;
        let mut items = Items { out, side: "" };
        items.number("nv", port.nv)?;
        items.number("qb", port.qb)?;
        items.number("di", port.di)?;
        items.number("version", port.version)?;
        items.number("limit", port.limit)?;
        match &port.phase {
            Phase::Step1 => items.item("phase", "step1"),
            Phase::Wrap(shown) => {
                items.item("phase", "wrap")?;
                items.word("shown", *shown)
            }
            Phase::Step2(first) => {
                items.item("phase", "step2")?;
                items.words(&[*first])
            }
            Phase::Step3(first, second) => {
                items.item("phase", "step3")?;
                items.words(&[*first, *second])
            }
            Phase::Step4(first, second, third) => {
                items.item("phase", "step4")?;
                items.words(&[*first, *second, *third])
            }
            Phase::Fatal(code) => {
                items.item("phase", "fatal")?;
                items.number("fatal", *code as u8)
            }
            Phase::Running(running) => items.running(running),
        }
    }
}

impl Items<'_, '_> {
    fn running(&mut self, running: &Running) -> fmt::Result {
        self.item("phase", "running")?;
        self.words(&running.words)?;
        self.number("fetch-slot", running.fetch_slot)?;
        self.number("post-slot", running.post_slot)?;
        self.number("owed", running.owed)?;
        self.number("unanswered", running.unanswered)?;
        if let Some(fetch) = &running.fetch {
            self.operation("fetch", fetch)?;
        }
        if let Some(post) = &running.post {
            self.operation("post", post)?;
        }
        Ok(())
    }

    fn operation(&mut self, side: &'static str, operation: &Operation) -> fmt::Result {
        let stage = match operation.stage {
            Stage::High => "high",
            Stage::Low => "low",
            Stage::Length => "length",
            Stage::Header => "header",
            Stage::Text => "text",
            Stage::Release => "release",
            Stage::Test => "test",
            Stage::Mark => "mark",
        };
        self.stage(side, stage)?;
        self.number("slot", operation.slot)?;
        self.word("high", operation.high)?;
        self.number("envelope", operation.envelope)?;
        self.number("size", operation.size)?;
        self.number("at", operation.at as u32)?;
        self.number("answers", operation.answers)?;
        self.text(&operation.text)
    }

    fn finished(&mut self, half: &Finished) -> fmt::Result {
        self.item("handshake", "finished")?;
        self.words(&half.words)?;
        self.number("ready", half.ready)?;
        self.number("pool", half.pool)?;
        self.number("send-slot", half.send_slot)?;
        self.number("take-slot", half.take_slot)?;
        self.number("account", half.account)?;
        if let Some(send) = &half.send {
            self.send(send)?;
        }
        if let Some(take) = &half.take {
            self.take(take)?;
        }
        Ok(())
    }

    fn send(&mut self, send: &Send) -> fmt::Result {
        let stage = match send.stage {
            SendStage::High => "high",
            SendStage::Length => "length",
            SendStage::Header => "header",
            SendStage::Text => "text",
            SendStage::Low => "low",
            SendStage::Release => "release",
        };
        self.stage("send", stage)?;
        self.number("slot", send.slot)?;
        self.word("high", send.high)?;
        self.number("envelope", send.envelope)?;
        self.number("size", send.text.length as u32)?;
        self.number("at", send.at as u32)?;
        self.number("flag", send.flag)?;
        self.text(&send.text)
    }

    fn take(&mut self, take: &Take) -> fmt::Result {
        let stage = match take.stage {
            TakeStage::High => "high",
            TakeStage::Length => "length",
            TakeStage::Header => "header",
            TakeStage::Text => "text",
            TakeStage::Refill => "refill",
            TakeStage::Release => "release",
        };
        self.stage("take", stage)?;
        self.number("slot", take.slot)?;
        self.word("high", take.high)?;
        self.number("envelope", take.envelope)?;
        self.number("size", take.size)?;
        self.number("at", take.at as u32)?;
        self.number("credits", take.credits)?;
        self.text(&take.text)
    }
}

pub struct ShownHost<'a>(pub &'a Host);

impl Display for ShownHost<'_> {
    fn fmt(&self, out: &mut Formatter) -> fmt::Result {
        out.write_str("host")?;
        let mut items = Items { out, side: "" };
        match self.0 {
            Host::Dead => items.item("handshake", "dead"),
            Host::Expecting(expecting) => {
                items.item("handshake", "expect")?;
                items.number("step", expecting.step)?;
                items.number("retried", expecting.retried)?;
                items.words(&expecting.words)
            }
            Host::Finished(half) => items.finished(half),
        }
    }
}
