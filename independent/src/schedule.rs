//! The schedule program: plays a byte string of turns on a port and a host.

use std::collections::VecDeque;

use crate::host::Host;
use crate::memory::Memory;
use crate::port::{Phase, Port};
use crate::reply::{Act, Reply};

const FEWEST: usize = 2;
const MOST: usize = 4096;

/// The line that an input prints, without its line end.
pub fn line(input: &[u8]) -> String {
    run(input).unwrap_or_else(|| "refused".to_string())
}

/// A port and a host that have met over this memory and set up, with vector/4 = 1 so that every
/// indicator write reports an interrupt. None if the limit is bad.
pub fn meet(
    command: u8,
    response: u8,
    limit: u8,
    base: u32,
    pool: u32,
    bytes: &mut [u8],
) -> Option<(Port, Host)> {
    let (mut port, created) = Port::create(false, false, false, 0, limit);
    let mut host = Host::Dead;
    let mut act = host.begin(command, response, false, 1, base);
    let memory = &mut Memory::lent(bytes);
    while !matches!(host, Host::Finished(_)) {
        match act {
            Act::WriteIp => port.write_ip(),
            Act::WriteSa(word) => {
                port.write_sa(word, memory);
            }
            _ => return None,
        }
        act = host.sa_seen(port.read_sa());
    }
    let Act::WriteSa(go) = act else {
        return None;
    };
    port.write_sa(go, memory);
    let set_up = host.set_up(pool, memory);
    (created == Reply::DONE && set_up == Reply::DONE).then_some((port, host))
}

fn run(input: &[u8]) -> Option<String> {
    if !(FEWEST..=MOST).contains(&input.len()) || input[0] & 3 != 0 {
        return None;
    }
    let (command, response, limit) = (input[0] >> 5, input[0] >> 2 & 7, input[1]);
    let mut bytes = vec![0; 32 * 1024];
    let (port, host) = meet(command, response, limit, 8, 2048, &mut bytes)?;
    let mut play = Play {
        port,
        host,
        bytes,
        open: VecDeque::new(),
        sent: 0,
        fetched: 0,
        answered: 0,
        taken: 0,
        wakes: [0, 0],
    };
    for turn in &input[2..] {
        for _ in 0..turn & 63 {
            match turn >> 6 {
                0 => play.send(),
                1 => play.take(),
                2 => play.fetch(),
                _ => play.answer(),
            }
        }
    }
    Some(play.told())
}

struct Play {
    port: Port,
    host: Host,
    bytes: Vec<u8>,
    /// The texts of fetched, unanswered commands, the oldest first.
    open: VecDeque<Vec<u8>>,
    sent: u32,
    fetched: u32,
    answered: u32,
    taken: u32,
    wakes: [u32; 2],
}

/// In each turn "an idle side begins its operation anew", and then makes a step.
impl Play {
    fn send(&mut self) {
        // "Text is the 16-bit count of sends finished before it, low byte first, F=0".
        let text = (self.sent as u16).to_le_bytes();
        if matches!(&self.host, Host::Finished(half) if half.send.is_none()) {
            self.host.begin_send(false, &text);
        }
        let memory = &mut Memory::lent(&mut self.bytes);
        if let Reply::Done { .. } = self.host.step_send(memory) {
            self.sent += 1;
        }
    }

    fn take(&mut self) {
        if matches!(&self.host, Host::Finished(half) if half.take.is_none()) {
            self.host.begin_take();
        }
        let memory = &mut Memory::lent(&mut self.bytes);
        if let Reply::Delivered { .. } = self.host.step_take(memory) {
            self.taken += 1;
        }
    }

    fn fetch(&mut self) {
        if matches!(&self.port.phase, Phase::Running(running) if running.fetch.is_none()) {
            self.port.begin_fetch();
        }
        let memory = &mut Memory::lent(&mut self.bytes);
        if let Reply::Delivered { text, interrupt } = self.port.step_fetch(memory) {
            self.fetched += 1;
            self.open.push_back(text.used().to_vec());
            self.wakes[0] += u32::from(interrupt);
        }
    }

    fn answer(&mut self) {
        if matches!(&self.port.phase, Phase::Running(running) if running.post.is_none()) {
            // "answer" spends the step if nothing is open.
            let Some(oldest) = self.open.front() else {
                return;
            };
            self.port.begin_answer(oldest);
        }
        let before = self.unanswered();
        let memory = &mut Memory::lent(&mut self.bytes);
        let reply = self.port.step_post(memory);
        self.wakes[1] += u32::from(reply.interrupt());
        // The high-word write is where the answer counts; its tail may still be to come.
        if self.unanswered() < before {
            self.answered += 1;
            self.open.pop_front();
        }
    }

    fn unanswered(&self) -> u8 {
        match &self.port.phase {
            Phase::Running(running) => running.unanswered,
            _ => 0,
        }
    }

    fn told(&self) -> String {
        let account = match &self.host {
            Host::Finished(half) => half.account,
            _ => 0,
        };
        let owed = match &self.port.phase {
            Phase::Running(running) => running.owed,
            _ => 0,
        };
        format!(
            "sent {} fetched {} answered {} taken {} account {account} owed {owed} wakes {} {} sa {:04x}",
            self.sent,
            self.fetched,
            self.answered,
            self.taken,
            self.wakes[0],
            self.wakes[1],
            self.port.read_sa()
        )
    }
}
