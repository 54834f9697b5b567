//! Rounds of traffic, for measuring what a step costs.

use crate::host::Host;
use crate::memory::Memory;
use crate::port::Port;
use crate::reply::{Reply, Text};
use crate::schedule;
use crate::script::{fnv, FNV_START};

/// The line of COUNT rounds with texts of SIZE bytes; None if a setting is bad or a round fails.
pub fn line(command: u8, response: u8, size: usize, count: u32) -> Option<String> {
    let mut bytes = vec![0; 32768];
    if command > 7 || response > 7 {
        return None;
    }
    let (mut port, mut host) = schedule::meet(command, response, 28, 8, 2048, &mut bytes)?;
    let mut steps = 0;
    let mut sum = FNV_START;
    let mut text = vec![0; size];
    for round in 0..count {
        for (at, byte) in text.iter_mut().enumerate() {
            *byte = (at as u32).wrapping_add(round) as u8;
        }
        let taken = one(&mut port, &mut host, &mut bytes, &text, &mut steps)?;
        sum = fnv(sum, taken.used());
    }
    Some(format!("rounds {count} steps {steps} sum {sum:08x}"))
}

/// A command sent, fetched, answered with its own text, and the answer taken. Memory is lent anew
/// at each call.
fn one(
    port: &mut Port,
    host: &mut Host,
    bytes: &mut [u8],
    text: &[u8],
    steps: &mut u64,
) -> Option<Text> {
    host.begin_send(false, text);
    to_its_end(steps, || host.step_send(&mut Memory::lent(bytes)))?;
    port.begin_fetch();
    let fetched = to_its_end(steps, || port.step_fetch(&mut Memory::lent(bytes)))?;
    port.begin_answer(fetched.used());
    to_its_end(steps, || port.step_post(&mut Memory::lent(bytes)))?;
    host.begin_take();
    to_its_end(steps, || host.step_take(&mut Memory::lent(bytes)))
}

/// Steps until the closing answer; None if that is a refusal or a fatal error.
fn to_its_end(steps: &mut u64, mut step: impl FnMut() -> Reply) -> Option<Text> {
    loop {
        *steps += 1;
        match step() {
            Reply::Going => {}
            Reply::Done { .. } => return Some(Text::EMPTY),
            Reply::Delivered { text, .. } => return Some(text),
            Reply::Refused(_) | Reply::Fatal { .. } => return None,
        }
    }
}
