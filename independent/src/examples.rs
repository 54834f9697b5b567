//! The twelve marked examples of document 01, run and compared.

use crate::area::{Area, Ring};
use crate::host::Host;
use crate::memory::Memory;
use crate::port::{Phase, Port};
use crate::reply::{Act, Fatal, Reply};
use crate::schedule;
use crate::words;

#[test]
fn example_1_di_alone_shows_0900() {
    let (port, _) = Port::create(false, false, true, 0, 1);
    assert_eq!(port.read_sa(), 0x0900);
}

#[test]
fn examples_2_to_5_a_handshake() {
    let mut bytes = [0; 64];
    let memory = &mut Memory::lent(&mut bytes);
    let (mut port, _) = Port::create(false, false, false, 0x63, 28);
    let mut host = Host::Dead;
    assert_eq!(host.begin(3, 2, true, 0x1B, 8), Act::WriteIp);
    port.write_ip();
    let mut shown = Vec::new();
    let mut written = Vec::new();
    while !matches!(host, Host::Finished(_)) {
        shown.push(port.read_sa());
        let Act::WriteSa(word) = host.sa_seen(port.read_sa()) else {
            panic!("the handshake goes straight on");
        };
        written.push(word);
        port.write_sa(word, memory);
    }
    assert_eq!(shown, [0x0800, 0x109A, 0x209B, 0x4063]);
    assert_eq!(written, [0x9A9B, 0x0008, 0x0000, 0x0001]);
    assert_eq!(port.read_sa(), 0);
}

#[test]
fn example_6_fatal_14_shows_800e() {
    let (mut port, _) = Port::create(false, false, false, 0, 1);
    port.phase = Phase::Fatal(Fatal::InvalidConnection);
    assert_eq!(port.read_sa(), 0x800E);
}

#[test]
fn example_7_a_text_at_12344() {
    let high = words::given_to_port(words::high_address(0x12344), true);
    assert_eq!((words::low_word(0x12344), high), (0x2344, 0xC001));
    assert_eq!(words::given_back(high), 0x4001);
    assert_eq!(words::text_address(0x2344, 0xC001), 0x12344);
}

#[test]
fn example_8_command_slots() {
    let area = Area {
        base: 1000,
        command: 3,
        response: 2,
    };
    assert_eq!(area.slot(Ring::Command, 0), 1016);
    assert_eq!(area.slot(Ring::Command, 7), 1044);
}

/// The credits that the first answers carry, read off the envelopes.
fn carried(limit: u8, answers: usize) -> Vec<u8> {
    let mut bytes = vec![0; 32768];
    let (mut port, mut host) = schedule::meet(0, 0, limit, 8, 2048, &mut bytes).expect("they meet");
    let memory = &mut Memory::lent(&mut bytes);
    let to_the_end = |step: &mut dyn FnMut() -> Reply| while step() == Reply::Going {};
    let mut credits = Vec::new();
    for _ in 0..answers {
        host.begin_send(false, b"");
        to_the_end(&mut || host.step_send(memory));
        port.begin_fetch();
        to_the_end(&mut || port.step_fetch(memory));
        port.begin_answer(b"");
        to_the_end(&mut || port.step_post(memory));
        credits.push(words::credits(memory.read(2050).expect("inside")));
        host.begin_take();
        to_the_end(&mut || host.step_take(memory));
    }
    credits
}

#[test]
fn examples_9_to_12_credits() {
    assert_eq!(carried(28, 3), [15, 14, 1]);
    assert_eq!(carried(16, 3), [15, 2, 1]);
    assert_eq!(carried(1, 2), [1, 1]);
    assert_eq!(carried(64, 6), [15, 15, 15, 15, 8, 1]);
}

#[test]
fn the_lines_of_the_schedule_program() {
    assert_eq!(
        schedule::line(&[0x24, 0x1C, 0x06, 0x86, 0xC8, 0x46, 0x06, 0x86, 0xC8, 0x46]),
        "sent 2 fetched 2 answered 2 taken 2 account 28 owed 0 wakes 0 2 sa 0000"
    );
    assert_eq!(
        schedule::line(&[0x00, 0x01, 0x06, 0x01]),
        "sent 1 fetched 0 answered 0 taken 0 account 0 owed 0 wakes 0 0 sa 0000"
    );
}
