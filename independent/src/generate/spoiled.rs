//! Lines that are most often no calls.

use crate::random::Random;

/// Each call once, with arguments that it takes: those of words alone,
const PLAIN: [&str; 9] = [
    "new",
    "write-ip",
    "read-sa",
    "begin-fetch",
    "step-post",
    "time-is-up",
    "begin-take",
    "clear-command",
    "clear-response",
];

/// those with numbers,
const NUMBERED: [&str; 12] = [
    "memory 64",
    "fill 0xAb",
    "poke 2 0x1234",
    "peek 0 8",
    "create 0 1 0 99 28",
    "write-sa 0x9A9B",
    "step-fetch 2",
    "begin 3 2 1 0x1B 8",
    "sa-seen 0x0800",
    "set-up 64",
    "step-send 3",
    "step-take 1",
];

/// and those with a text.
const WITH_TEXT: [&str; 3] = [
    "begin-answer 0102",
    "begin-unsolicited -",
    "begin-send 1 a1B2",
];

/// What may stand for a word: no numbers, no texts, and numbers that any place takes.
const WORDS: [&str; 13] = [
    "",
    "-",
    "--",
    "+1",
    "-1",
    "0x",
    "0X1",
    "x1",
    "1x",
    "0xg",
    "00000000000000000001",
    "1",
    "abc",
];

/// Numbers at the ends of what a place takes.
const LARGE: [&str; 13] = [
    "2",
    "65",
    "255",
    "256",
    "0x100",
    "65535",
    "65536",
    "100001",
    "262401",
    "4294967295",
    "4294967296",
    "0x100000000",
    "99999999999999999999999999",
];

/// A short script with such a line between two calls; it ends in one of the ways that a line may.
pub fn spoiled(random: &mut Random) -> Vec<u8> {
    let line = match random.below(10) {
        0..=4 => random.pick(&NUMBERED),
        5..=8 => random.pick(&WITH_TEXT),
        _ => random.pick(&PLAIN),
    };
    let mut words: Vec<Vec<u8>> = line.split(' ').map(Vec::from).collect();
    for _ in 0..random.from(1, 2) {
        spoil(random, &mut words);
    }
    let mut script = b"read-sa\n".to_vec();
    script.extend(words.join(&b' '));
    script.extend(random.pick(&["\n", "\r\n", "\n", "\r", ""]).bytes());
    if script.ends_with(b"\n") {
        script.extend(b"read-sa\n");
    }
    script
}

/// Spoils a word, most often the last.
fn spoil(random: &mut Random, words: &mut Vec<Vec<u8>>) {
    let last = words.len() - 1;
    let at = match random.chance(70) {
        true => last,
        false => random.below(words.len() as u32) as usize,
    };
    match random.below(11) {
        0 | 1 if last > 0 => {
            words.pop();
        }
        2 => words.insert(at, Vec::new()),
        3 => words.push(random.pick(&WORDS).into()),
        4 | 5 if last > 0 => words[last] = digits(random),
        6 => {
            let byte = random.pick(b"\0 \t\rxX0fg-#\x7f\xff");
            let place = random.below(words[at].len() as u32 + 1) as usize;
            words[at].insert(place, byte);
        }
        7 => {
            words[at].pop();
        }
        8 | 9 if last > 0 => words[at.max(1)] = random.pick(&LARGE).into(),
        10 if last > 0 => words[at.max(1)] = random.pick(&WORDS).into(),
        _ => words[at].push(b'x'),
    }
}

/// Hexadecimal digits, about as many as the longest text has.
fn digits(random: &mut Random) -> Vec<u8> {
    let count = random.from(126, 131);
    let mut digits: Vec<u8> = (0..count)
        .map(|_| random.pick(b"0123456789abcdefABCDEF"))
        .collect();
    if random.chance(25) {
        digits[0] = b'g';
    }
    digits
}
