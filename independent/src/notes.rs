//! The `->` comments of a stored script: what stands there is what the call below them prints.
//!
//! `# -> going x4, done 2 4f4b | fetch-slot=1 fetch=idle`: the answers in order, without the ` 0 -`
//! of those that hand over no text; after `|` some items of the state; `name=0` or `name=idle` says
//! that there is no such item. `# -> = 0100`: bytes; spaces there only help the eye.

use std::collections::HashMap;

/// The first comment that is not what is printed: its line and what it should have said.
pub fn wrong(script: &str, printed: &str) -> Option<(usize, String)> {
    let mut lines: HashMap<usize, Vec<&str>> = HashMap::new();
    for line in printed.lines() {
        let (number, rest) = line.split_once(": ").unwrap_or((line, ""));
        if let Ok(number) = number.parse() {
            lines.entry(number).or_default().push(rest);
        }
    }
    let script: Vec<&str> = script.lines().collect();
    let skipped = |line: &str| line.is_empty() || line.starts_with('#');
    for (index, line) in script.iter().enumerate() {
        let Some(note) = line.strip_prefix("# -> ") else {
            continue;
        };
        let below = (index + 1..script.len()).find(|below| !skipped(script[*below]));
        let printed = below
            .and_then(|below| lines.get(&(below + 1)))
            .map_or(&[][..], Vec::as_slice);
        if !holds(note, printed) {
            return Some((index + 1, printed.join("\n")));
        }
    }
    None
}

fn holds(note: &str, printed: &[&str]) -> bool {
    if let Some(bytes) = note.strip_prefix("= ") {
        return printed == [bytes.replace(' ', "")];
    }
    let mut printed = printed.iter();
    for part in note.split(", ") {
        let (part, times) = match part.rsplit_once(" x") {
            Some((part, times)) => match times.parse() {
                Ok(times) => (part, times),
                Err(_) => return false,
            },
            None => (part, 1),
        };
        for _ in 0..times {
            if !printed.next().is_some_and(|line| says(part, line)) {
                return false;
            }
        }
    }
    printed.next().is_none()
}

/// Whether a printed line has an answer and, after `|`, some items.
fn says(part: &str, line: &str) -> bool {
    let (answer, wanted) = part.split_once(" | ").unwrap_or((part, ""));
    let (printed, rest) = line.split_once(" | ").unwrap_or((line, ""));
    let state = rest.split_once(" | ").map_or(rest, |(state, _)| state);
    let items: HashMap<&str, &str> = state
        .split(' ')
        .filter_map(|item| item.split_once('='))
        .collect();
    let is_so = |item: &str| match item.split_once('=') {
        Some((name, "0" | "idle")) => !items.contains_key(name),
        Some((name, value)) => items.get(name) == Some(&value),
        None => false,
    };
    printed.replacen(" 0 -", "", 1) == answer
        && wanted.split(' ').filter(|item| !item.is_empty()).all(is_so)
}
