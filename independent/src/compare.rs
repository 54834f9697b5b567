//! Compares the proved programs with this implementation, on random and on stored cases.

use std::fs;
use std::io::{self, Write};
use std::path::{Path, PathBuf};
use std::process::{Command, Stdio};

use crate::coverage::Coverage;
use crate::generate;
use crate::notes;
use crate::random::Random;
use crate::schedule;
use crate::script::{self, NoWatch};

/// Scripts are put together up to this many bytes for a run of the program.
const BATCH: usize = 900_000;
/// From this many scripts on, everything in the coverage table has to be reached.
const MANY: u64 = 500;

/// What went wrong: a text for the reader.
pub type Trouble = String;

/// Runs a shell command with this input; what it prints on standard output.
fn run(command: &str, input: &[u8]) -> Result<Vec<u8>, Trouble> {
    let failed = |error: io::Error| format!("{command}: {error}\n");
    let mut child = Command::new("sh")
        .args(["-c", command])
        .stdin(Stdio::piped())
        .stdout(Stdio::piped())
        .spawn()
        .map_err(failed)?;
    let mut pipe = child.stdin.take();
    let output = std::thread::scope(|scope| {
        scope.spawn(move || {
            // A program that stops reading early has its output compared like any other.
            if let Some(pipe) = &mut pipe {
                let _ = pipe.write_all(input);
            }
            drop(pipe);
        });
        child.wait_with_output()
    });
    let output = output.map_err(failed)?;
    if !output.status.success() {
        return Err(format!("{command}: {}\n", output.status));
    }
    Ok(output.stdout)
}

/// The first line in which two outputs part: its index and both lines, None where one has ended.
fn parting<'a>(
    expected: &'a str,
    got: &'a str,
) -> Option<(usize, Option<&'a str>, Option<&'a str>)> {
    let (mut ours, mut theirs) = (expected.split('\n'), got.split('\n'));
    for index in 0.. {
        let (our, their) = (ours.next(), theirs.next());
        if our != their {
            return Some((index, our, their));
        }
        our?;
    }
    None
}

/// `LINE` of an output line.
fn script_line(line: Option<&str>) -> Option<usize> {
    line?.split(':').next()?.parse().ok()
}

fn shown(line: Option<&str>) -> &str {
    line.unwrap_or("(no line)")
}

/// The part of a batch that leads to the difference: from its `new` to the line.
fn leading_part(batch: &str, line: usize) -> String {
    let lines: Vec<&str> = batch.lines().take(line).collect();
    let start = lines.iter().rposition(|line| *line == "new").unwrap_or(0);
    lines[start..].join("\n")
}

fn compare_script(input: &[u8], command: &str, coverage: &mut Coverage) -> Result<(), Trouble> {
    let expected = script::replay(input, coverage);
    let got = run(command, input)?;
    let got = String::from_utf8_lossy(&got);
    match parting(&expected, &got) {
        None => Ok(()),
        Some((_, our, their)) => {
            let input = String::from_utf8_lossy(input);
            let line = script_line(our)
                .or(script_line(their))
                .unwrap_or(input.lines().count());
            Err(format!(
                "{}\n# expected {}\n# got      {}\n",
                leading_part(&input, line),
                shown(our),
                shown(their)
            ))
        }
    }
}

fn compare_schedule(input: &[u8], expected: &str, command: &str) -> Result<(), Trouble> {
    let got = run(command, input)?;
    if got == expected.as_bytes() {
        return Ok(());
    }
    Err(format!(
        "schedule {}\nexpected {expected}got      {}\n",
        hex(input),
        String::from_utf8_lossy(&got)
    ))
}

fn hex(bytes: &[u8]) -> String {
    bytes.iter().map(|byte| format!("{byte:02x}")).collect()
}

/// Random scripts and schedules; the lines to print if nothing differs.
pub fn random(
    seed: u64,
    scripts: u64,
    schedules: u64,
    replay: &str,
    schedule: &str,
) -> Result<String, Trouble> {
    let mut source = Random::new(seed);
    let mut coverage = Coverage::new();
    let mut batch = String::new();
    for _ in 0..scripts {
        let next = generate::script(&mut source);
        if !batch.is_empty() && batch.len() + next.len() > BATCH {
            compare_script(batch.as_bytes(), replay, &mut coverage)?;
            batch.clear();
        }
        batch.push_str(&next);
    }
    if !batch.is_empty() {
        compare_script(batch.as_bytes(), replay, &mut coverage)?;
    }
    let spoiled = scripts / 2;
    for _ in 0..spoiled {
        compare_script(&generate::spoiled(&mut source), replay, &mut coverage)?;
    }
    for _ in 0..schedules {
        let input = generate::schedule(&mut source);
        let expected = schedule::line(&input) + "\n";
        compare_schedule(&input, &expected, schedule)?;
    }
    let missed = coverage.missed();
    let table = coverage.table();
    if scripts >= MANY && !missed.is_empty() {
        return Err(format!("{table}never reached: {}\n", missed.join(", ")));
    }
    Ok(format!(
        "compared {scripts} scripts ({} calls), {spoiled} with a spoiled line and {schedules} \
         schedules, seed {seed}: no difference\n{table}",
        coverage.calls
    ))
}

/// The files of a folder with this ending, sorted.
fn cases(folder: &Path, ending: &str) -> Result<Vec<PathBuf>, Trouble> {
    let failed = |error: io::Error| format!("{}: {error}\n", folder.display());
    let mut paths = Vec::new();
    for entry in fs::read_dir(folder).map_err(failed)? {
        let path = entry.map_err(failed)?.path();
        if path.extension().is_some_and(|found| found == ending) {
            paths.push(path);
        }
    }
    paths.sort();
    Ok(paths)
}

fn read(path: &Path) -> Result<Vec<u8>, Trouble> {
    fs::read(path).map_err(|error| format!("{}: {error}\n", path.display()))
}

/// Hex digits; whitespace and lines that start with `#` do not count.
fn schedule_bytes(text: &str) -> Option<Vec<u8>> {
    let digits: Vec<u8> = text
        .lines()
        .filter(|line| !line.starts_with('#'))
        .flat_map(str::chars)
        .filter(|digit| !digit.is_whitespace())
        .map(|digit| digit.to_digit(16).map(|value| value as u8))
        .collect::<Option<_>>()?;
    if !digits.len().is_multiple_of(2) {
        return None;
    }
    Some(
        digits
            .chunks(2)
            .map(|pair| pair[0] << 4 | pair[1])
            .collect(),
    )
}

/// The stored output against one program's.
fn agree(path: &Path, stored: &str, whose: &str, got: &[u8]) -> Result<(), Trouble> {
    let got = String::from_utf8_lossy(got);
    match parting(stored, &got) {
        None => Ok(()),
        Some((index, our, their)) => Err(format!(
            "{}: line {} differs\nstored {}\n{whose} {}\n",
            path.display(),
            index + 1,
            shown(our),
            shown(their)
        )),
    }
}

/// Every stored case of a folder, through both implementations.
pub fn stored(folder: &str, replay: &str, schedule: &str) -> Result<String, Trouble> {
    let folder = Path::new(folder);
    let mut count = 0;
    for path in cases(folder, "script")? {
        let out = path.with_extension("out");
        let stored = read(&out)?;
        let stored = String::from_utf8_lossy(&stored);
        let input = read(&path)?;
        let own = script::replay(&input, &mut NoWatch);
        if let Some((line, printed)) = notes::wrong(&String::from_utf8_lossy(&input), &own) {
            let path = path.display();
            return Err(format!("{path}: line {line} is wrong\nprinted {printed}\n"));
        }
        agree(&out, &stored, "independent", own.as_bytes())?;
        agree(&out, &stored, "program", &run(replay, &input)?)?;
        count += 1;
    }
    for path in cases(folder, "schedule")? {
        let out = path.with_extension("out");
        let stored = read(&out)?;
        let stored = String::from_utf8_lossy(&stored);
        let text = read(&path)?;
        let input = schedule_bytes(&String::from_utf8_lossy(&text))
            .ok_or_else(|| format!("{}: not hex digits\n", path.display()))?;
        let own = schedule::line(&input) + "\n";
        agree(&out, &stored, "independent", own.as_bytes())?;
        agree(&out, &stored, "program", &run(schedule, &input)?)?;
        count += 1;
    }
    if count == 0 {
        return Err(format!("{}: no case\n", folder.display()));
    }
    Ok(format!("{count} stored cases: no difference\n"))
}
