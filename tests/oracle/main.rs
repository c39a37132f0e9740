// Holds the program replay to maps: docs/oracle.md says how.

mod image;
mod layout;
mod program;
mod rng;
mod script;
mod tables;

use program::Answers;
use rng::Rng;
use script::Devices;
use std::collections::BTreeMap;
use std::env;
use std::process::ExitCode;
use std::time::{Duration, Instant};
use tables::{Call, Tables};

// What was seen.
#[derive(Default)]
pub struct Seen {
    calls: u64,
    cuts: u64,
    twins: u64,
    images: u64,
    mounted: u64,
    // The trees of mounted images, by their height.
    heights: [u64; 6],
    refusals: BTreeMap<u32, u64>,
}

impl Seen {
    pub fn answer(&mut self, call: Call, answer: &str) {
        self.calls += 1;
        if matches!(
            call,
            Call::CutOld | Call::CutNew | Call::CutTorn | Call::CutFinish(_)
        ) && answer == "ok"
        {
            self.cuts += 1;
        }
        self.refusal(answer);
    }

    pub fn refusal(&mut self, answer: &str) {
        let Some(rest) = answer.strip_prefix("refused ") else {
            return;
        };
        let number = rest.split(' ').next().and_then(|n| n.parse().ok());
        *self.refusals.entry(number.unwrap_or(0)).or_default() += 1;
    }

    fn print(&self) {
        println!(
            "{} calls, {} cuts, {} lists made again with other angles, {} images, {} of them mounted",
            self.calls, self.cuts, self.twins, self.images, self.mounted
        );
        println!(
            "trees of mounted images by height, 1 to 5: {:?}",
            &self.heights[1..]
        );
        for (number, times) in &self.refusals {
            println!("refused {number}: {times}");
        }
    }
}

fn script_text(devices: Devices, calls: &[Call]) -> String {
    let mut text = format!("{devices}\n");
    for call in calls {
        text.push_str(&call.to_string());
        text.push('\n');
    }
    text
}

// A refusal for want of blocks or writes.
fn is_late(answer: &str) -> bool {
    ["refused 10", "refused 11"]
        .iter()
        .any(|late| answer.starts_with(late))
}

// Holds each answer to the maps.
pub fn hold(
    tables: &mut Tables,
    calls: &[Call],
    answers: &mut Answers<'_>,
    seen: &mut Seen,
) -> Result<Vec<String>, String> {
    let mut given = Vec::new();
    for (i, call) in calls.iter().enumerate() {
        let Some(got) = answers.next() else {
            return Err(format!("call {i}, {call}: no answer"));
        };
        let late = is_late(&got).then_some(got.as_str());
        let due = tables.answer(*call, late).to_string();
        if got != due {
            return Err(format!("call {i}, {call}: {got}\ndue: {due}"));
        }
        seen.answer(*call, &got);
        given.push(got);
    }
    Ok(given)
}

pub fn nothing_more(answers: &mut Answers<'_>) -> Result<(), String> {
    match answers.next() {
        None => Ok(()),
        Some(got) => Err(format!("after the last call: {got}")),
    }
}

// What an answer shows apart from angles.
fn pattern(answer: &str) -> String {
    let mut lines = answer.lines();
    let first = lines.next().unwrap_or("");
    let word = first.split(' ').next().unwrap_or("");
    if !["angle", "span", "sum", "rows"].contains(&word) {
        return answer.to_string();
    }
    if word != "rows" {
        return word.to_string();
    }
    let speeds: Vec<&str> = lines
        .map(|row| row.split(' ').next().unwrap_or(""))
        .collect();
    format!("{first} {}", speeds.join(" "))
}

fn run_script(
    binary: &str,
    devices: Devices,
    calls: &[Call],
    seen: &mut Seen,
) -> Result<Vec<String>, String> {
    let output = program::run(binary, script_text(devices, calls))?;
    let mut answers = Answers::new(&output);
    let mut tables = Tables::new().on(devices.blocks, devices.records);
    let given = hold(&mut tables, calls, &mut answers, seen)?;
    nothing_more(&mut answers)?;
    Ok(given)
}

// A list of calls, and the same with other angles.
fn one_list(binary: &str, rng: &mut Rng, seen: &mut Seen) -> Result<(), String> {
    let script = script::make(rng);
    let given = run_script(binary, script.devices, &script.calls, seen)?;
    if rng.once_in(3) {
        let calls = script::other_angles(rng, &script.calls);
        let others = run_script(binary, script.devices, &calls, seen)
            .map_err(|e| format!("with other angles: {e}"))?;
        for (i, (a, b)) in given.iter().zip(&others).enumerate() {
            if pattern(a) != pattern(b) {
                return Err(format!(
                    "call {i}, {}: {a}\nwith other angles: {b}",
                    calls[i]
                ));
            }
        }
        seen.twins += 1;
    }
    Ok(())
}

// First lines that no volume can be formatted on, and lines that are none.
fn first_lines(binary: &str, seen: &mut Seen) -> Result<(), String> {
    let cases = [
        ("memory 15 32", "refused 2"),
        ("memory 16 31", "refused 2"),
        ("memory 16 41", "refused 2"),
        ("memory 0 32", "refused 2"),
        ("memory 4097 32", "refused 2"),
        ("memory 4294967295 4294967295", "refused 2"),
        ("memory 16 0", "refused 2"),
        ("mirror 16 0 10", "refused 2"),
        ("mirror 16 64 10", "refused 2"),
        ("mirror 15 32 10", "refused 2"),
        ("mirror 16 32 0", "refused 11 layer 2 depth 2"),
        ("mirror 16 32 1", "refused 11 layer 2 depth 2"),
        ("memory 16", "bad line"),
        ("create 0", "bad line"),
        ("", "bad line"),
    ];
    for (first, due) in cases {
        let output = program::run(binary, format!("{first}\ncreate 0\n"))?;
        if output.trim_end() != due {
            return Err(format!("{first}: {output}\ndue: {due}"));
        }
        seen.refusal(due);
    }
    Ok(())
}

fn one_seed(binary: &str, seed: u64, seen: &mut Seen) -> Result<(), String> {
    let mut rng = Rng::new(seed);
    if seed % 5 == 0 {
        image::try_images(binary, &mut rng, seen)
    } else {
        one_list(binary, &mut rng, seen)
    }
}

// When to stop.
enum Limit {
    Seeds(u64),
    Calls(u64),
    Time(Duration),
}

struct Options {
    binary: String,
    seed: u64,
    limit: Limit,
}

const USAGE: &str = "usage: oracle REPLAY [--first SEED] [--seconds T | --calls N]";

// So many calls are made where nothing else is said.
const CALLS: u64 = 2_000_000;

fn options() -> Option<Options> {
    let mut args = env::args().skip(1);
    let binary = args.next()?;
    let (mut seed, mut limit) = (None, None);
    while let Some(arg) = args.next() {
        let number: u64 = args.next()?.parse().ok()?;
        match arg.as_str() {
            "--first" => seed = Some(number),
            "--calls" => limit = Some(Limit::Calls(number)),
            "--seconds" => limit = Some(Limit::Time(Duration::from_secs(number))),
            _ => return None,
        }
    }
    // A seed alone is one list.
    let limit = limit.unwrap_or(if seed.is_some() {
        Limit::Seeds(1)
    } else {
        Limit::Calls(CALLS)
    });
    Some(Options {
        binary,
        seed: seed.unwrap_or(1),
        limit,
    })
}

fn main() -> ExitCode {
    let Some(Options {
        binary,
        seed,
        limit,
    }) = options()
    else {
        eprintln!("{USAGE}");
        return ExitCode::from(2);
    };
    let start = Instant::now();
    let mut seen = Seen::default();
    if let Err(difference) = first_lines(&binary, &mut seen) {
        println!("{difference}");
        return ExitCode::FAILURE;
    }
    for done in 0.. {
        let over = match limit {
            Limit::Seeds(n) => done >= n,
            Limit::Calls(n) => seen.calls >= n,
            Limit::Time(t) => start.elapsed() >= t,
        };
        if over {
            break;
        }
        let seed = seed.wrapping_add(done);
        if let Err(difference) = one_seed(&binary, seed, &mut seen) {
            println!("{difference}\nseed {seed}: run it alone by --first {seed}");
            return ExitCode::FAILURE;
        }
    }
    seen.print();
    println!("oracle: {} calls, no difference", seen.calls);
    ExitCode::SUCCESS
}
