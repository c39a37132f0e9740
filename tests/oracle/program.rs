// The program that is tested: it is run once on a whole script.

use std::io::{Read, Write};
use std::process::{Command, Stdio};
use std::thread;

// What it prints, or why it did not end well.
pub fn run(binary: &str, script: String) -> Result<String, String> {
    let mut child = Command::new(binary)
        .stdin(Stdio::piped())
        .stdout(Stdio::piped())
        .spawn()
        .map_err(|e| format!("{binary} does not start: {e}"))?;
    let mut stdin = child.stdin.take().unwrap();
    let writer = thread::spawn(move || stdin.write_all(script.as_bytes()));
    let mut output = Vec::new();
    let read = child.stdout.take().unwrap().read_to_end(&mut output);
    read.map_err(|e| format!("its output is not read: {e}"))?;
    let status = child.wait().map_err(|e| format!("it does not end: {e}"))?;
    let _ = writer.join();
    if !status.success() {
        return Err(format!("it ends with {status}"));
    }
    String::from_utf8(output).map_err(|_| "its output is not text".to_string())
}

// The printed answers, each with the rows that follow it.
pub struct Answers<'a> {
    lines: std::str::Lines<'a>,
}

impl<'a> Answers<'a> {
    pub fn new(output: &'a str) -> Answers<'a> {
        Answers {
            lines: output.lines(),
        }
    }

    pub fn next(&mut self) -> Option<String> {
        let first = self.lines.next()?;
        let mut answer = first.to_string();
        if let Some(count) = first.strip_prefix("rows ") {
            for _ in 0..count.parse().unwrap_or(0) {
                answer.push('\n');
                answer.push_str(self.lines.next()?);
            }
        }
        Some(answer)
    }
}
