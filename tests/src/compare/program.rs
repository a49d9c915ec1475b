//! The program `shrink` as a child process, started by tools/run-shrink: what it prints and its status, against what the second program says.

use super::{known, texts, Compare};
use crate::second::shrink::shrink;
use std::io::Write;
use std::process::{Command, Stdio};

pub fn fixed_cases() -> usize {
    known::books().len() + texts::limit_cases()
}

/// Document 01's books, then the texts at the limits.
pub fn fixed(compare: &mut Compare, case: usize) {
    let mut books = known::books();
    if case < books.len() {
        run_on(compare, books.swap_remove(case).text);
    } else {
        run_on(compare, &texts::limit_text(case - books.len()));
    }
}

/// A random text.
pub fn run(compare: &mut Compare, _case: usize) {
    let text = texts::random_text(&mut compare.random);
    run_on(compare, &text);
}

fn run_on(compare: &mut Compare, text: &[u8]) {
    let program = match &compare.shrink {
        Some(program) => program.clone(),
        None => return,
    };
    compare.count_call();
    let expected = shrink(text);
    let expected_status = Some(i32::from(expected.starts_with("refused")));
    let (got, status) = match output(&program, text) {
        Ok(got) => got,
        Err(error) => compare.differ(&format!("{} cannot be run: {}", program, error)),
    };
    if compare.loud {
        println!("shrink of {}", text.escape_ascii());
    }
    let shown = |bytes: &[u8]| bytes[..bytes.len().min(2_000)].escape_ascii().to_string();
    if status != expected_status {
        compare.differ(&format!(
            "shrink of {} ended with status {:?}, not {:?}",
            shown(text),
            status,
            expected_status
        ));
    }
    if got != expected.as_bytes() {
        let (input, printed, right) = (shown(text), shown(&got), shown(expected.as_bytes()));
        compare.differ(&format!(
            "shrink of {} bytes: {}\nprinted: {}\nmust print: {}",
            text.len(),
            input,
            printed,
            right
        ));
    }
}

/// What the program prints on standard output for this standard input, and its status.
fn output(program: &str, input: &[u8]) -> std::io::Result<(Vec<u8>, Option<i32>)> {
    let mut child = Command::new(program)
        .stdin(Stdio::piped())
        .stdout(Stdio::piped())
        .stderr(Stdio::inherit())
        .spawn()?;
    let mut stdin = child.stdin.take().expect("standard input is piped");
    let input = input.to_vec();
    // A program may print before it has read all, and need not read what is too long.
    let writer = std::thread::spawn(move || {
        let _ = stdin.write_all(&input);
    });
    let output = child.wait_with_output()?;
    let _ = writer.join();
    Ok((output.stdout, output.status.code()))
}
