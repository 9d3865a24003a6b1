//! Makes one call of the reference on the same areas again and again, so that callgrind can count one.
//!   calls LINE AREA RECORD TIMES load|fresh|operate   prints the answer

use reference::limits::ANSWER_BYTES;
use reference::{fresh, load_check, operate};
use std::hint::black_box;
use std::process::ExitCode;

fn main() -> ExitCode {
    let words: Vec<String> = std::env::args().skip(1).collect();
    match run(&words) {
        Ok(number) => {
            println!("{number}");
            ExitCode::SUCCESS
        }
        Err(message) => {
            eprintln!("{message}");
            ExitCode::FAILURE
        }
    }
}

/// The answer of the last call.
fn run(words: &[String]) -> Result<u32, String> {
    let [line, area, record, times, call] = words else {
        return Err("calls LINE AREA RECORD TIMES load|fresh|operate".to_string());
    };
    let read = |name: &String| std::fs::read(name).map_err(|error| format!("{name}: {error}"));
    let (line, area, record) = (read(line)?, read(area)?, read(record)?);
    let times: u32 = times.parse().map_err(|_| "TIMES is a number".to_string())?;
    let (mut state, mut answer) = (area.clone(), [0; ANSWER_BYTES]);
    let mut number = 0;
    for _ in 0..times {
        // The compiler must not see that all calls are the same.
        let line = black_box(&line[..]);
        number = if call == "load" {
            load_check(line)
        } else {
            state.copy_from_slice(&area);
            match call.as_str() {
                "fresh" => fresh(line, black_box(&mut state)),
                _ => operate(line, black_box(&mut state), black_box(&record), &mut answer),
            }
        };
    }
    Ok(number)
}
