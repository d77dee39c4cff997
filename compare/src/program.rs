//! What the programs have in common: numbers as arguments, and how they end.
use std::process::ExitCode;

/// The program's arguments as numbers, with the defaults of those that are not given.
pub fn numbers<const MOST: usize>(defaults: [u64; MOST]) -> Option<[u64; MOST]> {
    let arguments: Vec<String> = std::env::args().skip(1).collect();
    parsed(&arguments, defaults)
}

/// Arguments as numbers, with the defaults of those that are not given; None where one is no number, or there are more.
pub fn parsed<const MOST: usize>(arguments: &[impl AsRef<str>], defaults: [u64; MOST]) -> Option<[u64; MOST]> {
    if arguments.len() > MOST {
        return None;
    }
    let mut numbers = defaults;
    for (number, text) in numbers.iter_mut().zip(arguments) {
        *number = text.as_ref().parse().ok()?;
    }
    Some(numbers)
}

/// The end of a program that was called wrongly.
pub fn usage(usage: &str) -> ExitCode {
    eprintln!("usage: {usage}");
    ExitCode::from(2)
}

/// The end of a program that ran.
pub fn ended(passed: bool) -> ExitCode {
    if passed { ExitCode::SUCCESS } else { ExitCode::FAILURE }
}
