//! Makes the list: each script is run by the Rust, which must do what the plain program says; only then the output
//! that follows is written down. Nothing here comes from the port.
use super::text::{Case, encode};
use super::{beside, chosen, rows};
use crate::lent::{LOG_FILL, STORE_FILL};
use crate::property::decoder::expected;
use crate::property::list::List;
use crate::script::SHOW_LOG;
use std::path::Path;

const RANDOM: usize = 30;
/// What the program that replays the list has room for.
const TEXT: usize = 250_000;
const SCRIPT: usize = 16_384;
const OUTPUT: usize = 32_768;

const HEADER: &str = "\
# Recorded answers of the Rust's pool and log (scheduler.rs, actor.rs, server.rs), made by
# `cargo run --release --bin record` in compare/: the Rust ran each list of calls with its file in a folder and
# scripted stand-ins for its interpreters, and every question, delivery, mark, turn's end and log was what the output
# says. Nothing here comes from the port.
#
# `<` a script and `>` the output that the port must write for it, its count included; the returned number is 0.
# `=` a title, printed by the program that replays the list. Hexadecimal bytes; `.` stands for seven zero bytes, `:`
# for six. `#` begins a comment.
";

/// The whole list, header included; `path` is where the Rust's file lies.
pub fn list(path: &Path) -> String {
    let mut lines: Vec<(String, List)> =
        rows::rows().into_iter().map(|(title, list)| (format!("={title}"), list)).collect();
    lines.extend(chosen::chosen().into_iter().map(|(what, list)| (format!("# {what}"), list)));
    let random = chosen::random(RANDOM).into_iter().enumerate();
    lines.extend(random.map(|(at, list)| (format!("# random {at}, {} calls", list.calls.len()), list)));
    let cases: Vec<Case> = lines.into_iter().map(|(line, list)| case(path, line, &list)).collect();
    let longest = |length: fn(&Case) -> usize| cases.iter().map(length).max().unwrap();
    let (script, output) = (longest(|case| case.script.len()), longest(|case| case.output.len()));
    let mut text = HEADER.to_string();
    text.push_str(&format!(
        "# {} scripts; the longest has {script} bytes, the longest output {output}.\n",
        cases.len()
    ));
    for case in &cases {
        text.push_str(&format!("{}\n<{}\n>{}\n", case.name, encode(&case.script), encode(&case.output)));
    }
    assert!(text.len() <= TEXT && script <= SCRIPT && output <= OUTPUT, "{} {script} {output}", text.len());
    text
}

/// Whether the line of a retry is ordered in a list.
fn retries(list: &List) -> bool {
    let mut pool = list.opening.model().expect("an accepted opening");
    for call in &list.calls {
        pool.call(call);
    }
    pool.retried
}

/// A script and its output, named by the whole line above them.
fn case(path: &Path, name: String, list: &List) -> Case {
    if let Err(error) = beside::the_rust(list, path) {
        panic!("{name}: the Rust does otherwise: {error}");
    }
    assert!(!retries(list), "{name}: a retry is written, and the Rust writes none");
    let script = list.script(SHOW_LOG).bytes().to_vec();
    let (log, store) = (vec![LOG_FILL; list.opening.log_len], vec![STORE_FILL; list.opening.store_len]);
    let output = expected(&script, &log, &store, usize::MAX);
    assert_eq!(output.code, crate::port::OK, "{name}");
    let output = output.out.into_iter().map(|byte| byte.expect("every byte is decided")).collect();
    Case { name, script, output }
}
