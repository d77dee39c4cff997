//! Files that the two sides read differently.
use super::rust::Rust;
use super::{Run, port, says, unless_it_panics};

/// What is different, the file, what the Rust says, what the port says.
const FILES: [(&str, &[u8], &str, &str); 12] = [
    ("a torn done line", b"0\t\t\n0", r#"left [], next 1"#, r#"left [0 "" ""], next 1"#),
    (
        "a done line torn into another id",
        b"12\trow\tx\n1\trow\ty\n1",
        r#"left [12 "row" "x"], next 13"#,
        r#"left [1 "row" "y", 12 "row" "x"], next 13"#,
    ),
    ("a torn record", b"0\t\t", r#"left [0 "" ""], next 1"#, "left [], next 0"),
    ("a torn body", b"0\trow\thal", r#"left [0 "row" "hal"], next 1"#, "left [], next 0"),
    ("CR before LF in a record", b"0\t\t\r\n", r#"left [0 "" ""], next 1"#, r#"left [0 "" "\r"], next 1"#),
    ("CR before LF in a done line", b"0\t\t\n0\r\n", "left [], next 1", r#"left [0 "" ""], next 1"#),
    ("a body that is not UTF-8", b"0\t\t\xFF\n", "left [], next 0", r#"left [0 "" "\xff"], next 1"#),
    ("a line that is not UTF-8, and one after it", b"\xFF\n0\t\t\n", "left [], next 0", r#"left [0 "" ""], next 1"#),
    ("a record with a plus before its id", b"+5\trow\tx\n", r#"left [5 "row" "x"], next 6"#, "left [], next 0"),
    ("a record with a zero before its id", b"05\t\t\n", r#"left [5 "" ""], next 6"#, "left [], next 0"),
    ("a done line with a zero before its id", b"5\t\t\n05\n", "left [], next 6", r#"left [5 "" ""], next 6"#),
    (
        "a line of two ids, of an open record",
        b"5\trow\tx\n5\t2\n",
        r#"left [5 "row" "x"], next 6"#,
        r#"left [5 "row" "x" attempts 2], next 6"#,
    ),
];

const LAST_RECORD: &[u8] = b"18446744073709551615\t\t\n";

pub fn run(run: &mut Run) {
    for (what, file, rust, port) in FILES {
        compare(run, what, file, rust, port);
    }
    // The sum of the largest id and 1 ends a Rust that checks sums, and is 0 in one that does not.
    let rust = if cfg!(debug_assertions) { "panics" } else { "left [18446744073709551615 \"\" \"\"], next 0" };
    compare(run, "a record with the last id", LAST_RECORD, rust, "refused 3");
}

fn compare(run: &mut Run, what: &str, file: &[u8], rust: &'static str, port: &'static str) {
    let input = format!("file \"{}\"", file.escape_ascii());
    let found = unless_it_panics(|| Rust::open(run, port::AMPLE, file).left()).unwrap_or("panics".into());
    run.differ(what, &input, says(found, rust), says(port::opens(file), port));
}
