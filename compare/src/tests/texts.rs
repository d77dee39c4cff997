//! Fields, ids, records, attempts and lines (docs/RULES.md, section 2; row ends 1, 2 and 5).
use crate::model::log::{Line, LogId, done_line, escape, no_retry, one_spelling, other_spelling, read_id, read_line};
use crate::model::log::{record, retry_line, unescape, whole_lines};

#[test]
fn three_bytes_are_escaped() {
    assert_eq!(escape(b"a\tb\nc\\d"), b"a\\tb\\nc\\\\d");
    assert_eq!(escape(b"\r\0\xFF plain"), b"\r\0\xFF plain");
    assert_eq!(escape(b""), b"");
}

#[test]
fn row_end_2_how_a_field_is_read() {
    assert_eq!(unescape(b"a\\"), b"a");
    assert_eq!(unescape(b"\\q"), b"q");
    assert_eq!(unescape(b"\\\\t"), b"\\t");
    assert_eq!(unescape(b"\\t\\n\\\\"), b"\t\n\\");
    assert_eq!(unescape(b"\\"), b"");
}

#[test]
fn every_text_comes_back_from_its_escape() {
    for first in 0..=255 {
        for second in [b'\\', b'\t', b'\n', b't', b'n', b'q', 0] {
            let text = [first, second];
            assert_eq!(unescape(&escape(&text)), text);
            assert!(!escape(&text).iter().any(|byte| matches!(byte, b'\t' | b'\n')));
        }
    }
}

#[test]
fn row_end_1_how_a_record_is_written() {
    assert_eq!(record(LogId(7), b"row", b"a\tb"), b"7\trow\ta\\tb\n");
    assert_eq!(record(LogId(7), b"row", b"a\tb").len(), 11);
    assert_eq!(record(LogId(0), b"", b""), b"0\t\t\n");
    assert_eq!(done_line(LogId(12)), b"12\n");
}

#[test]
fn which_fields_are_ids() {
    for (field, id) in [(&b"0"[..], 0), (b"5", 5), (b"10", 10), (b"18446744073709551615", u64::MAX)] {
        assert_eq!((read_id(field), other_spelling(field)), (Some(id), None));
    }
    for (field, id) in [(&b"+5"[..], 5), (b"007", 7), (b"+0012", 12), (b"00", 0), (b"018446744073709551615", u64::MAX)]
    {
        assert_eq!((read_id(field), other_spelling(field)), (None, Some(id)));
    }
    for field in [&b""[..], b"+", b"++1", b"-1", b" 1", b"1 ", b"1a", b"0x1", b"18446744073709551616"] {
        assert_eq!((read_id(field), other_spelling(field)), (None, None));
    }
}

/// The Rust reads a field with `parse`. Of what it takes an id is what would be written for it, all else is another
/// spelling.
#[test]
fn an_id_is_what_is_written_for_it() {
    for field in short_fields("+-/0159: x").into_iter().chain(long_fields()) {
        let parsed: Option<u64> = field.parse().ok();
        let (same, other) = (parsed.filter(|id| id.to_string() == field), parsed.filter(|id| id.to_string() != field));
        assert_eq!((read_id(field.as_bytes()), other_spelling(field.as_bytes())), (same, other), "{field}");
    }
}

/// Every field of up to four of these signs.
fn short_fields(signs: &str) -> Vec<String> {
    let mut fields = vec![String::new()];
    let mut at = 0;
    while fields[at].len() < 4 {
        let longer: Vec<String> = signs.chars().map(|sign| format!("{}{sign}", fields[at])).collect();
        fields.extend(longer);
        at += 1;
    }
    fields
}

/// Numbers near the end of the ids, with and without something in front.
fn long_fields() -> Vec<String> {
    let numbers = ["9999999999999999999", "18446744073709551614", "18446744073709551615", "18446744073709551616"];
    let in_front = |number: &str| ["", "+", "0", "+0", "++", "-", "000"].map(|front| front.to_string() + number);
    numbers.into_iter().flat_map(in_front).collect()
}

#[test]
fn which_files_the_domain_has() {
    for file in [&b""[..], b"5\t\t\n5\n0\t\t\n0\n", b"5x\t\t\n-5\n\n+\n++5\t\t\n\t\t\n", b"018446744073709551616\n"] {
        assert!(one_spelling(file), "{}", file.escape_ascii());
    }
    // A line of two or four fields is skipped by both sides.
    assert!(one_spelling(b"+5\ta\n05\ta\tb\tc\n"));
    for file in [&b"+5\t\t\n"[..], b"05\t\t\n", b"5\t\t\n05\n", b"+0\n", b"x\n018446744073709551615\ta\tb\nx\n"] {
        assert!(!one_spelling(file), "{}", file.escape_ascii());
    }
}

#[test]
fn row_end_5_which_lines_say_something() {
    assert_eq!(read_line(b"5\trow\tx"), Line::Record(5, b"row", b"x"));
    assert_eq!(read_line(b"0\t\t"), Line::Record(0, b"", b""));
    assert_eq!(read_line(b"3"), Line::Done(3));
    for line in [&b"5\trow"[..], b"", b"x", b"1\ta\tb\tc", b"x\ta\tb", b"+5\trow\tx", b"05\trow\tx", b"+5", b"05"] {
        assert_eq!(read_line(line), Line::Skip);
    }
}

#[test]
fn which_lines_are_attempts() {
    assert_eq!(retry_line(LogId(0), 1), b"0\t1\n");
    assert_eq!(retry_line(LogId(u64::MAX - 1), 255), b"18446744073709551614\t255\n");
    for (line, id, attempts) in [(&b"5\t2"[..], 5, 2), (b"0\t0", 0, 0), (b"5\t255", 5, 255), (b"10\t10", 10, 10)] {
        assert_eq!(read_line(line), Line::Retry(id, attempts));
    }
    assert_eq!(read_line(b"18446744073709551615\t1"), Line::Retry(u64::MAX, 1));
    for line in [&b"5\t256"[..], b"5\t02", b"5\t+2", b"5\t-2", b"5\t", b"5\tx", b"5\t2 ", b"5\t2\r", b"\t2", b"05\t2"]
    {
        assert_eq!(read_line(line), Line::Skip, "{}", line.escape_ascii());
    }
    assert_eq!(read_line(b"5\t18446744073709551618"), Line::Skip);
    assert_eq!(read_line(b"5\t2\t3"), Line::Record(5, b"2", b"3"));
}

/// No line of two ids, whether its number is one of attempts, and whether its id is open.
#[test]
fn which_files_of_two_fields_the_domain_has() {
    for file in [&b""[..], b"5\trow\n", b"5\t02\n05\t2\n", b"5\t\n\t5\n\t\n", b"5\t2\t3\n", b"5\t2", b"+5\t+2\n"] {
        assert!(no_retry(file), "{}", file.escape_ascii());
    }
    for file in [&b"5\t2\n"[..], b"5\t0\n", b"5\t\t\n5\t256\n", b"x\n18446744073709551615\t1\nx\n"] {
        assert!(!no_retry(file), "{}", file.escape_ascii());
    }
}

#[test]
fn bytes_after_the_last_lf_are_no_line() {
    assert_eq!(whole_lines(b"ab\n\nc"), [(0, 2), (3, 3)]);
    assert_eq!(whole_lines(b"c"), []);
}
