//! Records and marks after which the two sides differ: bodies with a final CR, no room in the lent log, a rewrite, a
//! store that fails.
use super::port::{self, AMPLE, on, opening, record};
use super::rust::Rust;
use super::{Run, says};
use crate::model::pool::{Call, Reply};
use std::fs;

pub fn run(run: &mut Run) {
    body_with_final_cr(run);
    left_body_with_final_cr(run);
    no_room_for_a_done_line(run);
    no_room_for_a_record(run);
    two_writes(run);
    failed_rewrite(run);
    failed_append(run);
}

fn body_with_final_cr(run: &mut Run) {
    let mut rust = Rust::open(run, AMPLE, b"");
    rust.append("", "\r");
    run.differ(
        "a body with a final CR, opened again",
        r#"record "" "\r""#,
        says(rust.reopened(), r#"left [0 "" ""], next 1"#),
        says(port::reopens(&on(opening(AMPLE, AMPLE, b""), &[record(b"", b"\r")])), r#"left [0 "" "\r"], next 1"#),
    );
    // The turn marks the message that came first.
    let mut rust = Rust::open(run, 1, b"");
    rust.append("", "");
    rust.append("", "\r");
    rust.mark(0);
    let list = on(opening(AMPLE, 1, b""), &[record(b"", b""), record(b"", b"\r"), Call::Turn]);
    run.differ(
        "a body with a final CR, rewritten: the Rust's size is no longer its file's length",
        r#"compact_at 1; record "" ""; record "" "\r"; mark 0"#,
        says(rust.says(), r#"live 5, size 5, file "1\t\t\n""#),
        says(port::last(&list, port::says), r#"replace by 5; live 5, size 5, log "1\t\t\r\n""#),
    );
}

/// The first opening is the same on both sides; the next one is not.
fn left_body_with_final_cr(run: &mut Run) {
    let file = b"0\t\t\r\\\n";
    let rust = Rust::open(run, AMPLE, file);
    let list = on(opening(AMPLE, AMPLE, file), &[]);
    run.differ(
        "a left body with a final CR: the same log",
        r#"file "0\t\t\r\\\n""#,
        says(rust.says(), r#"live 5, size 5, file "0\t\t\r\n""#),
        says(port::last(&list, port::says), r#"replace by 5; live 5, size 5, log "0\t\t\r\n""#),
    );
    run.differ(
        "a left body with a final CR, opened again",
        r#"file "0\t\t\r\\\n", twice"#,
        says(rust.reopened(), r#"left [0 "" ""], next 1"#),
        says(port::reopens(&list), r#"left [0 "" "\r"], next 1"#),
    );
}

fn no_room_for_a_done_line(run: &mut Run) {
    let mut rust = Rust::open(run, 64, b"");
    rust.append("", "abcd");
    rust.append("", "abcd");
    rust.mark(0);
    let list = on(opening(16, 64, b""), &[record(b"", b"abcd"), record(b"", b"abcd"), Call::Turn]);
    run.differ(
        "no room for a done line",
        r#"L 16, compact_at 64; record "" "abcd"; record "" "abcd"; mark 0"#,
        says(rust.says(), r#"live 8, size 18, file "0\t\tabcd\n1\t\tabcd\n0\n""#),
        says(port::last(&list, port::says), r#"replace by 8; live 8, size 8, log "1\t\tabcd\n""#),
    );
}

fn no_room_for_a_record(run: &mut Run) {
    let mut rust = Rust::open(run, 64, b"");
    rust.append("", "abcd");
    rust.mark(0);
    rust.append("", "efgh");
    let list = on(opening(16, 64, b""), &[record(b"", b"abcd"), Call::Turn, record(b"", b"efgh")]);
    run.differ(
        "no room for a record",
        r#"L 16, compact_at 64; record "" "abcd"; mark 0; record "" "efgh""#,
        says(rust.says(), r#"live 8, size 18, file "0\t\tabcd\n0\n1\t\tefgh\n""#),
        says(port::last(&list, port::says), r#"replace by 8; live 8, size 8, log "1\t\tefgh\n""#),
    );
}

/// The Rust writes the done line before it rewrites: where the rewrite cannot be made, the line stands.
fn two_writes(run: &mut Run) {
    let list = on(opening(AMPLE, 1, b""), &[record(b"", b""), Call::Turn]);
    let rust = unable_to_rewrite(run, |rust| {
        rust.append("", "");
        rust.mark(0);
    });
    run.differ(
        "a mark that rewrites is two writes, or one order",
        r#"compact_at 1; record "" ""; mark 0, whose rewrite cannot be made"#,
        says(rust, r#"live 0, size 6, file "0\t\t\n0\n""#),
        says(port::last(&list, port::says), r#"replace by 0; live 0, size 0, log """#),
    );
}

fn failed_rewrite(run: &mut Run) {
    let rust = unable_to_rewrite(run, |rust| {
        rust.append("", "");
        rust.mark(0);
        rust.append("", "b");
    });
    let mut list = on(opening(AMPLE, 1, b""), &[record(b"", b""), Call::Turn]);
    list.calls.extend([Call::Reply(Reply::Failed), record(b"", b"b")]);
    run.differ(
        "a record after a rewrite that failed",
        r#"compact_at 1; record "" ""; mark 0, failed; record "" "b""#,
        says(rust, r#"live 5, size 11, file "0\t\t\n0\n1\t\tb\n""#),
        says(port::last(&list, port::says), "refused 14"),
    );
}

/// The Rust's log with a folder where it would write the new file.
fn unable_to_rewrite(run: &Run, make: impl FnOnce(&mut Rust)) -> String {
    let mut rust = Rust::open(run, 1, b"");
    let folder = run.path.with_extension("wal.tmp");
    fs::create_dir(&folder).unwrap();
    make(&mut rust);
    let said = rust.says();
    fs::remove_dir(&folder).unwrap();
    said
}

/// The Rust counts what it could not write, and goes on.
fn failed_append(run: &mut Run) {
    let mut rust = Rust::open(run, AMPLE, b"");
    no_file_may_grow(|| {
        rust.append("", "a");
        rust.append("", "b");
    });
    let mut list = on(opening(AMPLE, AMPLE, b""), &[record(b"", b"a")]);
    list.calls.push(Call::Reply(Reply::Failed));
    let after = [record(b"", b"b"), Call::Turn, Call::Sync, Call::Close, Call::Reply(Reply::Stored)].map(|call| {
        let mut list = list.clone();
        list.calls.push(call);
        port::last(&list, port::says)
    });
    run.differ(
        "calls after a failed store",
        r#"record "" "a", failed; record "" "b", turn, sync, close or reply"#,
        says(rust.says(), r#"live 10, size 0, file """#),
        says(after.join(", "), "refused 14, refused 14, refused 14, refused 14, refused 14"),
    );
}

unsafe extern "C" {
    fn setrlimit(which: i32, limit: *const [u64; 2]) -> i32;
    fn getrlimit(which: i32, limit: *mut [u64; 2]) -> i32;
    fn signal(number: i32, handler: usize) -> usize;
}

/// Runs with the limit of a file's size at 0, as on a full disk. Nothing may be printed meanwhile.
fn no_file_may_grow(run: impl FnOnce()) {
    const FILE_SIZE: i32 = 1;
    const SIZE_SIGNAL: i32 = 25;
    const IGNORE: usize = 1;
    let mut usual = [0; 2];
    // SAFETY: plain calls of the C library; the arrays are the two numbers of an rlimit and outlive the calls.
    unsafe {
        assert_eq!(getrlimit(FILE_SIZE, &mut usual), 0);
        signal(SIZE_SIGNAL, IGNORE);
        assert_eq!(setrlimit(FILE_SIZE, &[0, usual[1]]), 0);
    }
    run();
    // SAFETY: as above.
    unsafe {
        assert_eq!(setrlimit(FILE_SIZE, &usual), 0);
        signal(SIZE_SIGNAL, 0);
    }
}
