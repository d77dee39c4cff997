//! What the Rust takes and the port turns away: texts, counts, ids and room past their limits.
use super::port::{self, AMPLE, on, opening, record};
use super::rust::{Rust, called};
use super::{Run, Says, says, unless_it_panics};
use crate::model::log::CallerId;
use crate::model::pool::{Call, GroupSetting};
use crate::output::Answer;
use crate::property::list::{List, Making};

pub fn run(run: &mut Run) {
    let crowd: String = (0..257).map(|id| format!("{id}\t\t\n")).collect();
    left(run, "257 messages left", "records 0 to 256, empty", &crowd, "257 left");
    left(run, "a left name of 33 bytes", "a record with it", &format!("0\t{}\t\n", "n".repeat(33)), "1 left");
    left(run, "a left body of 129 bytes", "a record with it", &format!("0\t\t{}\n", "b".repeat(129)), "1 left");
    too_long(run, "a name of 33 bytes", &"n".repeat(33), "");
    too_long(run, "a body of 129 bytes", "", &"b".repeat(129));
    crowded(run);
    no_id_left(run);
    no_room_left(run);
    settings(run);
}

fn left(run: &mut Run, what: &str, input: &str, file: &str, rust: &'static str) {
    let found = format!("{} left", Rust::open(run, AMPLE, file.as_bytes()).count);
    run.differ(what, input, says(found, rust), says(port::opens(file.as_bytes()), "refused 4"));
}

/// Admitted, with nobody waiting and with a caller.
fn too_long(run: &mut Run, what: &str, name: &str, body: &str) {
    let rust = Rust::open(run, AMPLE, b"");
    let (inbox, _intake) = rust.inbox();
    let taken = [crate::oracle::config::Message::new(name.into(), body.into()), called(name, body)];
    let found = taken.map(|message| if inbox.admit(message).is_ok() { "taken" } else { "refused" }).join(", ");
    let refused = [None, Some(CallerId(7))].map(|caller| {
        let call = Call::Admit { name: name.into(), body: body.into(), caller };
        port::last(&on(opening(AMPLE, AMPLE, b""), &[call]), port::says)
    });
    let port = says(refused.join(", "), "refused 5, refused 5");
    run.differ(what, "admit, without and with a caller", says(found, "taken, taken"), port);
}

/// 257 messages at once: with callers, so that no order is in the way. The Rust's inbox is larger too.
fn crowded(run: &mut Run) {
    let rust = Rust::open(run, AMPLE, b"");
    let (inbox, _intake) = rust.inbox();
    let taken = (0..257).filter(|_| inbox.admit(called("", "")).is_ok()).count();
    // A group that keeps its messages: an actor that yields.
    let mut opening = opening(AMPLE, AMPLE, b"");
    opening.settings.backlog = 256;
    let mut making = Making::new(opening);
    making.answered();
    let admit = || Call::Admit { name: Vec::new(), body: Vec::new(), caller: Some(CallerId(7)) };
    for message in 0..256 {
        if message % 64 == 0 {
            making.done(Call::Turn);
        }
        making.done(admit());
    }
    making.done(Call::Turn);
    making.call(admit());
    let found = port::last(&making.list, port::says);
    run.differ(
        "a 257th live message",
        "admit with a caller, 257 times",
        says(format!("{taken} taken"), "257 taken"),
        says(found, "refused 8"),
    );
}

fn no_id_left(run: &mut Run) {
    let file = b"18446744073709551614\t\t\n";
    let mut rust = Rust::open(run, AMPLE, file);
    // A Rust that checks sums ends here.
    let found = unless_it_panics(|| rust.append("", "")).map_or("panics", |()| "next 0");
    let expected = if cfg!(debug_assertions) { "panics" } else { "next 0" };
    let port = port::last(&on(opening(AMPLE, AMPLE, file), &[record(b"", b"")]), port::says);
    let input = r#"file "18446744073709551614\t\t\n"; record "" """#;
    run.differ("no id left", input, Says { found: found.into(), expected }, says(port, "refused 9"));
}

fn no_room_left(run: &mut Run) {
    let mut rust = Rust::open(run, AMPLE, b"");
    (0..3).for_each(|_| rust.append("", "abcd"));
    let size = format!("size {}", rust.size());
    let records = [record(b"", b"abcd"), record(b"", b"abcd"), record(b"", b"abcd")];
    let port = port::last(&on(opening(16, AMPLE, b""), &records), port::says);
    let input = "L 16; record \"\" \"abcd\", three times";
    run.differ("more open bytes than the lent log has", input, says(size, "size 24"), says(port, "refused 10"));
}

/// The Rust has no limit for groups and names, nor for replicas.
fn settings(run: &mut Run) {
    let group = |at: usize| GroupSetting {
        name: format!("{at}{}", "n".repeat(32)).into_bytes(),
        replicas: 17,
        eval: false,
        timeout: 86_401,
        retry: 256,
    };
    let mut wide = opening(AMPLE, AMPLE, b"");
    wide.settings.groups = (0..9).map(group).collect();
    wide.settings.max_actors = 17;
    // What the Rust would do: nothing is pending, so a turn seeds each group, and ends.
    let found = super::pool::seeded(run, &wide);
    let port = port::last(&List { opening: wide, calls: Vec::new() }, |entry| match entry.answer {
        Answer::Refused(number) => format!("refused {number}"),
        other => format!("{other:?}"),
    });
    run.differ(
        "nine groups, names of 33 bytes, 17 replicas, a timeout of 86,401 s, retry 256",
        "an opening, a turn",
        says(found, "9 actors"),
        says(port, "refused 1"),
    );
}
