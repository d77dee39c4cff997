//! Scripts and outputs as bytes (docs/PROTOCOL.md), and the recorded answers beside the plain program.
use super::{STORED, admit, ceiling_0};
use crate::limits::STORE;
use crate::model::log::CallerId;
use crate::model::pool::{Call, Reply, Status};
use crate::output::{Answer, Output};
use crate::port::{LENGTHS, MALFORMED, NO_ROOM, OK};
use crate::property::decoder::{self, expected};
use crate::recorded::{LIST, text};
use crate::script::{SHOW_LOG, Script};
use crate::wire::{NUMBER, Reader, put};

/// A script as the example of docs/PROTOCOL.md has it: its opening on a record for a group with ceiling 0, then calls.
fn script(calls: &[Call]) -> Script {
    let mut settings = ceiling_0(1, 64);
    settings.backlog = 1;
    let mut script = Script::new(&settings, 64, STORE, b"0\trow\tx\n", SHOW_LOG);
    calls.iter().for_each(|call| script.call(call));
    script
}

/// What a run of these bytes must return and write, all of it decided.
fn run(script: &[u8], log_len: usize, room: usize) -> (u64, Vec<u8>) {
    let expected = expected(script, &vec![0; log_len], &vec![0; STORE], room);
    (expected.code, expected.out.into_iter().map(|byte| byte.expect("a decided byte")).collect())
}

fn example() -> Script {
    let clock = Call::Reply(Reply::Clock(5));
    script(&[STORED, Call::Turn, STORED, clock])
}

#[test]
fn the_bytes_of_a_call() {
    let bytes = script(&[admit(b"row", b"x")]).bytes().to_vec();
    let call = &bytes[script(&[]).bytes().len()..];
    let mut numbers = Vec::new();
    [1, 0, 0, 3, 1].into_iter().for_each(|number| put(&mut numbers, number));
    assert_eq!(call, [&numbers[..], b"rowx"].concat());
}

#[test]
fn every_call_and_reply_comes_back_from_its_bytes() {
    let statuses =
        [Status::Done, Status::Exit, Status::Preempted, Status::Event, Status::HostCall, Status::Error, Status::Broke];
    let mut replies = vec![Reply::No, Reply::Yes, Reply::Clock(u64::MAX), Reply::Count(7), Reply::End, Reply::Told];
    replies.extend([Reply::Stored, Reply::Failed, Reply::Send(b"a\0".to_vec(), b"\xFF".to_vec())]);
    replies.extend(statuses.map(Reply::Ran));
    let waited = Call::Admit { name: b"n".to_vec(), body: Vec::new(), caller: Some(CallerId(9)) };
    let mut calls = vec![admit(b"", b"body"), waited, Call::Turn, Call::Sync, Call::Close];
    calls.extend(replies.into_iter().map(Call::Reply));
    let (opening, script) = (script(&[]), script(&calls));
    let mut from = Reader::new(&script.bytes()[opening.bytes().len()..]);
    for call in &calls {
        assert_eq!(decoder::call(&mut from).as_ref(), Some(call));
    }
    assert!(from.is_empty());
}

#[test]
fn the_example_of_the_protocol() {
    let script = example();
    assert_eq!(script.bytes().len(), 552);
    let (code, out) = run(script.bytes(), 64, usize::MAX);
    assert_eq!((code, out.len()), (OK, NUMBER + 566));
    let output = Output::read(&out, SHOW_LOG, STORE).expect("entries");
    let answers: Vec<Answer> = output.entries.iter().map(|entry| entry.answer).collect();
    let end = Answer::TurnEnd { busy: false, waiters: false };
    let mark = Answer::Append(8, 10);
    assert_eq!(answers, [Answer::Replace(8), Answer::Nothing, mark, Answer::Clock, end]);
    assert_eq!(output.entries[4].log, Some(&b"0\trow\tx\n0\n"[..]));
    assert_eq!((output.entries[4].next, output.entries[4].open), (1, 0));
    assert!(out.len() <= script.output_bound());
}

#[test]
fn scripts_that_are_cut_short_have_another_length_or_no_room() {
    let script = example();
    let bytes = script.bytes();
    assert_eq!(run(&bytes[..bytes.len() - 1], 64, usize::MAX).0, MALFORMED);
    assert_eq!(run(&bytes[..80], 64, usize::MAX), (MALFORMED, vec![0; NUMBER]));
    assert_eq!(run(bytes, 63, usize::MAX), (LENGTHS, vec![0; NUMBER]));
    assert_eq!(run(bytes, 64, 7), (NO_ROOM, vec![]));
    let (code, out) = run(bytes, 64, NUMBER + 565);
    assert_eq!(code, NO_ROOM);
    assert!(out.len() < NUMBER + 566);
}

#[test]
fn an_output_with_a_byte_too_many_or_too_few_is_not_read() {
    let (_, out) = run(example().bytes(), 64, usize::MAX);
    assert!(Output::read(&out[..out.len() - 1], SHOW_LOG, STORE).is_err());
    assert!(Output::read(&[&out[..], &[0]].concat(), SHOW_LOG, STORE).is_err());
}

#[test]
fn recorded_bytes_come_back_from_their_text() {
    for bytes in [&b""[..], b"\x01", b"\x00\0\0\0\0\0\0\0", b"\x40\0\0\0\0\0\0", b"ab\0\0\0\0\0\0\0\0\0\0\0\0\0\0\0c"]
    {
        assert_eq!(text::decode(&text::encode(bytes)).as_deref(), Some(bytes));
    }
    assert_eq!(text::encode(b"\x07\0\0\0\0\0\0\0"), "07.");
    for wrong in ["0", "0g", "é"] {
        assert_eq!(text::decode(wrong), None);
    }
    assert!(text::read("<00\n<00\n>00\n").is_err() && text::read("<00\n").is_err());
}

/// Row ends 8 to 11 are among them.
#[test]
fn the_plain_program_gives_the_recorded_answers() {
    let cases = text::read(LIST).expect("a list");
    assert!(cases.len() > 60);
    for case in &cases {
        let log_len = u64::from_le_bytes(case.script[16..24].try_into().unwrap()) as usize;
        assert_eq!(run(&case.script, log_len, usize::MAX), (OK, case.output.clone()), "{}", case.name);
    }
}
