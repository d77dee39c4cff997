//! One case as text.
use crate::generate::case::{self, Case};
use crate::model::pool::{self, Call, Event, Pool, Reply};
use crate::output::Answer;

/// Prints settings and file, then each call with what it gives, by the plain program.
pub fn print(number: u64) {
    let case = Case::new(number);
    println!("{:#?}", case.settings);
    println!("log of {} bytes, store of {}, file \"{}\"", case.log_len, case.store_len, case.file.escape_ascii());
    let mut pool = match case::open(&case) {
        Ok(pool) => pool,
        Err(number) => return println!("the opening is refused, {number}"),
    };
    println!("opening: {}", state(&pool, &pool::Answer::Open(pool.open_question())));
    for (at, call) in case.calls.iter().enumerate() {
        if case.inside == Some(at) {
            println!("from here on outside the domain of equality");
        }
        let answer = pool.call(call);
        println!("{at} {}: {}", call_text(call), state(&pool, &answer));
    }
}

fn call_text(call: &Call) -> String {
    let text = |bytes: &[u8]| format!("\"{}\"", bytes.escape_ascii());
    match call {
        Call::Admit { name, body, caller } => {
            let caller = caller.map_or(String::new(), |caller| format!(" for caller {}", caller.0));
            format!("admit {} {}{caller}", text(name), text(body))
        }
        Call::Reply(Reply::Send(name, body)) => format!("reply message {} {}", text(name), text(body)),
        Call::Reply(reply) => format!("reply {reply:?}"),
        other => format!("{other:?}"),
    }
}

/// The answer, what was delivered and marked, and the log.
fn state(pool: &Pool, answer: &pool::Answer) -> String {
    let mut text = format!("{:?}", Answer::of(answer));
    for event in &pool.events {
        match event {
            Event::Delivered { g, key, message } => {
                let (name, body) = (pool.name(*message).escape_ascii(), pool.body(*message).escape_ascii());
                text += &format!("; delivered \"{name}\" \"{body}\" to {g}/{key}");
            }
            Event::Marked(id) => text += &format!("; marked {}", id.0),
            Event::Logged(id) => text += &format!("; logged {}", id.0),
            Event::Retried { id, attempts } => text += &format!("; retry {attempts} of {}", id.0),
        }
    }
    text + &format!("; log \"{}\"", pool.log[..pool.counters.size].escape_ascii())
}
