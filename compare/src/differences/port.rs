//! What the port says, in words. A record is an admit; a mark is the next turn, since the group does not boot and one
//! message is taken in at a time.
use crate::lent::Lent;
use crate::limits::STORE;
use crate::model::log::{self, Left};
use crate::model::pool::{Call, GroupSetting, Question, Settings};
use crate::output::{Answer, Entry};
use crate::property::list::{List, Making, Opening};
use crate::script::SHOW_STORE;

/// A lent log and a compact_at that nothing here reaches.
pub const AMPLE: usize = 65_536;

/// One group with an empty name and ceiling 1.
pub fn opening(log_len: usize, compact_at: usize, file: &[u8]) -> Opening {
    let group = GroupSetting { name: Vec::new(), replicas: 1, eval: false, timeout: 0, retry: 0 };
    let settings = Settings { groups: vec![group], max_actors: 1, inbox: 64, backlog: 1, compact_at, tick_ns: 1 };
    Opening { settings, log_len, store_len: STORE, file: file.to_vec() }
}

pub fn record(name: &[u8], body: &[u8]) -> Call {
    Call::Admit { name: name.to_vec(), body: body.to_vec(), caller: None }
}

/// The calls on a log, whose group does not boot: all but the last with their orders stored, the last up to its order.
pub fn on(opening: Opening, calls: &[Call]) -> List {
    let mut making = Making::new(opening).unbooted(&[0]);
    for call in calls {
        making.answered();
        making.call(call.clone());
    }
    making.answered_up_to(|question| matches!(question, Question::Store(_)));
    making.list
}

/// Makes of the port's last entry what is to be said of it.
pub fn last(list: &List, say: impl FnOnce(&Entry) -> String) -> String {
    let mut lent = Lent::default();
    match lent.output(&list.script(SHOW_STORE)) {
        Ok(output) => output.entries.last().map_or("no entry".into(), say),
        Err(error) => error,
    }
}

/// Answer, counters and log.
pub fn says(entry: &Entry) -> String {
    let log = entry.log.unwrap_or_default();
    match entry.answer {
        Answer::Refused(number) => format!("refused {number}"),
        answer => {
            format!("{}; live {}, size {}, log \"{}\"", order(answer), entry.live, entry.size, log.escape_ascii())
        }
    }
}

fn order(answer: Answer) -> String {
    match answer {
        Answer::Append(from, to) => format!("append {from} to {to}"),
        Answer::Replace(length) => format!("replace by {length}"),
        other => format!("{other:?}").to_lowercase(),
    }
}

/// What an opening hands back, and the next id. The new log must have these messages alone.
pub fn left(entry: &Entry) -> String {
    if let Answer::Refused(number) = entry.answer {
        return format!("refused {number}");
    }
    let left = match entry.handed_back() {
        Ok(left) if entry.log == Some(&log::image(&left)) => left,
        Ok(_) => return "another log than what is handed back".into(),
        Err(error) => return error,
    };
    format!("left [{}], next {}", left.iter().map(in_words).collect::<Vec<_>>().join(", "), entry.next)
}

/// A message that is handed back; attempts of 0 are not named.
fn in_words(left: &Left) -> String {
    let attempts = if left.attempts == 0 { String::new() } else { format!(" attempts {}", left.attempts) };
    format!("{} \"{}\" \"{}\"{attempts}", left.id.0, left.name.escape_ascii(), left.body.escape_ascii())
}

/// What a file leaves.
pub fn opens(file: &[u8]) -> String {
    last(&List { opening: opening(AMPLE, AMPLE, file), calls: Vec::new() }, left)
}

/// What the log of a list leaves at a further opening.
pub fn reopens(list: &List) -> String {
    let mut log = Vec::new();
    let said = last(list, |entry| {
        log = entry.log.unwrap_or_default().to_vec();
        String::new()
    });
    if said.is_empty() { opens(&log) } else { said }
}
