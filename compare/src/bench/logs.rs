//! The logs that are opened.
use crate::limits::LOG_MAX;

/// 1,000 records with bodies of 40 bytes, three of four done (256 messages may be left at most).
pub fn typical() -> Vec<u8> {
    let mut file = String::new();
    for id in 0..1_000 {
        file.push_str(&format!("{id}\trow\t{}\n", body(id, 40)));
        if id % 4 != 3 {
            file.push_str(&format!("{id}\n"));
        }
    }
    file.into_bytes()
}

/// 65,536 bytes: records with the longest bodies, every other one done.
pub fn full() -> Vec<u8> {
    let mut file = String::new();
    let mut id = 0;
    loop {
        let mut line = format!("{id}\trow\t{}\n", body(id, 128));
        if id % 2 == 0 {
            line.push_str(&format!("{id}\n"));
        }
        if file.len() + line.len() > LOG_MAX {
            break;
        }
        file.push_str(&line);
        id += 1;
    }
    // The last line says nothing.
    let rest = LOG_MAX - file.len();
    file.push_str(&"x".repeat(rest.saturating_sub(1)));
    file.push_str(&"\n".repeat(rest.min(1)));
    file.into_bytes()
}

/// 16,384 records of 4 bytes, the most that fit.
pub fn shortest() -> Vec<u8> {
    (0..LOG_MAX / 4).flat_map(|at| format!("{}\t\t\n", at % 10).into_bytes()).collect()
}

/// As many records with ids of their own as fit, all open at once, then all done.
pub fn most_ids() -> Vec<u8> {
    let records: Vec<String> = (0..10_000).map(|id| format!("{id}\t\t\n")).collect();
    let done: Vec<String> = (0..10_000).map(|id| format!("{id}\n")).collect();
    let mut length = 0;
    let fits = |at: &usize| {
        length += records[*at].len() + done[*at].len();
        length <= LOG_MAX
    };
    let count = (0..10_000).take_while(fits).count();
    [&records[..count], &done[..count]].concat().concat().into_bytes()
}

/// So many open records under rising ids, with bodies of 40 bytes.
pub fn open(records: u64) -> Vec<u8> {
    (0..records).flat_map(|id| format!("{id}\trow\t{}\n", body(id, 40)).into_bytes()).collect()
}

/// A plain text that differs from message to message.
pub fn body(id: u64, length: usize) -> String {
    let text = format!("truss {id} counted, ");
    text.chars().cycle().take(length).collect()
}
