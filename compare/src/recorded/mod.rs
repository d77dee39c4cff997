//! The recorded answers: a fixed list of scripts with the outputs that follow from the Rust's answers, as text, so
//! that they can be replayed with no Rust at hand. No line of a retry is ordered in them, since the Rust writes none
//! and the outputs have every byte. `text` is the form of the list, `rows` and `chosen` the scripts, `beside` runs the
//! Rust over them, `list` writes it all down.

pub mod text;

#[cfg(oracle)]
pub mod beside;
#[cfg(oracle)]
pub mod chosen;
#[cfg(oracle)]
pub mod list;
#[cfg(oracle)]
pub mod rows;

use crate::port::{self, OK};
use crate::tally::Tally;
use text::Case;

/// The list as it stands in the repository: what the program `rows` reads.
pub const LIST: &str = include_str!("../../../crates/rows/stdin");
/// Where it stands.
pub const FILE: &str = concat!(env!("CARGO_MANIFEST_DIR"), "/../crates/rows/stdin");

/// The port replays every script of the list.
pub fn run(tally: &mut Tally) {
    tally.begin("recorded answers");
    match text::read(LIST) {
        Ok(cases) => {
            for case in &cases {
                tally.check(replayed(case).map_err(|error| format!("{}: {error}", case.name)));
            }
            tally.equal("the list is there", cases.is_empty(), false);
        }
        Err(error) => tally.check(Err(error)),
    }
    #[cfg(oracle)]
    {
        let scratch = crate::scratch::Scratch::in_memory("recorded");
        let now = list::list(&scratch.file("log.wal"));
        tally.equal("the list is what the Rust answers now", now == LIST, true);
    }
    tally.end();
}

/// The lent slices have the lengths that the script names, and the output just the room that it needs.
fn replayed(case: &Case) -> Result<(), String> {
    let named = |at: usize| u64::from_le_bytes(case.script[8 * at..8 * at + 8].try_into().unwrap()) as usize;
    let (mut log, mut store) = (vec![0; named(2)], vec![0; named(3)]);
    let mut out = vec![0xA5; case.output.len()];
    let code = port::replay(&case.script, &mut log, &mut store, &mut out);
    if code != OK {
        return Err(format!("returned {code}"));
    }
    if out != case.output {
        return Err("other bytes than those recorded".into());
    }
    Ok(())
}
