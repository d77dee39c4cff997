//! Random lists of calls on the port, all of docs/RULES.md and not only the domain of equality: any file, any
//! settings, any replies, refused calls included. The plain program makes the same list, and every entry must say the
//! same; a refused call must change nothing; the store and the lent log may change only where the rules say.

pub mod calls;
pub mod decoder;
pub mod files;
pub mod judge;
pub mod list;
pub mod replies;
pub mod settings;
pub mod state;
pub mod texts;
pub mod wild;

use crate::lent::Lent;
use crate::rng::Rng;
use crate::script::{SHOW_LOG, SHOW_NOTHING, SHOW_STORE, SHOW_TABLES};
use crate::tally::Tally;
use list::{List, Size};

/// Lists up to this many calls are also run from each of their beginnings on, to see log and store after every call.
const SHORT: usize = 16;

/// A generator for one case of a run.
pub fn case(seed: u64, case: u64) -> Rng {
    Rng::new(seed.wrapping_mul(0x9E37_79B9).wrapping_add(case).wrapping_mul(0xD6E8_FEB8_6659_FD93))
}

pub fn run(tally: &mut Tally, count: u64, seed: u64) {
    tally.begin("lists");
    let mut lent = Lent::default();
    let mut seen = judge::Seen::default();
    for number in 0..count {
        let mut rng = case(seed, number);
        let size = match number % 32 {
            0 | 1 => Size::Long,
            2..=11 => Size::Middle,
            _ => Size::Short,
        };
        let growing = number % 32 == 1;
        let list = if growing { List::growing(&mut rng) } else { List::random(&mut rng, size) };
        let show = match size {
            Size::Long if growing => SHOW_NOTHING,
            Size::Long => SHOW_LOG,
            Size::Middle => *rng.pick(&[SHOW_LOG, SHOW_TABLES, SHOW_STORE]),
            Size::Short => SHOW_STORE,
        };
        let named = |error: String| format!("list {number}: {error}; {list:?}");
        tally.check(judge::list(&mut lent, &list, show, &mut seen).map_err(named));
        if list.calls.len() <= SHORT && number.is_multiple_of(4) {
            for calls in 0..list.calls.len() {
                let beginning = List { opening: list.opening.clone(), calls: list.calls[..calls].to_vec() };
                let named = |error: String| format!("list {number}, {calls} calls: {error}; {list:?}");
                let judged = judge::list(&mut lent, &beginning, SHOW_NOTHING, &mut judge::Seen::default());
                tally.check(judged.map_err(named));
            }
        }
    }
    seen.note(tally);
    tally.end();
}
