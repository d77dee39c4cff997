//! property [COUNT [SEED]]: COUNT random lists of calls on the port, beside the plain program, and power cuts of
//! lists in proportion; before them the recorded answers and the differences. The last line is `N passed, M failed`;
//! the program fails if M is above 0.
use compare::tally::Tally;
use compare::{cuts, differences, port, program, property, recorded};
use std::process::ExitCode;

const COUNT: u64 = 2_000;
const SEED: u64 = 1;
/// Random lists for each list that is cut.
const LISTS_A_CUT_ONE: u64 = 20;

fn main() -> ExitCode {
    let Some([count, seed]) = program::numbers([COUNT, SEED]) else {
        return program::usage("property [COUNT [SEED]]");
    };
    println!("property {count} {seed}");
    let passed = port::on_large_stack(|| {
        let mut tally = Tally::default();
        recorded::run(&mut tally);
        differences::run(&mut tally);
        property::run(&mut tally, count, seed);
        cuts::run(&mut tally, count / LISTS_A_CUT_ONE, seed);
        tally.finish()
    });
    program::ended(passed)
}
