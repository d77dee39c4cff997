//! differ [COUNT [SEED]]: COUNT random cases, the port beside the Rust and beside the plain program; before them
//! what is fixed or smaller: slips that must be caught, recorded answers, differences, programs that are not loaded,
//! spellings of ids, retries, mailboxes, any lists of calls, power cuts, any bytes.
//! differ coverage [COUNT [SEED]]: the cases alone, and how often each named point was met, as a table.
//! differ selftest: the slips alone, in more cases.
//! differ CASE 0 show: one case as text, and what differs in it (CASE as a FAILED line names it).
//! The last line is `N passed, M failed`; the program fails if M is above 0.
use compare::diff::seen::Seen;
use compare::lent::Lent;
use compare::scratch::Scratch;
use compare::tally::Tally;
use compare::{cuts, diff, differences, mailboxes, met, port, program, property};
use compare::{recorded, retries, spellings, unloaded};
use std::process::ExitCode;

const USAGE: &str = "differ [COUNT [SEED]]
       differ coverage [COUNT [SEED]]
       differ selftest
       differ CASE 0 show";
const COUNT: u64 = 15_000;
const SEED: u64 = 1;
/// Cases from which on every point must be met.
const ALL_POINTS: u64 = 10_000;
/// Cases in which every slip is made: before a run, and when it is asked for alone.
const SELFTEST: u64 = 60;
const SELFTEST_ALONE: u64 = 400;
/// Cases for each list of any calls, for each list that is cut, and bytes of any scripts for each case.
const CASES_A_LIST: u64 = 5;
const CASES_A_CUT: u64 = 100;
const BYTES_A_CASE: u64 = 200;

fn main() -> ExitCode {
    let arguments: Vec<String> = std::env::args().skip(1).collect();
    let arguments: Vec<&str> = arguments.iter().map(String::as_str).collect();
    #[cfg(oracle)]
    compare::oracle::run::silence();
    let numbers = |arguments: &[&str]| program::parsed(arguments, [COUNT, SEED]);
    let passed = match arguments[..] {
        ["selftest"] => port::on_large_stack(selftest_alone),
        [case, "0", "show"] if case.parse::<u64>().is_ok() => port::on_large_stack(|| show(case.parse().unwrap())),
        ["coverage", ref rest @ ..] => match numbers(rest) {
            Some([count, seed]) => port::on_large_stack(|| coverage(count, seed)),
            None => return program::usage(USAGE),
        },
        ref all => match numbers(all) {
            Some([count, seed]) => port::on_large_stack(|| run(count, seed)),
            None => return program::usage(USAGE),
        },
    };
    program::ended(passed)
}

fn run(count: u64, seed: u64) -> bool {
    println!("differ {count} {seed}");
    say_skipped();
    let mut tally = Tally::default();
    selftest(&mut tally, SELFTEST, false);
    recorded::run(&mut tally);
    differences::run(&mut tally);
    unloaded::run(&mut tally);
    spellings::run(&mut tally);
    retries::run(&mut tally);
    mailboxes::run(&mut tally);
    property::run(&mut tally, count / CASES_A_LIST, seed);
    cuts::run(&mut tally, count / CASES_A_CUT, seed);
    property::wild::run(&mut tally, count * BYTES_A_CASE, seed);
    let seen = cases(&mut tally, count, seed);
    points(&mut tally, count, &seen);
    tally.finish()
}

/// The cases, and the points that they met.
fn coverage(count: u64, seed: u64) -> bool {
    println!("differ coverage {count} {seed}");
    say_skipped();
    let mut tally = Tally::default();
    let seen = cases(&mut tally, count, seed);
    points(&mut tally, count, &seen);
    tally.finish()
}

/// Says so where there is no Rust to compare with.
fn say_skipped() {
    if !cfg!(oracle) {
        println!("the Rust is not at hand (FELDWYGOR_RUST_SRC names its folder): the comparison with it is SKIPPED");
    }
}

fn cases(tally: &mut Tally, count: u64, seed: u64) -> Seen {
    tally.begin("cases");
    let scratch = Scratch::in_memory("differ");
    let (mut lent, mut seen) = (Lent::default(), Seen::default());
    met::take();
    for at in 0..count {
        let case = seed.wrapping_mul(1 << 32).wrapping_add(at);
        let result = diff::run(case, &mut lent, &scratch.file("log.wal"), &mut seen);
        tally.check(result.map_err(|what| format!("case {case}: {what}")));
    }
    seen.take_met();
    seen.print();
    tally.end();
    seen
}

/// Every point must have been met, where there were cases enough.
fn points(tally: &mut Tally, count: u64, seen: &Seen) {
    tally.begin("points");
    seen.print_met();
    let unmet = met::faults(&seen.met);
    if count < ALL_POINTS {
        println!("{} points not met; fewer than {ALL_POINTS} cases need not meet all", unmet.len());
        return;
    }
    for _ in unmet.len()..met::POINTS.len() {
        tally.check(Ok(()));
    }
    for what in unmet {
        tally.check(Err(what));
    }
    tally.end();
}

fn show(case: u64) -> bool {
    diff::show::print(case);
    let scratch = Scratch::in_memory("differ");
    let mut tally = Tally::default();
    let result = diff::run(case, &mut Lent::default(), &scratch.file("log.wal"), &mut Seen::default());
    tally.check(result.map_err(|what| format!("case {case}: {what}")));
    tally.finish()
}

fn selftest_alone() -> bool {
    let mut tally = Tally::default();
    selftest(&mut tally, SELFTEST_ALONE, true);
    tally.finish()
}

/// Slips that the comparison must catch.
fn selftest(tally: &mut Tally, cases: u64, print: bool) {
    tally.begin("slips");
    let scratch = Scratch::in_memory("selftest");
    for slip in diff::selftest::run(cases, SEED, &scratch.file("log.wal")) {
        if print {
            println!("{}: made {} times, caught {}", slip.slip, slip.made, slip.caught);
        }
        tally.check(slip.result());
    }
    tally.end();
}
