//! Which points of the plain program, and of the Rust, a run met: a fixed list of names, and how often each was met.
//!
//! A run fails where a name of the list was never met, so that a generator that misses a branch is seen. What cannot
//! be met stands in the list too, with the reason.
use std::cell::{Cell, RefCell};

/// Where a point must be met.
#[derive(Clone, Copy, PartialEq, Eq, Debug)]
pub enum Where {
    /// Inside the domain of equality, with the Rust beside it.
    Inside,
    /// Anywhere: by its nature outside the domain, or of a call that the Rust does not have.
    Anywhere,
    /// Outside the domain alone; where it is met inside, the run fails.
    Outside,
    /// By the Rust itself, where it is at hand.
    Rust,
    /// By no run, for this reason.
    Never(&'static str),
}

use Where::{Anywhere, Inside, Never, Outside, Rust};

/// Every point, in the order of the table.
pub const POINTS: &[(&str, Where)] = &[
    // Opening.
    ("line: a record", Inside),
    ("line: a record, set again", Inside),
    ("line: done", Inside),
    ("line: done, of no open record", Inside),
    ("line: skipped", Inside),
    ("line: two or four fields behind another spelling, skipped", Inside),
    ("line: a record in another spelling, skipped", Outside),
    ("line: a record in another spelling, skipped, of an open id", Outside),
    ("line: done in another spelling, skipped", Outside),
    ("line: done in another spelling, skipped, of no open record", Outside),
    // Attempts in a file. The Rust skips a line of two fields.
    ("line: a retry", Outside),
    ("line: a retry, a smaller number", Outside),
    ("line: a retry of 0", Outside),
    ("line: a retry of no open record, skipped", Outside),
    ("line: a retry above 255, skipped", Outside),
    ("line: a retry in another spelling, skipped", Anywhere),
    ("line: a record, set again, its attempts 0 again", Outside),
    ("line: done, with its attempts", Outside),
    ("opening: a message left", Inside),
    ("opening: a message left, with its attempts", Outside),
    // Calls.
    ("admit: a record behind the others", Inside),
    ("admit: a rewrite for lack of space", Anywhere),
    ("admit: a caller waits, not logged", Inside),
    ("sync: a flush", Inside),
    ("sync: nothing to flush", Inside),
    ("close: once", Inside),
    ("close: again", Inside),
    ("turn: the first", Inside),
    ("turn: a later one", Inside),
    ("call between turns", Inside),
    ("call inside a turn: SeedBoot", Inside),
    ("call inside a turn: RouteBoot", Inside),
    ("call inside a turn: TickClock", Inside),
    ("call inside a turn: WakePoll", Inside),
    ("call inside a turn: FixedRun", Inside),
    ("call inside a turn: FixedDrain", Inside),
    ("call inside a turn: FixedPush", Inside),
    ("call inside a turn: FixedDispatch", Inside),
    ("call inside a turn: EvalClock", Inside),
    ("call inside a turn: EvalBoot", Inside),
    ("call inside a turn: EvalStartClock", Inside),
    ("call inside a turn: EvalRun", Inside),
    ("call inside a turn: EvalDispatch", Inside),
    ("call inside a turn: EvalTell", Inside),
    ("call inside a turn: Sends", Inside),
    ("call inside a turn: Trap", Inside),
    ("call inside a turn: Trapped", Inside),
    // The disk's answers.
    ("stored: at rest", Inside),
    ("stored: the turn goes on", Inside),
    ("stored: the turn ends", Inside),
    ("stored over SeedBoot", Inside),
    ("stored over RouteBoot", Inside),
    ("stored over TickClock", Inside),
    ("stored over WakePoll", Inside),
    ("stored over FixedRun", Inside),
    ("stored over FixedDrain", Inside),
    ("stored over FixedPush", Inside),
    ("stored over FixedDispatch", Inside),
    ("stored over EvalClock", Inside),
    ("stored over EvalBoot", Inside),
    ("stored over EvalStartClock", Inside),
    ("stored over EvalRun", Inside),
    ("stored over EvalDispatch", Inside),
    ("stored over EvalTell", Inside),
    ("stored over Sends", Inside),
    ("stored over Trap", Inside),
    ("stored over Trapped", Inside),
    ("failed: nothing is open any more", Anywhere),
    // Refusals. The Rust knows the sixth alone.
    ("refused 5: admit", Anywhere),
    ("refused 5: Sends", Anywhere),
    ("refused 17: no such group", Anywhere),
    ("refused 17: ceiling 0", Anywhere),
    ("refused 6", Inside),
    ("refused 7", Anywhere),
    ("refused 8: admit", Anywhere),
    ("refused 8: Sends", Anywhere),
    ("refused 9", Anywhere),
    ("refused 10", Anywhere),
    ("refused 11", Anywhere),
    ("refused 12: nothing is open", Anywhere),
    ("refused 12: it does not fit", Anywhere),
    ("refused 13", Anywhere),
    ("refused 14", Anywhere),
    // Seeding and intake.
    ("seed: ceiling 0", Inside),
    ("seed: a fixed one, Boot is asked", Inside),
    ("seed: an eval one", Inside),
    ("SeedBoot: yes", Inside),
    ("SeedBoot: no", Inside),
    ("intake: a message", Inside),
    ("intake: a message, after close", Inside),
    ("intake: the inbox is empty", Inside),
    ("intake: the backlog is reached", Inside),
    // Routing.
    ("route: no such group, handed back", Inside),
    ("route: no such group, sent", Inside),
    ("route: no such group, admitted", Never("admit refuses a name that no group has")),
    ("route: the later of two groups of one name", Inside),
    ("route: an idle one", Inside),
    ("idle list: the actor is gone", Inside),
    ("idle list: it is idle no more", Inside),
    ("route: Boot is asked", Inside),
    ("RouteBoot: yes", Inside),
    ("RouteBoot: no, to the least loaded", Inside),
    ("RouteBoot: no, and nobody there", Inside),
    ("route: an eval one is spawned", Inside),
    ("route: the least loaded", Inside),
    ("route: ceiling 0, handed back", Inside),
    ("route: ceiling 0, sent", Inside),
    ("route: ceiling 0, admitted", Never("admit refuses the name of a group with ceiling 0")),
    ("least loaded: the first of equals", Inside),
    ("least loaded: not the first key", Inside),
    ("deliver: to a mailbox", Inside),
    ("deliver: nobody, it is over", Inside),
    ("slab: a new key", Inside),
    ("slab: the last freed key", Inside),
    ("schedule: added to ready", Inside),
    ("schedule: it was already", Inside),
    ("key list: squeezed", Anywhere),
    // Waking.
    ("TickClock: a clock", Inside),
    ("wake: the actor is gone", Inside),
    ("wake: its time is over", Inside),
    ("wake: not blocked", Inside),
    ("wake: blocked, and its run is gone", Inside),
    ("wake: Poll is asked, fixed", Inside),
    ("wake: Poll is asked, eval", Inside),
    ("WakePoll: 0", Inside),
    ("WakePoll: above 0", Inside),
    ("woken: to ready", Inside),
    ("woken: no, it waits on", Inside),
    ("woken: no, idle, it leaves the waiting list", Inside),
    // The ready list.
    ("ready: the list is shorter than its pops", Never("pops is the list's length, and each pop takes one")),
    ("ready: the actor is gone", Inside),
    ("ready: nothing to do", Inside),
    ("ready: a fixed step", Inside),
    ("ready: an eval step", Inside),
    // A fixed step.
    ("FixedRun start: done", Inside),
    ("FixedRun start: exit", Inside),
    ("FixedRun start: preempted", Inside),
    ("FixedRun start: event", Inside),
    ("FixedRun start: host call", Inside),
    ("FixedRun start: error", Inside),
    ("FixedRun start: broke", Inside),
    ("FixedRun resume: done", Inside),
    ("FixedRun resume: exit", Inside),
    ("FixedRun resume: preempted", Inside),
    ("FixedRun resume: event", Inside),
    ("FixedRun resume: host call", Inside),
    ("FixedRun resume: error", Inside),
    ("FixedRun resume: broke", Inside),
    ("fixed: ended, its message is over", Inside),
    ("fixed: ended with no message", Inside),
    ("fixed: at receive, its message is over", Inside),
    ("fixed: at receive with no message", Inside),
    ("fixed: failed with a message", Inside),
    ("fixed: failed with none", Inside),
    ("FixedDrain: above 0", Inside),
    ("FixedDrain: 0, a message is taken", Inside),
    ("FixedDrain: 0, the mailbox is empty", Inside),
    ("FixedPush: yes", Inside),
    ("FixedPush: no", Inside),
    ("FixedPush: no, in front of others", Inside),
    ("FixedDispatch: 0", Inside),
    ("FixedDispatch: above 0", Inside),
    // An eval step.
    ("eval: a run goes on", Inside),
    ("eval: the next message", Inside),
    ("eval: no message", Inside),
    ("EvalClock: late", Inside),
    ("EvalClock: in time", Inside),
    ("EvalBoot: yes", Inside),
    ("EvalBoot: no", Inside),
    ("EvalStartClock: a clock", Inside),
    ("EvalRun start: done", Inside),
    ("EvalRun start: exit", Inside),
    ("EvalRun start: preempted", Inside),
    ("EvalRun start: event", Inside),
    ("EvalRun start: host call", Inside),
    ("EvalRun start: error", Inside),
    ("EvalRun start: broke", Inside),
    ("EvalRun resume: done", Inside),
    ("EvalRun resume: exit", Inside),
    ("EvalRun resume: preempted", Inside),
    ("EvalRun resume: event", Inside),
    ("EvalRun resume: host call", Inside),
    ("EvalRun resume: error", Inside),
    ("EvalRun resume: broke", Inside),
    ("EvalDispatch: 0", Inside),
    ("EvalDispatch: above 0", Inside),
    ("EvalTell: told, ran", Inside),
    ("EvalTell: told, unbooted", Inside),
    ("EvalTell: told, broke", Inside),
    ("EvalTell: told, raised", Inside),
    ("EvalTell: told, late", Inside),
    ("EvalTell: told, stuck in a host call", Inside),
    ("EvalTell: told, stuck in receive", Inside),
    ("eval: nobody to tell", Inside),
    ("eval: over, idle", Inside),
    ("eval: over, more mail", Inside),
    // After a step.
    ("Sends: a message", Inside),
    ("Sends: a message of a failed step", Inside),
    ("Sends: the end", Inside),
    ("Sends: the end, of a failed step", Inside),
    ("settle: failed", Inside),
    ("settle: done", Inside),
    ("settle: blocked with a deadline", Inside),
    ("settle: blocked", Inside),
    ("settle: blocked while idle", Inside),
    ("settle: yield", Inside),
    ("settle: waiting", Inside),
    ("release: no mail", Inside),
    ("release: its mail goes back to pending", Inside),
    ("release: two messages or more go back to pending", Inside),
    ("release: it never took a message, its mail is over", Inside),
    ("release: it never took a message, logged mail and other mail are over", Inside),
    // Crashes and traps.
    ("crash: no message", Inside),
    ("crash: the message goes round again", Inside),
    ("crash: and once more", Inside),
    ("crash: dead, no retry", Inside),
    ("crash: dead after retries", Inside),
    ("Trap: yes", Inside),
    ("Trap: yes, nobody left to ask", Inside),
    ("Trap: no", Inside),
    ("Trapped: yes", Inside),
    ("Trapped: no", Inside),
    ("crash_trapped: no mail", Inside),
    ("crash_trapped: its mail goes back to pending", Inside),
    ("crash_trapped: two messages or more go back to pending", Inside),
    ("crash_trapped: with a message in its hands", Inside),
    ("crash_trapped: with none", Inside),
    // What is written of a retry. After the first order the Rust is compared by its messages.
    ("retry: not logged", Inside),
    ("retry: a line behind the others", Inside),
    ("retry: a rewrite", Inside),
    ("retry: no room", Inside),
    ("retry: no room, and the log keeps the number before", Anywhere),
    ("retry: an unknown id", Never("a logged message's record is open until its own mark")),
    ("retry at AskTrap", Inside),
    ("retry at CrashTrapped, more to retire", Inside),
    ("retry at CrashTrapped, the last", Inside),
    // What is over, and its marks.
    ("over: logged, waits for its mark", Inside),
    ("over: a caller's, free at once", Inside),
    ("over: a sent one, free at once", Inside),
    ("mark at Route", Inside),
    ("mark at StepEnd", Inside),
    ("mark at Crash", Inside),
    ("mark at AskTrap", Inside),
    ("mark at CrashTrapped, more to retire", Inside),
    ("mark at CrashTrapped, the last", Inside),
    ("mark at Ready", Inside),
    ("mark: a done line", Inside),
    ("mark: a rewrite", Inside),
    ("mark: an unknown id", Never("a logged message's record is open until its own mark")),
    // The turn's end.
    ("turn end: neither busy nor waiters", Inside),
    ("turn end: waiters", Inside),
    ("turn end: busy", Inside),
    ("turn end: busy, waiters", Inside),
    // What the Rust asked and was answered, and what else it did.
    ("Rust: Boot, yes", Rust),
    ("Rust: Boot, no", Rust),
    ("Rust: Clock", Rust),
    ("Rust: Poll, 0", Rust),
    ("Rust: Poll, above 0", Rust),
    ("Rust: Drain, 0", Rust),
    ("Rust: Drain, above 0", Rust),
    ("Rust: Dispatch, 0", Rust),
    ("Rust: Dispatch, above 0", Rust),
    ("Rust: Push, yes", Rust),
    ("Rust: Push, no", Rust),
    ("Rust: Sends, a message", Rust),
    ("Rust: Sends, the end", Rust),
    ("Rust: Trap, yes", Rust),
    ("Rust: Trap, no", Rust),
    ("Rust: Trapped, yes", Rust),
    ("Rust: Trapped, no", Rust),
    ("Rust: Run fixed start, done", Rust),
    ("Rust: Run fixed start, exit", Rust),
    ("Rust: Run fixed start, preempted", Rust),
    ("Rust: Run fixed start, event", Rust),
    ("Rust: Run fixed start, host call", Rust),
    ("Rust: Run fixed start, error", Rust),
    ("Rust: Run fixed start, broke", Rust),
    ("Rust: Run fixed resume, done", Rust),
    ("Rust: Run fixed resume, exit", Rust),
    ("Rust: Run fixed resume, preempted", Rust),
    ("Rust: Run fixed resume, event", Rust),
    ("Rust: Run fixed resume, host call", Rust),
    ("Rust: Run fixed resume, error", Rust),
    ("Rust: Run fixed resume, broke", Rust),
    ("Rust: Run eval start, done", Rust),
    ("Rust: Run eval start, exit", Rust),
    ("Rust: Run eval start, preempted", Rust),
    ("Rust: Run eval start, event", Rust),
    ("Rust: Run eval start, host call", Rust),
    ("Rust: Run eval start, error", Rust),
    ("Rust: Run eval start, broke", Rust),
    ("Rust: Run eval resume, done", Rust),
    ("Rust: Run eval resume, exit", Rust),
    ("Rust: Run eval resume, preempted", Rust),
    ("Rust: Run eval resume, event", Rust),
    ("Rust: Run eval resume, host call", Rust),
    ("Rust: Run eval resume, error", Rust),
    ("Rust: Run eval resume, broke", Rust),
    ("Rust: Tell, ran", Rust),
    ("Rust: Tell, unbooted", Rust),
    ("Rust: Tell, broke", Rust),
    ("Rust: Tell, raised", Rust),
    ("Rust: Tell, late", Rust),
    ("Rust: Tell, stuck in a host call", Rust),
    ("Rust: Tell, stuck in receive", Rust),
    ("Rust: a delivery", Rust),
    ("Rust: a mark", Rust),
    ("Rust: admit, taken", Rust),
    ("Rust: admit, full", Rust),
    ("Rust: sync", Rust),
    ("Rust: close", Rust),
    ("Rust: a turn", Rust),
    ("Rust: its log is seen by its messages", Rust),
];

/// The number of a point; a name that is not in the list stops the build.
pub const fn number(name: &str) -> usize {
    let mut at = 0;
    while at < POINTS.len() {
        if same(POINTS[at].0.as_bytes(), name.as_bytes()) {
            return at;
        }
        at += 1;
    }
    panic!("the point is not in the list")
}

const fn same(a: &[u8], b: &[u8]) -> bool {
    if a.len() != b.len() {
        return false;
    }
    let mut at = 0;
    while at < a.len() {
        if a[at] != b[at] {
            return false;
        }
        at += 1;
    }
    true
}

/// Counts a point by its name.
#[macro_export]
macro_rules! met {
    ($name:literal) => {{
        const NUMBER: usize = $crate::met::number($name);
        $crate::met::count(NUMBER)
    }};
}

/// What is counted: nothing, what is met inside the domain, or what is met outside it.
#[derive(Clone, Copy, PartialEq, Eq, Debug)]
pub enum Counting {
    Off,
    Inside,
    Outside,
}

/// How often each point was met, inside the domain and outside it.
pub type Counts = [[u64; 2]; POINTS.len()];

thread_local! {
    static COUNTING: Cell<Counting> = const { Cell::new(Counting::Off) };
    static COUNTS: RefCell<Counts> = const { RefCell::new([[0; 2]; POINTS.len()]) };
}

pub fn counting(what: Counting) {
    COUNTING.set(what);
}

pub fn count(number: usize) {
    let column = match COUNTING.get() {
        Counting::Off => return,
        Counting::Inside => 0,
        Counting::Outside => 1,
    };
    COUNTS.with_borrow_mut(|counts| counts[number][column] += 1);
}

/// The counts of this thread since the last taking.
pub fn take() -> Counts {
    COUNTS.with_borrow_mut(|counts| std::mem::replace(counts, [[0; 2]; POINTS.len()]))
}

/// Adds counts of the same points.
pub fn add(to: &mut Counts, more: &Counts) {
    for (to, more) in to.iter_mut().zip(more) {
        to[0] += more[0];
        to[1] += more[1];
    }
}

/// The points that should have been met and were not, or were met where they cannot be.
pub fn faults(counts: &Counts) -> Vec<String> {
    let fault = |at: usize| {
        let ((name, place), [inside, outside]) = (POINTS[at], counts[at]);
        match place {
            Inside if inside == 0 => Some(format!("never met inside the domain: {name}")),
            Anywhere if inside + outside == 0 => Some(format!("never met: {name}")),
            Outside if inside > 0 => Some(format!("met inside the domain: {name}")),
            Outside if outside == 0 => Some(format!("never met outside the domain: {name}")),
            Rust if inside == 0 && cfg!(oracle) => Some(format!("never met: {name}")),
            Never(reason) if inside + outside > 0 => Some(format!("met, though {reason}: {name}")),
            _ => None,
        }
    };
    (0..POINTS.len()).filter_map(fault).collect()
}
