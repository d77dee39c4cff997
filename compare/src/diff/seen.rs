//! What a run compared: cases, calls, questions by kind, replies, refusals, deliveries, marks, retries; and the points
//! it met.
use super::lockstep::order_of;
use crate::generate::case::Case;
use crate::met::{self, Counts, POINTS, Where};
use crate::model::log::Order;
use crate::model::pool::{Answer, Call, Question};
use std::collections::BTreeMap;

pub struct Seen {
    pub cases: u64,
    /// Cases whose opening lies inside the domain of equality, and those that the Rust ran.
    pub inside: u64,
    pub rust_cases: u64,
    /// What the Rust did and was compared: questions, deliveries, marks, calls, turns' ends; and the cases in which a
    /// retry was written, from which on its log is compared by its messages.
    pub rust_events: u64,
    pub rust_retried: u64,
    pub calls: u64,
    pub calls_inside: u64,
    /// Calls that the port was not given, since its output would have been too long.
    pub cut: u64,
    pub turns: u64,
    pub deliveries: u64,
    pub marks: u64,
    pub retries: u64,
    questions: BTreeMap<&'static str, u64>,
    orders: BTreeMap<&'static str, u64>,
    refusals: BTreeMap<u8, u64>,
    pub met: Counts,
}

impl Default for Seen {
    fn default() -> Seen {
        Seen {
            cases: 0,
            inside: 0,
            rust_cases: 0,
            rust_events: 0,
            rust_retried: 0,
            calls: 0,
            calls_inside: 0,
            cut: 0,
            turns: 0,
            deliveries: 0,
            marks: 0,
            retries: 0,
            questions: BTreeMap::new(),
            orders: BTreeMap::new(),
            refusals: BTreeMap::new(),
            met: [[0; 2]; POINTS.len()],
        }
    }
}

impl Seen {
    pub fn case(&mut self, case: &Case) {
        self.cases += 1;
        self.inside += case.inside.is_some() as u64;
        self.calls_inside += case.inside.unwrap_or(0) as u64;
    }

    /// A call that was compared.
    pub fn call(&mut self, call: &Call, answer: &Answer) {
        self.calls += 1;
        if let Some(order) = order_of(answer) {
            *self.orders.entry(order_name(&order)).or_default() += 1;
        }
        match answer {
            Answer::Refused(number) => *self.refusals.entry(*number).or_default() += 1,
            Answer::TurnEnd { .. } => self.turns += 1,
            // A call from outside shows the open question again.
            Answer::Open(Some(question)) if matches!(call, Call::Turn | Call::Reply(_)) => {
                *self.questions.entry(question_name(question)).or_default() += 1;
            }
            _ => {}
        }
    }

    pub fn refused_opening(&mut self, number: u8) {
        *self.refusals.entry(number).or_default() += 1;
    }

    pub fn questions(&self) -> u64 {
        self.questions.values().sum()
    }

    /// Takes the points that were met in this thread.
    pub fn take_met(&mut self) {
        met::add(&mut self.met, &met::take());
    }

    pub fn print(&self) {
        println!("cases: {} ({} inside the domain of equality)", self.cases, self.inside);
        println!("calls: {} ({} inside it; {} not given to the port)", self.calls, self.calls_inside, self.cut);
        println!("turns: {}", self.turns);
        println!("deliveries: {}", self.deliveries);
        println!("marks: {}", self.marks);
        println!("retries written: {}", self.retries);
        for (name, count) in &self.orders {
            println!("order {name}: {count}");
        }
        println!("questions: {}", self.questions());
        for (name, count) in &self.questions {
            println!("question {name}: {count}");
        }
        for (number, count) in &self.refusals {
            println!("refused {number}: {count}");
        }
        if self.rust_cases > 0 {
            println!("beside the Rust: {} cases, {} events of it compared", self.rust_cases, self.rust_events);
            println!("beside the Rust with a retry, from there on by messages: {} cases", self.rust_retried);
        }
    }

    /// The table of points: how often each was met inside the domain, and outside it.
    pub fn print_met(&self) {
        println!("| point | inside the domain | outside it |\n|---|---:|---:|");
        for ((name, place), [inside, outside]) in POINTS.iter().zip(&self.met) {
            let reason = match place {
                Where::Never(reason) => format!(" (cannot be met: {reason})"),
                _ => String::new(),
            };
            println!("| {name}{reason} | {inside} | {outside} |");
        }
    }
}

fn order_name(order: &Order) -> &'static str {
    match order {
        Order::Append(..) => "append",
        Order::Replace(_) => "replace",
        Order::Flush => "flush",
    }
}

fn question_name(question: &Question) -> &'static str {
    match question {
        Question::Boot { .. } => "Boot",
        Question::Clock => "Clock",
        Question::Poll { .. } => "Poll",
        Question::Drain { .. } => "Drain",
        Question::Dispatch { .. } => "Dispatch",
        Question::Run { start: true, .. } => "Run start",
        Question::Run { start: false, .. } => "Run resume",
        Question::Push { .. } => "Push",
        Question::Sends { .. } => "Sends",
        Question::Trap { .. } => "Trap",
        Question::Trapped { .. } => "Trapped",
        Question::Tell { .. } => "Tell",
        Question::Store(_) => "Store",
    }
}
