//! A case: an opening and a list of calls, made by driving the plain program. While the list lies inside the domain of
//! equality, every order is answered `stored`, and what the Rust must do is written down beside it. A list may go on
//! outside the domain; there the port is compared with the plain program alone.
use super::mood::{self, Mood};
use super::{files, settings, texts};
use crate::lent::{LOG_FILL, STORE_FILL};
use crate::limits::{BODY_MAX, LOG_MAX, LOG_MIN, NAME_MAX, RETRY_MAX, STORE, refusal};
use crate::model::log::{self, CallerId, Reader};
use crate::model::pool::{self, Answer, Call, Pool, Question, Reply, Settings};
use crate::rng::Rng;
use crate::trace::{Asked, Event, Trace};
use crate::view::{FileView, LogView, MessageView, PoolView};

/// Calls of one list at most, about: a turn is not broken off.
const MOST_CALLS: usize = 600;
const MOST_CALLS_CROWDED: usize = 3_000;

pub struct Case {
    pub settings: Settings,
    pub log_len: usize,
    pub store_len: usize,
    pub file: Vec<u8>,
    pub calls: Vec<Call>,
    /// The log's size after the opening and after each call.
    pub sizes: Vec<usize>,
    /// The first so many calls lie inside the domain of equality; None where the opening does not.
    pub inside: Option<usize>,
    /// What the Rust must do over these; empty where the opening lies outside the domain.
    pub trace: Trace,
}

impl Case {
    /// The case of a number, always the same.
    pub fn new(number: u64) -> Case {
        let rng = &mut Rng::new(number);
        match rng.below(50) {
            0 | 1 => return Case::outside(rng),
            2 | 3 => return Case::retried(rng),
            _ => {}
        }
        let kind = Kind::new(rng);
        Case::of(rng, kind)
    }

    /// A case in which logged messages crash again and again, with much room for the lines of it, or with little.
    pub fn retrying(rng: &mut Rng) -> Case {
        Case::of(rng, Kind::Retrying)
    }

    fn of(rng: &mut Rng, kind: Kind) -> Case {
        let mut settings = match kind {
            Kind::Plain => settings::settings(rng),
            Kind::Crowded => settings::crowded(rng),
            Kind::Refusing => settings::one_group(rng, 2),
            Kind::Crashing => settings::one_group(rng, 6),
            Kind::Retrying => settings::retrying(rng),
        };
        let file = if kind == Kind::Retrying { files::open(rng, &settings) } else { files::file(rng, &settings) };
        let log_len = match kind {
            Kind::Plain => settings::log_len(rng, file.len()),
            Kind::Retrying => settings::tight_log_len(rng, file.len()),
            _ => LOG_MAX,
        };
        // Near the length of the new log, so that some marks just reach it.
        if kind != Kind::Crowded && rng.chance(4) {
            let image = log::readable(&file).map_or(0, |reading| log::image(&reading.left).len());
            settings.compact_at = image + rng.range(1, 30) as usize;
        }
        let mut maker = match Maker::open(settings, log_len, STORE, file) {
            Ok(maker) => maker,
            Err(case) => return *case,
        };
        let mut mood = match kind {
            Kind::Plain => Mood::new(rng),
            Kind::Crowded => Mood::crowded(rng),
            Kind::Refusing => Mood::refusing(rng),
            Kind::Crashing | Kind::Retrying => Mood::crashing(rng),
        };
        maker.inside(rng, &mut mood, kind);
        if rng.chance(5) {
            maker.outside(rng, &mut mood, Strewn::OFTEN);
        }
        maker.case()
    }

    /// A case that need not lie inside the domain at all: any bytes in the file, any lent lengths, settings out of
    /// their ranges; or a file with attempts.
    pub fn outside(rng: &mut Rng) -> Case {
        if rng.chance(4) {
            return Case::retried(rng);
        }
        let mut settings = settings::settings(rng);
        let file = files::any(rng, &settings);
        if rng.chance(6) {
            spoil(rng, &mut settings);
        }
        let log_len = match rng.below(8) {
            0 => *rng.pick(&[0, 1, 15, 16, 65_536, 65_537]),
            1 => rng.below(file.len() as u64 + 1) as usize,
            2..=5 => file.len().max(16) + rng.below(120) as usize,
            _ => 65_536,
        };
        let store_len = if rng.chance(20) { *rng.pick(&[0, 1, STORE - 1, STORE + 1]) } else { STORE };
        let mood = Mood::new(rng);
        Case::any_calls(rng, Maker::open(settings, log_len, store_len, file), mood, Strewn::OFTEN)
    }

    /// A case on a file in which messages have attempts, where they crash again; the log often has little room.
    pub fn retried(rng: &mut Rng) -> Case {
        let mut settings = settings::retrying(rng);
        let mut file = files::retried(rng, &settings);
        let mut log_len = settings::tight_log_len(rng, file.len());
        // As an opening left it: the next number is longer, and has no room.
        if let Ok(mut reading) = log::readable(&file)
            && rng.chance(2)
        {
            reading.left.iter_mut().for_each(|message| message.attempts = *rng.pick(&[0, 9, 9, 99]));
            file = log::image(&reading.left);
            log_len = file.len().max(LOG_MIN) + rng.chance(4) as usize;
            settings.groups[0].retry = RETRY_MAX;
        }
        let mood = Mood::crashing(rng);
        Case::any_calls(rng, Maker::open(settings, log_len, STORE, file), mood, Strewn::SELDOM)
    }

    /// An opening, and any calls after it: all outside the domain.
    fn any_calls(rng: &mut Rng, opened: Result<Maker, Box<Case>>, mut mood: Mood, strewn: Strewn) -> Case {
        match opened {
            Ok(mut maker) => {
                maker.leave(0);
                maker.outside(rng, &mut mood, strewn);
                let mut case = maker.case();
                case.inside = None;
                case
            }
            Err(case) => *case,
        }
    }
}

/// How many calls are made outside the domain at most, and how many there are to one that need not fit.
#[derive(Clone, Copy)]
struct Strewn {
    most: u64,
    of: u64,
}

impl Strewn {
    const OFTEN: Strewn = Strewn { most: 60, of: 6 };
    const SELDOM: Strewn = Strewn { most: 200, of: 40 };
}

/// What a case aims at.
#[derive(Clone, Copy, PartialEq, Eq)]
enum Kind {
    Plain,
    /// Full lists of keys, or a full body store.
    Crowded,
    /// Few actors, which refuse their mail and wait.
    Refusing,
    /// Actors that crash together, with messages in their hands.
    Crashing,
    /// The same on a log of open records that has little room, with messages that may crash more often.
    Retrying,
}

impl Kind {
    fn new(rng: &mut Rng) -> Kind {
        match rng.below(240) {
            0..=2 => Kind::Crowded,
            3..=12 => Kind::Refusing,
            13..=22 => Kind::Crashing,
            23..=42 => Kind::Retrying,
            _ => Kind::Plain,
        }
    }
}

/// Puts one setting out of its range.
fn spoil(rng: &mut Rng, settings: &mut Settings) {
    let at = rng.below(settings.groups.len() as u64) as usize;
    let group = &mut settings.groups[at];
    match rng.below(14) {
        0 => group.replicas = 17,
        1 => group.timeout = 86_401,
        2 => group.retry = 256,
        3 => group.name = vec![b'n'; 33],
        4 => settings.groups.clear(),
        5 => settings.groups = vec![group.clone(); 9],
        6 => settings.max_actors = 17,
        7 => settings.inbox = 0,
        8 => settings.inbox = 65,
        9 => settings.backlog = *rng.pick(&[0, 257]),
        10 => settings.compact_at = 0,
        11 => settings.compact_at = 65_537,
        12 => settings.tick_ns = 0,
        _ => settings.tick_ns = 1_000_000_001,
    }
}

struct Maker {
    pool: Pool,
    case: Case,
    /// Callers so far: their ids come again.
    callers: u64,
}

impl Maker {
    /// An opening; Err with the whole case where it is refused.
    fn open(settings: Settings, log_len: usize, store_len: usize, file: Vec<u8>) -> Result<Maker, Box<Case>> {
        let empty = FileView::Bytes { bytes: Vec::new(), live: 0 };
        let log = LogView { file: empty, next: 0, dirty: false, inbox: 0 };
        let view = PoolView { groups: Vec::new(), pending: Vec::new(), queued: 0, crashes: 0, dead: 0 };
        let trace = Trace { log, pool: view, events: Vec::new() };
        let (calls, sizes) = (Vec::new(), vec![0]);
        let mut case = Case { settings, log_len, store_len, file, calls, sizes, inside: None, trace };
        let Ok(pool) = open(&case) else { return Err(Box::new(case)) };
        let inside = opens_inside(&pool, &case.file);
        case.sizes = vec![pool.counters.size];
        case.trace.log = LogView::of(&pool);
        case.trace.pool = PoolView::of(&pool);
        let mut maker = Maker { pool, case, callers: 0 };
        if !inside {
            maker.leave(0);
            maker.case.inside = None;
        }
        Ok(maker)
    }

    fn case(mut self) -> Case {
        if !self.left() {
            self.case.inside = Some(self.case.calls.len());
        }
        self.case
    }

    /// The list has left the domain.
    fn left(&self) -> bool {
        self.case.trace.events.last() == Some(&Event::Stop)
    }

    /// From call `at` on the list is outside the domain.
    fn leave(&mut self, at: usize) {
        if !self.left() {
            self.case.inside = Some(at);
            self.case.trace.events.push(Event::Stop);
        }
    }

    /// Writes down what the Rust must do, while the list is inside the domain.
    fn write(&mut self, event: impl FnOnce(&Pool) -> Event) {
        if !self.left() {
            let event = event(&self.pool);
            self.case.trace.events.push(event);
        }
    }

    /// One call. Its deliveries and marks are written down.
    fn one(&mut self, call: Call) -> Answer {
        let answer = self.pool.call(&call);
        if self.pool.outside_domain() {
            self.leave(self.case.calls.len());
        }
        self.case.calls.push(call);
        self.case.sizes.push(self.pool.counters.size);
        for event in self.pool.events.clone() {
            match event {
                pool::Event::Delivered { g, key, message } => self.write(|pool| {
                    let message = MessageView::of(pool, message);
                    Event::Deliver { group: g, key, message }
                }),
                pool::Event::Marked(id) => self.write(|_| Event::Mark(id.0)),
                // The record shows in the log that the call's own event has. The Rust writes no line of a retry.
                pool::Event::Logged(_) | pool::Event::Retried { .. } => {}
            }
        }
        answer
    }

    /// One call, and `stored` for every order that follows from it.
    fn call(&mut self, rng: &mut Rng, call: Call) -> Answer {
        let mut answer = self.one(call);
        while let Answer::Open(Some(Question::Store(_))) = answer {
            if rng.chance(30) {
                self.refused(rng);
            }
            answer = self.one(Call::Reply(Reply::Stored));
        }
        answer
    }

    /// A call that is refused: the Rust hears nothing of it.
    fn refused(&mut self, rng: &mut Rng) {
        let call = any_call(rng, &self.pool.settings);
        if self.pool.refusal(&call).is_some() {
            self.one(call);
        }
    }

    /// Calls inside the domain, until the list has left it or is long enough.
    fn inside(&mut self, rng: &mut Rng, mood: &mut Mood, kind: Kind) {
        let crowded = kind == Kind::Crowded;
        if rng.chance(10) {
            self.refused(rng);
        }
        self.one(Call::Reply(Reply::Stored));
        let calls = if crowded || rng.chance(20) { rng.range(40, 200) } else { rng.range(1, 30) };
        let most = if crowded { MOST_CALLS_CROWDED } else { MOST_CALLS };
        let asks = if crowded { 400 } else { *rng.pick(&[20, 60, 200]) };
        let burst = match kind {
            Kind::Crowded => rng.range(0, 40),
            Kind::Plain if !rng.chance(4) => 0,
            Kind::Retrying => rng.range(0, 2),
            _ => rng.range(1, 8),
        };
        for _ in 0..burst {
            self.admit(rng);
        }
        for _ in 0..calls {
            if self.left() || self.case.calls.len() > most {
                return;
            }
            if kind == Kind::Plain && rng.chance(30) {
                *mood = Mood::new(rng);
            }
            match rng.below(20) {
                0..=9 => self.turn(rng, mood, asks),
                10 => self.refused(rng),
                _ => self.admit_sync_or_close(rng),
            }
        }
    }

    /// admit, sync or close, at rest or while a question is open.
    fn admit_sync_or_close(&mut self, rng: &mut Rng) {
        match rng.below(24) {
            0..=3 => {
                self.call(rng, Call::Sync);
                self.write(|pool| Event::Sync(LogView::of(pool)));
            }
            4 if rng.chance(6) => {
                self.call(rng, Call::Close);
                self.write(|_| Event::Close);
            }
            _ => self.admit(rng),
        }
    }

    fn admit(&mut self, rng: &mut Rng) {
        let caller = rng.chance(3).then(|| {
            self.callers += 1;
            self.callers % 5
        });
        let (name, body) = (texts::name(rng, &self.pool.settings), texts::text(rng, BODY_MAX));
        let call = Call::Admit { name: name.clone(), body: body.clone(), caller: caller.map(CallerId) };
        let refused = self.pool.refusal(&call);
        // The Rust knows a full inbox alone; when it is closed it has none.
        if self.pool.closed || !matches!(refused, None | Some(refusal::INBOX)) {
            self.one(call);
            return;
        }
        self.call(rng, call);
        let accepted = refused.is_none();
        self.write(|pool| Event::Admit { name, body, caller, accepted, log: LogView::of(pool) });
    }

    /// A whole turn, unless the list leaves the domain in it.
    fn turn(&mut self, rng: &mut Rng, mood: &mut Mood, most_asks: usize) {
        self.write(|_| Event::Turn);
        let mut answer = self.call(rng, Call::Turn);
        let mut asks = 0;
        while !self.left() {
            let question = match answer {
                Answer::Open(Some(question)) => question,
                Answer::TurnEnd { busy, waiters } => {
                    self.write(|pool| Event::TurnEnd {
                        busy,
                        waiters,
                        pool: PoolView::of(pool),
                        log: LogView::of(pool),
                    });
                    return;
                }
                other => panic!("a turn gives {other:?}"),
            };
            asks += 1;
            self.write(|pool| Event::Ask(Asked::of(pool, &question), LogView::of(pool)));
            while rng.chance(12) && !self.left() {
                if rng.chance(6) { self.refused(rng) } else { self.admit_sync_or_close(rng) }
            }
            if self.left() {
                return;
            }
            assert_eq!(self.pool.open_question(), Some(question), "the question is shown again");
            let mut reply = mood.reply(rng, &self.pool, &question, asks > most_asks);
            if self.pool.refusal(&Call::Reply(reply.clone())).is_some() {
                self.one(Call::Reply(reply));
                reply = Reply::End;
            }
            self.write(|_| Event::Answer(reply.clone()));
            answer = self.call(rng, Call::Reply(reply));
        }
    }

    /// Any calls, outside the domain.
    fn outside(&mut self, rng: &mut Rng, mood: &mut Mood, strewn: Strewn) {
        self.leave(self.case.calls.len());
        let fails = rng.chance(3);
        for _ in 0..rng.range(1, strewn.most) {
            let call = match self.pool.open_question() {
                Some(Question::Store(_)) if fails && rng.chance(12) => Call::Reply(Reply::Failed),
                Some(question) if !rng.chance(strewn.of) => Call::Reply(mood.reply(rng, &self.pool, &question, false)),
                _ => any_call(rng, &self.pool.settings),
            };
            self.one(call);
        }
    }
}

/// Whether an opening lies inside the domain, as far as `files::file` leaves it open. The Rust reads ids in other
/// spellings too, skips lines of two fields, and loses the CR at the end of a left body when it rewrites its log.
pub(crate) fn opens_inside(pool: &Pool, file: &[u8]) -> bool {
    let strips = pool.pending.iter().any(|&e| pool.body(e).last() == Some(&b'\r'));
    log::one_spelling(file) && log::no_retry(file) && !strips
}

/// Any call with any arguments.
fn any_call(rng: &mut Rng, settings: &Settings) -> Call {
    match rng.below(12) {
        0..=3 => {
            let caller = rng.chance(3).then(|| CallerId(rng.number()));
            let name = match rng.below(6) {
                0 | 1 => texts::any(rng, NAME_MAX),
                2 => texts::near(rng, settings),
                _ => rng.pick(&settings.groups).name.clone(),
            };
            Call::Admit { name, body: texts::any(rng, BODY_MAX), caller }
        }
        4..=6 => Call::Turn,
        7 => Call::Sync,
        8 if rng.chance(4) => Call::Close,
        _ => Call::Reply(mood::any(rng)),
    }
}

/// The plain program, opened on a case.
pub fn open(case: &Case) -> Result<Pool, u8> {
    open_by(&log::readable, case)
}

/// The same by any reader of its file.
pub fn open_by(reads: Reader, case: &Case) -> Result<Pool, u8> {
    let mut log = vec![LOG_FILL; case.log_len];
    let put = case.file.len().min(case.log_len);
    log[..put].copy_from_slice(&case.file[..put]);
    pool::open_by(reads, &case.settings, &log, case.file.len(), &vec![STORE_FILL; case.store_len])
}
