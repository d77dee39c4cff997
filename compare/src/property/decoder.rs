//! docs/PROTOCOL.md as a plain program: what `replay` must make of any bytes. The pool is that of `model`; what it
//! does not decide (the rows of the tables, which entry of the store a text has) is left open.
use crate::limits::{NAME_MAX, refusal};
use crate::model::log;
use crate::model::log::CallerId;
use crate::model::pool::{self, Call, GroupSetting, Pool, Reply, Settings, Status};
use crate::output::{Answer, Shown};
use crate::port::{LENGTHS, MALFORMED, NO_ROOM, OK};
use crate::script::{SHOW_LOG, SHOW_STORE, SHOW_TABLES};
use crate::wire::{NUMBER, Reader, put};

/// The tables, in the order in which they are shown: rows, and bytes of a row.
const TABLES: [(usize, usize); 6] = [(256, 32), (8, 296), (262, 32), (256, 56), (34, 65), (128, 96)];
const GROUPS_READ: u64 = 16;
const GROUP_NUMBERS: usize = 37;

/// What must be returned, and what must stand in the lent slices.
pub struct Expected {
    pub code: u64,
    /// What is written, its count included; None where a byte may be any.
    pub out: Vec<Option<u8>>,
    pub log: Vec<u8>,
    /// None where messages lie in entries that are free to choose.
    pub store: Option<Vec<u8>>,
}

/// The output, while it has room.
struct Pour {
    room: usize,
    out: Vec<Option<u8>>,
    code: u64,
}

impl Pour {
    fn text(&mut self, bytes: impl ExactSizeIterator<Item = Option<u8>>) {
        if self.code != OK {
            return;
        }
        if bytes.len() > self.room - self.out.len() {
            self.code = NO_ROOM;
            return;
        }
        self.out.extend(bytes);
    }

    fn bytes(&mut self, bytes: &[u8]) {
        self.text(bytes.iter().map(|byte| Some(*byte)));
    }

    fn numbers(&mut self, numbers: &[u64]) {
        let mut bytes = Vec::new();
        numbers.iter().for_each(|number| put(&mut bytes, *number));
        self.bytes(&bytes);
    }

    fn open(&mut self, length: usize) {
        self.text(std::iter::repeat_n(None, length));
    }

    /// An entry. A pool that is not there has only zeros.
    fn entry(&mut self, show: u64, answer: &pool::Answer, pool: Option<&Pool>, store_len: usize) {
        let file = pool.map_or(&[][..], |pool| &pool.log[..pool.counters.size]);
        let mut numbers = answer_numbers(&Answer::of(answer)).to_vec();
        match pool {
            None => numbers.extend([0; 8]),
            Some(pool) => {
                let counters = &pool.counters;
                let open = log::open_records(file).len() as u64;
                numbers.extend([
                    counters.next,
                    counters.live as u64,
                    counters.size as u64,
                    counters.dirty as u64,
                    open,
                ]);
                numbers.extend([pool.queued as u64, pool.dead, pool.crashes]);
            }
        }
        self.numbers(&numbers);
        match pool.and_then(|pool| Shown::of(answer, pool)) {
            None => self.numbers(&[0]),
            Some(shown) => {
                self.numbers(&[1, shown.name.len() as u64, shown.body.len() as u64]);
                self.bytes(shown.name);
                self.bytes(shown.body);
            }
        }
        if show >= SHOW_LOG {
            self.bytes(file);
        }
        if show >= SHOW_TABLES {
            for (rows, row) in TABLES {
                (0..rows).for_each(|_| self.open(row));
            }
        }
        if show >= SHOW_STORE {
            self.open(store_len);
        }
    }
}

/// The number of an answer and its values.
pub fn answer_numbers(answer: &Answer) -> [u64; 4] {
    match *answer {
        Answer::Nothing => [0, 0, 0, 0],
        Answer::Refused(number) => [1, number, 0, 0],
        Answer::TurnEnd { busy, waiters } => [2, busy as u64, waiters as u64, 0],
        Answer::Append(from, to) => [3, from, to, 0],
        Answer::Replace(length) => [4, length, 0, 0],
        Answer::Flush => [5, 0, 0, 0],
        Answer::Boot { group } => [6, group, 0, 0],
        Answer::Clock => [7, 0, 0, 0],
        Answer::Poll { group, key } => [8, group, key, 0],
        Answer::Drain { group, key } => [9, group, key, 0],
        Answer::Dispatch { group, key } => [10, group, key, 0],
        Answer::Run { group, key, start } => [11, group, key, start as u64],
        Answer::Push { group, key } => [12, group, key, 0],
        Answer::Sends { group, key } => [13, group, key, 0],
        Answer::Trap { group } => [14, group, 0, 0],
        Answer::Trapped { group, key } => [15, group, key, 0],
        Answer::Tell { caller, outcome } => [16, caller, outcome as u64, 0],
    }
}

/// A script's header.
struct Header<'a> {
    show: u64,
    log_len: u64,
    store_len: u64,
    file: &'a [u8],
    /// Err where a setting is outside its range by its form alone.
    settings: Result<Settings, u8>,
}

/// The header and what follows it; None where it is malformed.
fn header(script: &[u8]) -> Option<(Header<'_>, Reader<'_>)> {
    let mut from = Reader::new(script);
    let mut numbers = [0; 11];
    for number in &mut numbers {
        *number = from.number()?;
    }
    let [version, show, log_len, store_len, file_len, max_actors, inbox, backlog, compact_at, tick_ns, count] =
        numbers;
    if version != 1 || show > SHOW_STORE || count > GROUPS_READ {
        return None;
    }
    let mut groups = Vec::new();
    let mut formed = true;
    for _ in 0..count {
        let mut row = [0; GROUP_NUMBERS];
        for number in &mut row {
            *number = from.number()?;
        }
        let (set, name) = row.split_at(GROUP_NUMBERS - NAME_MAX);
        let [replicas, kind, timeout, retry, name_len] = *set else { unreachable!("a group's numbers") };
        formed &= kind <= 1 && name.iter().all(|byte| *byte < 256) && name_len <= NAME_MAX as u64;
        let name = name.iter().take(name_len.min(NAME_MAX as u64) as usize).map(|byte| *byte as u8).collect();
        groups.push(GroupSetting { name, replicas: replicas as usize, eval: kind == 1, timeout, retry });
    }
    let file = from.bytes(file_len)?;
    let settings = Settings {
        groups,
        max_actors: max_actors as usize,
        inbox: inbox as usize,
        backlog: backlog as usize,
        compact_at: compact_at as usize,
        tick_ns,
    };
    let settings = if formed { Ok(settings) } else { Err(refusal::SETTING) };
    Some((Header { show, log_len, store_len, file, settings }, from))
}

/// The next call; None where it is malformed.
pub fn call(from: &mut Reader) -> Option<Call> {
    const STATUSES: [Status; 7] =
        [Status::Done, Status::Exit, Status::Preempted, Status::Event, Status::HostCall, Status::Error, Status::Broke];
    let mut numbers = [0; 5];
    for number in &mut numbers {
        *number = from.number()?;
    }
    let [which, kind, value, name_len, body_len] = numbers;
    let (name, body) = (from.bytes(name_len)?.to_vec(), from.bytes(body_len)?.to_vec());
    Some(match (which, kind) {
        (1, 0) => Call::Admit { name, body, caller: None },
        (1, 1) => Call::Admit { name, body, caller: Some(CallerId(value)) },
        (2, _) => Call::Turn,
        (3, _) => Call::Reply(match kind {
            0 => Reply::No,
            1 => Reply::Yes,
            2 => Reply::Clock(value),
            3 => Reply::Count(value),
            4 => Reply::Ran(*STATUSES.get(usize::try_from(value).ok()?)?),
            5 => Reply::Send(name, body),
            6 => Reply::End,
            7 => Reply::Told,
            8 => Reply::Stored,
            9 => Reply::Failed,
            _ => return None,
        }),
        (4, _) => Call::Sync,
        (5, _) => Call::Close,
        _ => return None,
    })
}

/// What a run over these slices must give, in an output of `room` bytes.
pub fn expected(script: &[u8], log: &[u8], store: &[u8], room: usize) -> Expected {
    let untouched = |code| Expected { code, out: Vec::new(), log: log.to_vec(), store: Some(store.to_vec()) };
    if room < NUMBER {
        return untouched(NO_ROOM);
    }
    let nothing_run = |code| Expected { out: vec![Some(0); NUMBER], ..untouched(code) };
    let Some((header, from)) = header(script) else { return nothing_run(MALFORMED) };
    if header.log_len != log.len() as u64 || header.store_len != store.len() as u64 {
        return nothing_run(LENGTHS);
    }
    let mut pour = Pour { room, out: vec![Some(0); NUMBER], code: OK };
    let mut expected = run(&header, from, log, store, &mut pour);
    expected.code = pour.code.max(expected.code);
    expected.out = pour.out;
    let count = ((expected.out.len() - NUMBER) as u64).to_le_bytes();
    expected.out.iter_mut().zip(count).for_each(|(byte, count)| *byte = Some(count));
    expected
}

/// The opening and the calls. The code is that of the script alone.
fn run(header: &Header, mut from: Reader, log: &[u8], store: &[u8], pour: &mut Pour) -> Expected {
    let mut log = log.to_vec();
    if let Some(front) = log.get_mut(..header.file.len()) {
        front.copy_from_slice(header.file);
    }
    let opened = header.settings.as_ref().map_err(|number| *number);
    let opened = opened.and_then(|settings| pool::open(settings, &log, header.file.len(), store));
    let mut pool = match opened {
        Ok(pool) => pool,
        Err(number) => {
            pour.entry(header.show, &pool::Answer::Refused(number), None, store.len());
            return Expected { code: OK, out: Vec::new(), log, store: Some(store.to_vec()) };
        }
    };
    let answer = pool::Answer::Open(pool.open_question());
    pour.entry(header.show, &answer, Some(&pool), store.len());
    let mut code = OK;
    // An opening fills the entries from the first on; later texts may go anywhere.
    let mut free_choice = false;
    while pour.code == OK && !from.is_empty() {
        let Some(call) = call(&mut from) else {
            code = MALFORMED;
            break;
        };
        let answer = pool.call(&call);
        let kept = matches!(call, Call::Admit { .. } | Call::Reply(Reply::Send(..)));
        free_choice |= kept && !matches!(answer, pool::Answer::Refused(_));
        pour.entry(header.show, &answer, Some(&pool), store.len());
    }
    Expected { code, out: Vec::new(), log: pool.log, store: (!free_choice).then_some(pool.store) }
}
