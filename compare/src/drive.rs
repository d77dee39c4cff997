//! The port's calls one at a time (crates/drive), linked as a static archive of their own where that is built, behind
//! safe methods of the memory that a host lends.
use crate::limits::{GROUPS_MAX, MESSAGES, STORE};
use crate::model::pool::Settings;
#[cfg(drive)]
use crate::script::{group_numbers, settings_numbers};
use crate::tables::{ACTOR, GROUP, KEY_LIST, KEY_LISTS, LINK, LISTS, MESSAGE, RECORD, SLOTS};

/// Whether the archive is linked.
pub const AT_HAND: bool = cfg!(drive);

/// What is open after a call: which answer, its values, and the entry of the message that it shows, or 256.
#[repr(C)]
#[derive(Clone, Copy, PartialEq, Eq, Debug)]
pub struct Said {
    pub kind: u64,
    pub a: u64,
    pub b: u64,
    pub c: u64,
    pub entry: u64,
}

type Cells = [u64; 28];
type Records = [[u64; RECORD]; MESSAGES];
type Store = [u8; STORE];
type Groups = [[u64; GROUP]; GROUPS_MAX];
type Links = [[u64; LINK]; LISTS];
type Rows = [[u64; MESSAGE]; MESSAGES];
type Lists = [[u8; KEY_LIST]; KEY_LISTS];
type Actors = [[u64; ACTOR]; SLOTS];

#[cfg(drive)]
unsafe extern "C" {
    fn drive_open(
        pool: &mut Cells,
        log: *mut u8,
        log_len: usize,
        records: &mut Records,
        store: &mut Store,
        groups: &mut Groups,
        links: &mut Links,
        rows: &mut Rows,
        lists: &mut Lists,
        actors: &Actors,
        n: usize,
        settings: &[u64; 5],
        given: *const [u64; GROUP],
        given_len: usize,
    ) -> Said;

    fn drive_admit(
        pool: &mut Cells,
        log: *mut u8,
        log_len: usize,
        records: &mut Records,
        store: &mut Store,
        groups: &Groups,
        links: &mut Links,
        rows: &mut Rows,
        who: u64,
        id: u64,
        name: *const u8,
        name_len: usize,
        body: *const u8,
        body_len: usize,
    ) -> Said;

    fn drive_turn(
        pool: &mut Cells,
        log: *mut u8,
        log_len: usize,
        records: &mut Records,
        store: &Store,
        groups: &Groups,
        links: &mut Links,
        rows: &mut Rows,
        lists: &mut Lists,
        actors: &mut Actors,
    ) -> Said;

    fn drive_reply(
        pool: &mut Cells,
        log: *mut u8,
        log_len: usize,
        records: &mut Records,
        store: &mut Store,
        groups: &Groups,
        links: &mut Links,
        rows: &mut Rows,
        lists: &mut Lists,
        actors: &mut Actors,
        kind: u64,
        value: u64,
    ) -> Said;
}

/// What a host lends: the pool's cells, the log, the store and the tables.
#[cfg_attr(not(drive), allow(dead_code))]
pub struct Block {
    pool: Cells,
    records: Records,
    store: Store,
    groups: Groups,
    links: Links,
    rows: Rows,
    lists: Lists,
    actors: Actors,
    log: Vec<u8>,
}

impl Block {
    pub fn new() -> Box<Block> {
        Box::new(Block {
            pool: [0; _],
            records: [[0; _]; _],
            store: [0; _],
            groups: [[0; _]; _],
            links: [[0; _]; _],
            rows: [[0; _]; _],
            lists: [[0; _]; _],
            actors: [[0; _]; _],
            log: Vec::new(),
        })
    }

    pub fn log(&self) -> &[u8] {
        &self.log
    }
}

// SAFETY, of each call: every part is lent whole, with its own length where that is not fixed, and no two overlap,
// since each is a field of its own. The library is proved to read and write inside them only, and keeps none.
#[cfg(drive)]
impl Block {
    /// Opens a pool on the first n bytes of the log; tables and store stay as they are.
    pub fn open(&mut self, settings: &Settings, log: Vec<u8>, n: usize) -> Said {
        self.log = log;
        let given: Vec<[u64; GROUP]> = settings.groups.iter().map(group_numbers).collect();
        let Block { pool, records, store, groups, links, rows, lists, actors, log } = self;
        // SAFETY: above.
        unsafe {
            drive_open(
                pool,
                log.as_mut_ptr(),
                log.len(),
                records,
                store,
                groups,
                links,
                rows,
                lists,
                actors,
                n,
                &settings_numbers(settings),
                given.as_ptr(),
                given.len(),
            )
        }
    }

    pub fn admit(&mut self, name: &[u8], body: &[u8], caller: Option<u64>) -> Said {
        let Block { pool, records, store, groups, links, rows, log, .. } = self;
        // SAFETY: above.
        unsafe {
            drive_admit(
                pool,
                log.as_mut_ptr(),
                log.len(),
                records,
                store,
                groups,
                links,
                rows,
                caller.is_some() as u64,
                caller.unwrap_or(0),
                name.as_ptr(),
                name.len(),
                body.as_ptr(),
                body.len(),
            )
        }
    }

    pub fn turn(&mut self) -> Said {
        let Block { pool, records, store, groups, links, rows, lists, actors, log } = self;
        // SAFETY: above.
        unsafe { drive_turn(pool, log.as_mut_ptr(), log.len(), records, store, groups, links, rows, lists, actors) }
    }

    /// A reply by its numbers, as a script has them.
    pub fn reply(&mut self, kind: u64, value: u64) -> Said {
        let Block { pool, records, store, groups, links, rows, lists, actors, log } = self;
        // SAFETY: above.
        unsafe {
            drive_reply(
                pool,
                log.as_mut_ptr(),
                log.len(),
                records,
                store,
                groups,
                links,
                rows,
                lists,
                actors,
                kind,
                value,
            )
        }
    }
}

/// Stands for the library where it is not linked; whoever asked for `AT_HAND` does not come here.
#[cfg(not(drive))]
impl Block {
    pub fn open(&mut self, _: &Settings, _: Vec<u8>, _: usize) -> Said {
        panic!("built without crates/drive (tools/archives drive)")
    }

    pub fn admit(&mut self, _: &[u8], _: &[u8], _: Option<u64>) -> Said {
        unreachable!("no pool is open")
    }

    pub fn turn(&mut self) -> Said {
        unreachable!("no pool is open")
    }

    pub fn reply(&mut self, _: u64, _: u64) -> Said {
        unreachable!("no pool is open")
    }
}
