//! The Rust from its log's file to its first turn.
use super::config::{ActorConfig, Group, Out};
use super::scheduler::Scheduler;
use super::server::{self, Inbox, Intake, Stats, Wal};
use super::{constants, host};
use crate::model::pool::{GroupSetting, Settings};
use std::path::Path;
use std::sync::{Arc, Mutex};

pub struct Opened {
    pub scheduler: Scheduler,
    pub inbox: Inbox,
    pub intake: Intake,
    pub wal: Arc<Mutex<Wal>>,
}

/// Opens the log's file; `dir` is the folder of a group, by its number.
pub fn open(settings: &Settings, path: &Path, dir: impl Fn(usize) -> String, stats: Option<Arc<Stats>>) -> Opened {
    constants::set(settings);
    let (wal, recovered) = Wal::open(path).expect("the Rust opens its log");
    let wal = Arc::new(Mutex::new(wal));
    let (inbox, intake) = server::inbox(wal.clone());
    let groups = settings.groups.iter().enumerate().map(|(number, group)| group_of(group, dir(number))).collect();
    let config = ActorConfig { groups, max_actors: settings.max_actors };
    let mut scheduler = Scheduler::new(config, host::Runtime::new().ok().unwrap()).unwrap();
    scheduler.begin(recovered, wal.clone(), stats);
    Opened { scheduler, inbox, intake, wal }
}

fn group_of(setting: &GroupSetting, dir: String) -> Group {
    Group {
        name: String::from_utf8(setting.name.clone()).expect("a name inside the domain"),
        source: String::new(),
        dir,
        manifest: None,
        replicas: setting.replicas,
        limits: Default::default(),
        preempt: 0,
        out: Out::Null,
        eval: setting.eval,
        timeout: setting.timeout,
        ceiling: Vec::new(),
        retry: setting.retry as usize,
        inbox: Vec::new(),
    }
}
