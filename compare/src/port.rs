//! The port: the proved library, linked as a static archive, behind one safe function (docs/PROTOCOL.md).
use std::thread;

#[cfg(feature = "port")]
unsafe extern "C" {
    #[link_name = "replay"]
    fn port_replay(
        script: *const u8,
        script_len: usize,
        log: *mut u8,
        log_len: usize,
        store: *mut u8,
        store_len: usize,
        out: *mut u8,
        out_len: usize,
    ) -> u64;
}

/// The script was run to its end.
pub const OK: u64 = 0;
/// The script is malformed from here on; what was written before stands.
pub const MALFORMED: u64 = 1;
/// The output has no room for what comes next; what was written before stands.
pub const NO_ROOM: u64 = 2;
/// The log or the store has another length than the script says; nothing was run.
pub const LENGTHS: u64 = 3;

/// Runs an opening and calls, and writes an entry for each. The first 8 bytes of `out` count those written after them.
#[cfg(feature = "port")]
pub fn replay(script: &[u8], log: &mut [u8], store: &mut [u8], out: &mut [u8]) -> u64 {
    // SAFETY: each slice is lent whole with its own length, and no two overlap, since three are borrowed for change.
    // The library is proved to read and write inside them only, and keeps none.
    unsafe {
        port_replay(
            script.as_ptr(),
            script.len(),
            log.as_mut_ptr(),
            log.len(),
            store.as_mut_ptr(),
            store.len(),
            out.as_mut_ptr(),
            out.len(),
        )
    }
}

/// Stands for the port where the library is not linked; whatever needs a run of it stops here.
#[cfg(not(feature = "port"))]
pub fn replay(_script: &[u8], _log: &mut [u8], _store: &mut [u8], _out: &mut [u8]) -> u64 {
    panic!("built without the port (the feature `port`)")
}

/// Enough for a library that was built with no regard for its stack.
const STACK: usize = 128 << 20;

/// Runs something that calls the port, in a thread whose stack is large enough for it.
pub fn on_large_stack<T: Send>(run: impl FnOnce() -> T + Send) -> T {
    thread::scope(|scope| {
        let started = thread::Builder::new().stack_size(STACK).spawn_scoped(scope, run);
        match started.expect("a thread").join() {
            Ok(given) => given,
            Err(panic) => std::panic::resume_unwind(panic),
        }
    })
}
