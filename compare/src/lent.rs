//! The slices that a run of the port is lent, used again from run to run.
use crate::output::Output;
use crate::port::{self, OK};
use crate::script::Script;
use crate::wire::NUMBER;

/// What stands in the lent log and store before a run, so that a byte that was touched is seen.
pub const LOG_FILL: u8 = 0xEE;
pub const STORE_FILL: u8 = 0xCC;

#[derive(Default)]
pub struct Lent {
    pub log: Vec<u8>,
    pub store: Vec<u8>,
    out: Vec<u8>,
    out_len: usize,
}

impl Lent {
    /// Runs the port over a script, with fresh slices and an output that is long enough. Gives its code.
    pub fn run(&mut self, script: &Script) -> u64 {
        self.run_within(script, script.output_bound())
    }

    /// The same with an output of `out_len` bytes.
    pub fn run_within(&mut self, script: &Script, out_len: usize) -> u64 {
        fill(&mut self.log, script.log_len(), LOG_FILL);
        fill(&mut self.store, script.store_len(), STORE_FILL);
        if self.out.len() < out_len {
            self.out.resize(out_len, 0);
        }
        self.out_len = out_len;
        port::replay(script.bytes(), &mut self.log, &mut self.store, &mut self.out[..out_len])
    }

    /// What the last run wrote, its count included.
    pub fn written(&self) -> Result<&[u8], String> {
        let out = &self.out[..self.out_len];
        let (count, _) = out.split_first_chunk::<NUMBER>().ok_or("the output has no room for a count")?;
        let count = u64::from_le_bytes(*count);
        let end = usize::try_from(count).ok().and_then(|count| count.checked_add(NUMBER));
        let end = end.filter(|end| *end <= out.len()).ok_or_else(|| format!("the count {count} passes the output"))?;
        Ok(&out[..end])
    }

    /// Runs a script that is well formed and reads its entries.
    pub fn output(&mut self, script: &Script) -> Result<Output<'_>, String> {
        let code = self.run(script);
        if code != OK {
            return Err(format!("the port returned {code} for a script that is well formed"));
        }
        Output::read(self.written()?, script.show(), script.store_len())
    }
}

fn fill(slice: &mut Vec<u8>, length: usize, byte: u8) {
    slice.clear();
    slice.resize(length, byte);
}
