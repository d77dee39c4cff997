//! Finds the things that lie outside this folder: the port's static library, the Rust under comparison, and slab 0.4.
//!
//! The Rust is read where it lies and written to OUT_DIR, unchanged but for the swaps listed in `SOURCES`. Each swap
//! is counted: where its text does not stand in the source exactly as often as said, the build stops. Where the Rust
//! is not at hand, the crate is built without the cfg `oracle`, and the comparison says that it is skipped.
//!
//! slab is the one crate that the Rust needs. It is Debian's package librust-slab-dev, compiled here, so that nothing
//! has to be fetched and nothing is needed where the Rust is not at hand.
use std::env;
use std::fs;
use std::path::{Path, PathBuf};
use std::process::Command;

/// A text of the source and what stands in its place.
struct Swap {
    from: &'static str,
    to: &'static str,
    times: usize,
}

struct Source {
    file: &'static str,
    swaps: &'static [Swap],
}

/// The files of the Rust that are compiled. Only constants that are settings of the port become getters, and two
/// places tell the script: a delivery, a mark.
const SOURCES: &[Source] = &[
    Source { file: "config.rs", swaps: &[] },
    Source { file: "pool.rs", swaps: &[] },
    Source {
        file: "server.rs",
        swaps: &[
            Swap { from: ">= INBOX {", to: ">= crate::oracle::constants::inbox() {", times: 1 },
            Swap { from: "COMPACT_AT.max(", to: "crate::oracle::constants::compact_at().max(", times: 1 },
            Swap {
                from: "pub fn ack(&mut self, id: u64) {",
                to: "pub fn ack(&mut self, id: u64) { crate::oracle::script::marked(id);",
                times: 1,
            },
        ],
    },
    Source {
        file: "actor.rs",
        swaps: &[
            Swap {
                from: "1_000_000_000 / TICK_NS;",
                to: "1_000_000_000 / crate::oracle::constants::tick_ns();",
                times: 1,
            },
            Swap {
                from: "now_ns() + ticks * TICK_NS;",
                to: "now_ns() + ticks * crate::oracle::constants::tick_ns();",
                times: 1,
            },
        ],
    },
    Source {
        file: "scheduler.rs",
        swaps: &[
            Swap {
                from: "self.queued >= BACKLOG",
                to: "self.queued >= crate::oracle::constants::backlog()",
                times: 1,
            },
            Swap {
                from: "g.actors[key].deliver(m);",
                to: "crate::oracle::script::delivered(gi, key, &m); g.actors[key].deliver(m);",
                times: 1,
            },
        ],
    },
];

fn main() {
    println!("cargo::rerun-if-changed=build.rs");
    println!("cargo::rustc-check-cfg=cfg(drive, oracle)");
    let here = PathBuf::from(env::var("CARGO_MANIFEST_DIR").unwrap());
    let out = PathBuf::from(env::var("OUT_DIR").unwrap());
    if env::var_os("CARGO_FEATURE_PORT").is_some() {
        let folder = here.join(env::var("FELDWYGOR_LIB").unwrap_or("../target/staticlib".into()));
        link_port(&folder);
        link_drive(&folder);
    }
    if take_rust(&here, &out) && compile_slab(&out) {
        println!("cargo::rustc-cfg=oracle");
    }
}

fn link_port(folder: &Path) {
    println!("cargo::rerun-if-env-changed=FELDWYGOR_LIB");
    let archive = folder.join("libreplay.a");
    println!("cargo::rerun-if-changed={}", archive.display());
    if !archive.exists() {
        println!("cargo::error=the port is not built: no libreplay.a (tools/archives replay, or FELDWYGOR_LIB)");
        return;
    }
    println!("cargo::rustc-link-search=native={}", folder.display());
    println!("cargo::rustc-link-lib=static=replay");
}

/// The calls one at a time, which `bench` alone measures; where they are not built, it says so.
fn link_drive(folder: &Path) {
    let archive = folder.join("libdrive.a");
    println!("cargo::rerun-if-changed={}", archive.display());
    if archive.exists() {
        println!("cargo::rustc-link-lib=static=drive");
        println!("cargo::rustc-cfg=drive");
    }
}

/// True where the Rust is at hand and is what the swaps were written for.
fn take_rust(here: &Path, out: &Path) -> bool {
    println!("cargo::rerun-if-env-changed=FELDWYGOR_RUST_SRC");
    let named = env::var("FELDWYGOR_RUST_SRC").ok();
    let folder = here.join(named.as_deref().unwrap_or("../../shared/docs/src"));
    for source in SOURCES {
        let path = folder.join(source.file);
        println!("cargo::rerun-if-changed={}", path.display());
        let Ok(text) = fs::read_to_string(&path) else {
            if named.is_some() {
                println!("cargo::error=FELDWYGOR_RUST_SRC names a folder without {}", source.file);
            }
            return false;
        };
        let Some(text) = swapped(source, text) else { return false };
        fs::write(out.join(source.file), text).unwrap();
    }
    true
}

/// The source after its swaps; stops the build where it is not the text that the swaps were written for.
fn swapped(source: &Source, mut text: String) -> Option<String> {
    for swap in source.swaps {
        let found = text.matches(swap.from).count();
        if found != swap.times {
            println!(
                "cargo::error={} has changed: `{}` stands in it {found} times, not {}; look at the comparison again",
                source.file, swap.from, swap.times
            );
            return None;
        }
        text = text.replace(swap.from, swap.to);
    }
    Some(text)
}

/// Compiles slab beside the Rust; stops the build where it is missing.
fn compile_slab(out: &Path) -> bool {
    println!("cargo::rerun-if-env-changed=FELDWYGOR_SLAB");
    let Some(folder) = env::var("FELDWYGOR_SLAB").ok().map(PathBuf::from).or_else(debian_slab) else {
        println!(
            "cargo::error=slab 0.4 is missing: install Debian's librust-slab-dev, or name its folder by FELDWYGOR_SLAB"
        );
        return false;
    };
    let status = Command::new(env::var("RUSTC").unwrap())
        .args(["--crate-name", "slab", "--crate-type", "rlib", "--edition", "2018", "--cap-lints", "allow"])
        .args(["-C", "opt-level=3", "--cfg", "feature=\"std\"", "--out-dir"])
        .arg(out)
        .arg(folder.join("src/lib.rs"))
        .status();
    if !status.is_ok_and(|status| status.success()) {
        println!("cargo::error=slab 0.4 does not compile");
        return false;
    }
    println!("cargo::rustc-link-search=dependency={}", out.display());
    println!("cargo::rustc-link-search=crate={}", out.display());
    true
}

/// The folder `slab-0.4.x` of Debian's package.
fn debian_slab() -> Option<PathBuf> {
    let listed = Command::new("dpkg").args(["-L", "librust-slab-dev"]).output().ok()?;
    let listed = String::from_utf8(listed.stdout).ok()?;
    let is_slab = |line: &&str| line.rsplit('/').next().is_some_and(|name| name.starts_with("slab-0.4"));
    listed.lines().find(is_slab).map(PathBuf::from)
}
