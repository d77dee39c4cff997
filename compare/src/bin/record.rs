//! record: makes the list of recorded answers anew, and writes it where it stands, crates/rows/stdin.
#[cfg(oracle)]
fn main() {
    let scratch = compare::scratch::Scratch::in_memory("record");
    let list = compare::recorded::list::list(&scratch.file("log.wal"));
    std::fs::write(compare::recorded::FILE, &list).expect("crates/rows/stdin can be written");
    println!("{} bytes in crates/rows/stdin", list.len());
}

#[cfg(not(oracle))]
fn main() {
    eprintln!("the Rust is not at hand (FELDWYGOR_RUST_SRC names its folder): nothing is recorded");
    std::process::exit(1);
}
