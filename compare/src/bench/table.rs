//! The results as tables of Markdown.

/// One list: what is counted in it, and the times of it all together, in nanoseconds.
pub struct Row {
    pub what: String,
    pub counted: usize,
    pub port: f64,
    /// The Rust may not be at hand, or may not have the call.
    pub rust: Option<f64>,
    pub writes: f64,
    pub driven: Option<Driven>,
}

/// The port's times call by call, with its orders carried out on a file, and without.
#[derive(Clone, Copy)]
pub struct Driven {
    pub writing: f64,
    pub idle: f64,
}

/// One opening.
pub struct Opened {
    pub what: String,
    pub port: f64,
    pub rust: Option<f64>,
}

pub fn lists(rows: &[Row]) {
    println!("| ns a call | port | Rust | port ÷ Rust | of the Rust's, writes | port, a second | Rust, a second |");
    println!("|---|---:|---:|---:|---:|---:|---:|");
    for Row { what, counted, port, rust, writes, .. } in rows {
        let each = |all: f64| all / *counted as f64;
        let rate = |all: f64| thousands((1e9 / each(all)) as u64);
        let (of_rust, ratio, writes, rust_rate) = match rust {
            Some(rust) => {
                let ratio = format!("{:.2}", port / rust);
                (format!("{:.0}", each(*rust)), ratio, format!("{:.0}", each(*writes)), rate(*rust))
            }
            None => ["–"; 4].map(String::from).into(),
        };
        println!("| {what} | {:.0} | {of_rust} | {ratio} | {writes} | {} | {rust_rate} |", each(*port), rate(*port));
    }
}

/// The port call by call beside the Rust: with the same writes on both sides, and without any.
pub fn driven(rows: &[Row]) {
    println!("| ns a call | port, writing | Rust | port ÷ Rust | port, no writes | Rust, less writes | port ÷ Rust |");
    println!("|---|---:|---:|---:|---:|---:|---:|");
    for Row { what, counted, rust, writes, driven, .. } in rows {
        let Some(driven) = driven else { continue };
        let each = |all: f64| format!("{:.0}", all / *counted as f64);
        let beside = |port: f64, rust: Option<f64>| match rust {
            Some(rust) => format!("{} | {} | {:.2}", each(port), each(rust), port / rust),
            None => format!("{} | – | –", each(port)),
        };
        let less = rust.map(|rust| rust - writes);
        println!("| {what} | {} | {} |", beside(driven.writing, *rust), beside(driven.idle, less));
    }
}

pub fn openings(rows: &[Opened]) {
    println!("| | port, µs | Rust, µs | port ÷ Rust |");
    println!("|---|---:|---:|---:|");
    for Opened { what, port, rust } in rows {
        let (rust, ratio) = match rust {
            Some(rust) => (format!("{:.3}", rust / 1_000.0), format!("{:.2}", port / rust)),
            None => ("–".into(), "–".into()),
        };
        println!("| {what} | {:.3} | {rust} | {ratio} |", port / 1_000.0);
    }
}

fn thousands(number: u64) -> String {
    let digits = number.to_string();
    let mut text = String::new();
    for (at, digit) in digits.chars().enumerate() {
        if at > 0 && (digits.len() - at).is_multiple_of(3) {
            text.push(',');
        }
        text.push(digit);
    }
    text
}
