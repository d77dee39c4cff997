//! The files that the generators make, and those that are timed: ids in other spellings, and lines of two ids, stand
//! in those outside the domain of equality alone (docs/RULES.md, section 10).
use super::{opened, settings};
use crate::bench::logs;
use crate::generate::case::opens_inside;
use crate::generate::files;
use crate::model::log::{image, no_retry, one_spelling, readable};
use crate::property;
use crate::rng::Rng;

/// Files of a generator, so many.
fn made(count: u64, file: impl Fn(&mut Rng) -> Vec<u8>) -> Vec<Vec<u8>> {
    (0..count).map(|number| file(&mut Rng::new(number))).collect()
}

#[test]
fn files_inside_the_domain_have_no_other_spelling_and_no_attempts() {
    let settings = settings(1, 64);
    let files = made(5_000, |rng| files::file(rng, &settings));
    for file in &files {
        assert!(one_spelling(file) && no_retry(file), "{}", file.escape_ascii());
    }
    // Before two or four fields they stand now and then.
    assert!(files.iter().any(|file| file.starts_with(b"+1\t")));
}

#[test]
fn other_files_often_have_other_spellings() {
    let settings = settings(1, 64);
    let often = |files: &[Vec<u8>]| files.iter().filter(|file| !one_spelling(file)).count() * 4 > files.len();
    assert!(often(&made(1_000, |rng| files::any(rng, &settings))));
    assert!(often(&made(1_000, |rng| property::files::any(rng, 10, &[b"row".to_vec()]))));
}

#[test]
fn other_files_often_have_attempts() {
    let settings = settings(1, 64);
    let with = |file: &Vec<u8>| readable(file).is_ok_and(|reading| reading.left.iter().any(|left| left.attempts > 0));
    let of_1_000 = |files: Vec<Vec<u8>>| files.iter().filter(|file| with(file)).count();
    assert!(of_1_000(made(1_000, |rng| files::any(rng, &settings))) > 50);
    assert!(of_1_000(made(1_000, |rng| files::retried(rng, &settings))) > 400);
    assert!(of_1_000(made(1_000, |rng| property::files::any(rng, 10, &[b"row".to_vec()]))) > 100);
}

#[test]
fn an_opening_leaves_a_file_of_open_records_as_it_is() {
    let settings = settings(1, 64);
    for file in made(1_000, |rng| files::open(rng, &settings)) {
        let reading = readable(&file).expect("a readable file");
        assert_eq!(image(&reading.left), file);
        assert!(!reading.left.is_empty());
    }
}

#[test]
fn an_opening_on_another_spelling_or_on_attempts_is_not_inside_the_domain() {
    let inside = |file: &[u8]| opens_inside(&opened(&settings(1, 64), 64, file).expect("an accepted opening"), file);
    for file in [&b"05\t\t\n"[..], b"+5\n", b"5\t\t\n05\n", b"5\t\t\n5\t2\n", b"5\t2\n", b"5\t256\n"] {
        assert!(!inside(file), "{}", file.escape_ascii());
    }
    // A line of two fields is skipped by both sides.
    for file in [&b"5\t\t\n"[..], b"05\trow\n"] {
        assert!(inside(file), "{}", file.escape_ascii());
    }
}

#[test]
fn files_that_are_timed_have_no_other_spelling_and_no_attempts() {
    for file in [logs::typical(), logs::full(), logs::shortest(), logs::most_ids(), logs::open(256)] {
        assert!(one_spelling(&file) && no_retry(&file));
    }
}
