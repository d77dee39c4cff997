//! The named points (src/met.rs) and the numbers of the tables.
use crate::limits::{MESSAGES, STORE, STORE_BODY, STORE_ENTRY};
use crate::met::{self, Counting, POINTS, Where};
use crate::tables;

#[test]
fn no_two_points_have_one_name() {
    for (at, point) in POINTS.iter().enumerate() {
        assert_eq!(met::number(point.0), at, "{}", point.0);
    }
}

#[test]
fn a_run_that_meets_nothing_misses_all_points_but_those_that_cannot_be_met() {
    let needed = |place: Where| match place {
        Where::Inside | Where::Anywhere | Where::Outside => true,
        Where::Rust => cfg!(oracle),
        Where::Never(_) => false,
    };
    let missed = met::faults(&[[0; 2]; POINTS.len()]).len();
    assert_eq!(missed, POINTS.iter().filter(|point| needed(point.1)).count());
}

/// The faults of a run that met every point where it must, but one of them as often as this.
fn faults_of(name: &str, met: [u64; 2]) -> Vec<String> {
    let mut counts = [[1, 1]; POINTS.len()];
    for (count, point) in counts.iter_mut().zip(POINTS) {
        match point.1 {
            Where::Outside => *count = [0, 1],
            Where::Never(_) => *count = [0, 0],
            _ => {}
        }
    }
    counts[met::number(name)] = met;
    met::faults(&counts)
}

#[test]
fn a_point_outside_the_domain_must_not_be_met_inside_it() {
    let name = "line: done in another spelling, skipped";
    let (inside, unmet) = (format!("met inside the domain: {name}"), format!("never met outside the domain: {name}"));
    assert_eq!(faults_of(name, [0, 1]), [""; 0]);
    assert_eq!(faults_of(name, [1, 1]), [inside.as_str()]);
    assert_eq!(faults_of(name, [1, 0]), [inside]);
    assert_eq!(faults_of(name, [0, 0]), [unmet]);
}

#[test]
fn the_points_of_other_spellings_and_of_attempts_lie_outside_the_domain() {
    let outside: Vec<&str> = POINTS.iter().filter(|point| point.1 == Where::Outside).map(|point| point.0).collect();
    let (spellings, attempts): (Vec<&str>, Vec<&str>) =
        outside.into_iter().partition(|name| name.contains("in another spelling, skipped"));
    assert_eq!((spellings.len(), attempts.len()), (4, 8));
    assert!(attempts.iter().all(|name| name.contains("a retry") || name.contains("its attempts")));
}

#[test]
fn points_are_counted_inside_the_domain_and_outside_it() {
    let line = met::number("line: skipped");
    met::take();
    crate::met!("line: skipped");
    met::counting(Counting::Inside);
    crate::met!("line: skipped");
    met::counting(Counting::Outside);
    crate::met!("line: skipped");
    crate::met!("line: skipped");
    met::counting(Counting::Off);
    assert_eq!(met::take()[line], [1, 2]);
    assert_eq!(met::take()[line], [0, 0]);
}

#[test]
fn the_store_holds_every_message_and_the_tables_their_rows() {
    assert_eq!(STORE, MESSAGES * STORE_ENTRY);
    assert_eq!(STORE_BODY + 128, STORE_ENTRY);
    let rows = 256 * 32 + 8 * 296 + 262 * 32 + 256 * 56 + 34 * 65 + 128 * 96;
    assert_eq!(tables::LENGTH, rows);
}
