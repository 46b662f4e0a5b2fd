//! The stored desk runs: the streams are those that their generator writes, and the lines those of
//! this implementation.

use std::path::PathBuf;
use std::process::Command;

use reference::counts::PostCounts;
use reference::desk::run_desk;
use reference::profiled::{Meeting, FORMS, GROUNDS};

/// The streams that `vectors` writes, with its arguments.
const WRITTEN: [(&str, &[&str]); 7] = [
    ("phase_in", &[]),
    ("zero_rates", &["zero_rates"]),
    ("dropped", &["dropped"]),
    ("adjustment", &["adjustment"]),
    ("withdrawal", &["withdrawal"]),
    ("slack", &["slack"]),
    ("markets", &["markets"]),
];

fn stored(name: &str) -> Vec<u8> {
    let folder = PathBuf::from(env!("CARGO_MANIFEST_DIR")).join("../tests/desk");
    std::fs::read(folder.join(name)).unwrap_or_else(|error| panic!("{name}: {error}"))
}

#[test]
fn streams_are_those_of_their_generator() {
    for (name, arguments) in WRITTEN {
        let vectors = Command::new(env!("CARGO_BIN_EXE_vectors"))
            .args(arguments)
            .output();
        let written = vectors.expect("the generator runs").stdout;
        assert!(written == stored(&format!("{name}.stdin")), "{name}");
    }
}

#[test]
fn lines_are_those_of_the_desk() {
    let others = ["day", "figures", "cut", "cut_sheet", "empty"];
    for name in WRITTEN.map(|(name, _)| name).into_iter().chain(others) {
        let mut lines = Vec::new();
        run_desk(&stored(&format!("{name}.stdin"))[..], &mut lines).unwrap();
        let expected = stored(&format!("{name}.stdout"));
        let (found, expected) = (text(&lines), text(&expected));
        for (number, (found, expected)) in (1..).zip(found.lines().zip(expected.lines())) {
            assert_eq!(found, expected, "{name}, line {number}");
        }
        assert_eq!(found.len(), expected.len(), "{name}");
    }
}

fn text(lines: &[u8]) -> &str {
    std::str::from_utf8(lines).expect("lines of text")
}

#[test]
fn the_stream_of_adjustments_meets_every_tail_and_every_refusal_of_one() {
    let mut counts = PostCounts::default();
    counts.count_journal(&stored("adjustment.stdin"));
    println!("{}", counts.adjusted);
    counts.adjusted.check().unwrap();
}

#[test]
fn the_stream_of_slack_meets_all_that_slack_would_change() {
    let mut counts = PostCounts::default();
    counts.count_journal(&stored("slack.stdin"));
    println!("{}", counts.known);
    counts.known.check().unwrap();
}

#[test]
fn the_stream_of_markets_meets_every_profile_and_every_refusal_of_one() {
    let stream = stored("markets.stdin");
    let mut counts = PostCounts::default();
    counts.count_journal(&stream);
    println!("{}", counts.markets);
    for form in FORMS {
        assert!(counts.markets.of_form(form).accepted > 0, "{form:?}");
    }
    for due in GROUNDS {
        assert!(counts.markets.refused(due) > 0, "{due}");
    }
    for meeting in Meeting::ALL {
        assert!(counts.markets.of(meeting) > 0, "{meeting}");
    }
}
