//! The flow files that are measured: what the generator writes, and the states that they are about.

use oracle::judge::{with_deep_stack, Effort, Lent};
use oracle::measured::{batches, files};
use oracle::next::{Beginning, Next};
use oracle::reader::read;
use std::path::PathBuf;

fn folder() -> PathBuf {
    PathBuf::from(env!("CARGO_MANIFEST_DIR")).join("../bench/flows")
}

/// If not, `oracle flows ../bench/flows` writes them again.
#[test]
fn the_files_are_up_to_date() {
    for (name, bytes) in files() {
        assert!(std::fs::read(folder().join(&name)).unwrap() == bytes, "{name}");
    }
}

#[test]
fn states_and_how_many_differ() {
    const MILLION: u32 = 1_000_000;
    let figures = [
        ("paraa", u32::MAX, 986_410, 512),
        ("choice", u32::MAX, 107_131, 454),
        ("yield", u32::MAX, 566_085, 233),
        ("undo", u32::MAX, 765, 24),
        ("lines", u32::MAX, 93_310, 42),
        ("seven", u32::MAX, 381, 381),
        ("pairs", u32::MAX, 245_680, 20_471),
        ("twelve", u32::MAX, 1_302_061_345, 4_096),
        ("bad11", u32::MAX, 108_505_112, 2_048),
        ("nestp", MILLION, MILLION, 2),
        ("c3s12", MILLION, MILLION, 2),
        // One search at each level.
        ("levels2", u32::MAX, 2_049, 2),
        ("levels4", u32::MAX, 2_049, 2),
        ("levels8", u32::MAX, 2_049, 2),
    ];
    with_deep_stack(move || {
        for (name, allowance, entered, different) in figures {
            let file = read(&std::fs::read(folder().join(format!("{name}.flow"))).unwrap()).unwrap();
            let (names, sets) = (file.names_section(), file.lent_sets());
            let lent = Lent::enough(Some(&names), &file.nodes, &file.records, allowance);
            let effort = Lent { sets: &sets, ..lent }.effort();
            assert_eq!(effort, Effort { entered, different }, "{name}");
        }
    });
}

/// The flows of the levels have as many nodes.
#[test]
fn levels_are_of_one_size() {
    for name in ["levels2", "levels4", "levels8"] {
        let file = read(&std::fs::read(folder().join(format!("{name}.flow"))).unwrap()).unwrap();
        assert_eq!(file.nodes.len(), 3 * 63, "{name}");
    }
}

/// A panel's calls after each record of a batch, all together: the states that they enter, how many of them differ, how many calls list
/// anything, and how many numbers.
#[test]
fn batches_of_a_panel() {
    let figures = [
        ("panel-route", false, [7_696, 7_696, 32, 32]),
        ("panel-lines", false, [41_250_024_751, 17_111, 31, 49]),
        ("panel-undone", false, [41_250_024_751, 17_111, 31, 47]),
        ("panel-machines", true, [41_250_024_751, 17_111, 31, 185]),
    ];
    assert!(batches().iter().map(|(name, _)| *name).eq(figures.map(|(name, ..)| name)));
    with_deep_stack(move || {
        for (name, named, figures) in figures {
            let file = read(&std::fs::read(folder().join(format!("{name}.flow"))).unwrap()).unwrap();
            let section = file.names_section();
            let mut seen = [0; 4];
            for length in 0..file.records.len() {
                let names = Some(&section[..]).filter(|_| named);
                let beginning = Beginning::enough(names, &file.nodes, &file.records[..length], u32::MAX);
                let Next::Listed { numbers, .. } = beginning.listed() else { panic!("{name} {length}") };
                let Effort { entered, different } = beginning.effort_within(usize::MAX).unwrap();
                seen[0] += entered as usize;
                seen[1] += different;
                seen[2] += !numbers.is_empty() as usize;
                seen[3] += numbers.len();
            }
            assert_eq!(seen, figures, "{name}");
        }
    });
}
