//! The samples give the lines they promise, and the folder holds just what the generator writes. The program's stored run is the
//! worked file.

use oracle::judge::with_deep_stack;
use oracle::program::program;
use oracle::samples::{all, expected, readme};
use std::path::PathBuf;

#[test]
fn every_sample_gives_its_line() {
    with_deep_stack(|| {
        for sample in all() {
            assert_eq!(program(&sample.bytes).to_string(), sample.line, "{}", sample.name);
        }
    });
}

#[test]
fn the_folder_is_up_to_date() {
    let folder = PathBuf::from(env!("CARGO_MANIFEST_DIR")).join("../samples");
    for sample in all() {
        assert_eq!(std::fs::read(folder.join(sample.name)).unwrap(), sample.bytes, "{}", sample.name);
    }
    assert_eq!(std::fs::read_to_string(folder.join("expected.txt")).unwrap(), expected());
    assert_eq!(std::fs::read_to_string(folder.join("README.md")).unwrap(), readme());
    let files = std::fs::read_dir(folder).unwrap().count();
    assert_eq!(files, all().len() + 2, "a file that the generator does not write");
}

#[test]
fn the_stored_run_is_the_worked_file() {
    let folder = PathBuf::from(env!("CARGO_MANIFEST_DIR")).join("../crates/milltempo");
    let worked = all().into_iter().find(|sample| sample.name == "worked.flow").unwrap();
    assert_eq!(std::fs::read(folder.join("stdin")).unwrap(), worked.bytes);
    assert_eq!(std::fs::read_to_string(folder.join("stdout")).unwrap(), format!("{}\n", worked.line));
}
