//! Records the original's answers for the program `replay`: `record FOLDER` writes its data files to FOLDER. crates/replay/README.md tells what each has.
mod compass_cases;
mod compasses;
mod leaves;
mod limit;
mod list;
mod lists;
mod null;
mod starts;

use list::{List, Tally};
use std::{env, fs, path::Path};

fn write(folder: &Path, name: &str, bytes: &[u8]) {
    fs::write(folder.join(name), bytes).expect("the folder takes the file");
}

fn write_list(folder: &Path, list: &List) {
    write(folder, &format!("{}.sheet", list.name), &list.sheet());
    write(folder, &format!("{}.answers", list.name), &list.answers);
}

/// The answers of a list with one bit changed in the last of them.
fn damaged(answers: &[u8]) -> Vec<u8> {
    let mut bytes = answers.to_vec();
    *bytes.last_mut().expect("an answer") ^= 1;
    bytes
}

/// Sheets of 0 and of 257 entries, else in the layout.
fn write_counts(folder: &Path) {
    let states = vec![(original::kinds::STATE, Vec::new()); 256];
    for (name, bytes) in [("count0", vec![0; 4]), ("count257", inputs::sheet(&[0.0; original::places::FILTER], &states))] {
        assert_eq!(original::run_sheet(&bytes), original::REFUSED_SHEET);
        write(folder, &format!("{name}.sheet"), &bytes);
    }
}

fn main() {
    let folder = env::args().nth(1).expect("record FOLDER");
    let folder = Path::new(&folder);
    let mut all = Tally::default();
    for list in lists::all().iter().chain(&limit::all()).chain([&null::list()]) {
        write_list(folder, list);
        list.tally.print(list.name);
        all.add(&list.tally);
        if list.name == "blank" {
            write(folder, "blank_changed.answers", &damaged(&list.answers));
        }
    }
    all.print("all sheets");
    all.expect_each_refusal();
    write(folder, "starts.bin", &starts::all());
    write(folder, "compasses.bin", &compasses::all());
    for (name, bytes) in leaves::all() {
        write(folder, &format!("{name}.bin"), &bytes);
    }
    write_counts(folder);
}
