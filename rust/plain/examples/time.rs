//! Times the plain version on the books of a folder: a line a time, as bench/peers.cpp prints them.

use std::fs;
use std::path::{Path, PathBuf};
use std::time::Instant;

/// The median time of a call in microseconds, over 5 to 101 repeats.
fn median(mut call: impl FnMut()) -> f64 {
    let mut times = Vec::new();
    while times.len() < 5 || (times.len() < 101 && times.iter().sum::<f64>() < 1e5) {
        let before = Instant::now();
        call();
        times.push(before.elapsed().as_secs_f64() * 1e6);
    }
    times.sort_by(f64::total_cmp);
    times[times.len() / 2]
}

fn books(folder: &Path) -> Vec<PathBuf> {
    let entries = fs::read_dir(folder).expect("a folder of books");
    let mut paths: Vec<PathBuf> = entries
        .map(|entry| entry.expect("an entry").path())
        .filter(|path| path.extension().is_some_and(|word| word == "book"))
        .collect();
    paths.sort();
    paths
}

fn gate(path: &Path) -> (u32, f64, f64) {
    let text = fs::read_to_string(path.with_extension("gate")).expect("a gate");
    let words: Vec<&str> = text.split_whitespace().collect();
    let number = |i: usize| words[i].parse().expect("a number");
    (words[0].parse().expect("a kind"), number(1), number(2))
}

fn say(kind: &str, path: &Path, time: f64) {
    let name = path.file_stem().expect("a name").to_string_lossy();
    println!("{kind}\t{name}\tplain\t{time:.2}");
}

fn main() {
    let folder = PathBuf::from(std::env::args().nth(1).expect("a folder"));
    let (mut near, mut far, mut flow) = ([0; 32], [0; 32], [0; 2048]);
    for path in books(&folder.join("split")) {
        let book = fs::read(&path).expect("a book");
        let time = median(|| {
            plain::split(&book, &mut near, &mut far, &mut flow).expect("a good book");
        });
        say("split", &path, time);
    }
    let (mut side, mut rows) = ([0; 32], [0; 12 * 257]);
    for path in books(&folder.join("walk")) {
        let (book, gate) = (fs::read(&path).expect("a book"), gate(&path));
        let time = median(|| {
            plain::walk(&book, gate, &mut side, &mut rows).expect("a good book");
        });
        say("walk", &path, time);
    }
}
