//! The proved library and the crate's own Rust, given the same: every number, count, place, state, record, word and byte is compared.
mod boxes;
mod extents;
mod input;
mod kept_box;
mod make;
mod port;
mod readings;
mod rows;
mod runs;
mod tally;

use input::{from_line, to_line, Input, Row, Tree};
use make::files::Feature;
use make::pick::Pick;
use std::path::{Path, PathBuf};
use std::process::ExitCode;
use std::time::{Duration, Instant};
use tally::Tally;

/// One run is to compare at least so many rows, readings and property lists.
const LEAST: u64 = 1_000_000;
const MOST_SHOWN: usize = 20;

struct Options {
    seed: u64,
    minutes: f64,
    kept: PathBuf,
    files: PathBuf,
}

fn options() -> Option<Options> {
    let mut options = Options { seed: 0, minutes: 3.0, kept: PathBuf::new(), files: PathBuf::new() };
    options.seed = std::time::UNIX_EPOCH.elapsed().ok()?.as_secs();
    let mut words = std::env::args().skip(1);
    while let Some(word) = words.next() {
        let value = words.next()?;
        match word.as_str() {
            "--seed" => options.seed = value.parse().ok()?,
            "--minutes" => options.minutes = value.parse().ok()?,
            "--kept" => options.kept = value.into(),
            "--files" => options.files = value.into(),
            _ => return None,
        }
    }
    Some(options)
}

struct Run {
    tally: Tally,
    kept: PathBuf,
    differences: usize,
}

impl Run {
    fn compare(&mut self, input: &Input) {
        let difference = match input {
            Input::Row(row) => self.compare_row(row),
            Input::Tree(tree) => readings::compare_tree(tree, &mut self.tally),
            Input::Properties(list) => readings::compare_properties(list, &mut self.tally),
        };
        if let Err(words) = difference {
            self.differ(input, &words);
        }
    }

    fn compare_row(&mut self, row: &Row) -> Result<(), String> {
        let finished = rows::compare(row, &mut self.tally)?;
        runs::compare(row, &mut self.tally)?;
        for (i, feature) in finished.into_iter().enumerate() {
            readings::compare_kept_box(&feature, &mut self.tally)?;
            let tree = Tree { store: feature.tree, declared: row.declared, flags: 0, feature: feature.number, cut: i as u32 };
            readings::compare_tree(&tree, &mut self.tally)?;
        }
        Ok(())
    }

    fn differ(&mut self, input: &Input, words: &str) {
        self.differences += 1;
        if self.differences > MOST_SHOWN {
            return;
        }
        let line = to_line(input);
        println!("DIFFERENCE: {words}");
        // By its content, so that an input is kept once.
        let sum = line.bytes().fold(0xCBF2_9CE4_8422_2325u64, |sum, byte| (sum ^ u64::from(byte)).wrapping_mul(0x100_0000_01B3));
        let path = self.kept.join(format!("{sum:016x}.input"));
        println!("  kept in {}", path.display());
        std::fs::write(&path, line + "\n").expect("the folder of kept inputs can be written");
    }

    fn compare_extents(&mut self, folder: &Path, features: &[Feature]) {
        if let Err(words) = extents::compare(folder, features, &mut self.tally) {
            self.differences += 1;
            println!("DIFFERENCE: {words}");
        }
    }

    fn replay(&mut self, folder: &Path) -> usize {
        let mut replayed = 0;
        for entry in std::fs::read_dir(folder).into_iter().flatten().flatten() {
            if entry.path().extension().is_some_and(|extension| extension == "input") {
                let line = std::fs::read_to_string(entry.path()).expect("a kept input can be read");
                let input = from_line(&line).unwrap_or_else(|| panic!("{} is no input", entry.path().display()));
                self.compare(&input);
                replayed += 1;
            }
        }
        replayed
    }

    fn random(&mut self, pick: &mut Pick) {
        let input = match pick.below(4) {
            0 | 1 => Input::Row(make::rows::row(pick)),
            2 => Input::Tree(make::trees::tree(pick)),
            _ => Input::Properties(make::lists::properties(pick)),
        };
        self.compare(&input);
    }
}

fn main() -> ExitCode {
    let Some(options) = options() else {
        eprintln!("compare [--seed N] [--minutes M] --kept FOLDER --files FOLDER");
        return ExitCode::from(2);
    };
    original::answer::keep_panics();
    let began = Instant::now();
    let mut run = Run { tally: Tally::default(), kept: options.kept.clone(), differences: 0 };
    let replayed = run.replay(&options.kept);
    println!("seed {}; kept inputs replayed {replayed}", options.seed);
    make::odd::each(&mut |input| run.compare(&input));
    make::numbers::each(&mut |input| run.compare(&input));
    make::limits::each(&mut |input| run.compare(&input));
    println!("at the limits: done after {:.0?}", began.elapsed());
    make::shared::each(&mut |input| run.compare(&input));
    println!("shared parts: {} boxes after {:.0?}", run.tally.boxes, began.elapsed());
    match make::files::features(&options.files) {
        Ok(features) => {
            features.iter().for_each(|feature| feature.each(&mut |input| run.compare(&input)));
            run.compare_extents(&options.files, &features);
            println!("GDAL's files: {} features, done after {:.0?}", features.len(), began.elapsed());
        }
        Err(words) => println!("GDAL's files: {words}"),
    }
    make::exhaustive::each(&mut |input| run.compare(&input));
    println!("all short ones: {} compared after {:.0?}", run.tally.compared(), began.elapsed());
    make::texts::each(&mut |input| run.compare(&input));
    println!("texts: {} compared after {:.0?}", run.tally.compared(), began.elapsed());
    let mut pick = Pick(options.seed);
    let until = Duration::from_secs_f64(60.0 * options.minutes);
    let mut inputs = 0u64;
    while run.tally.compared() < LEAST || began.elapsed() < until {
        (0..1000).for_each(|_| run.random(&mut pick));
        inputs += 1000;
    }
    println!("random: {inputs} inputs from the seed, done after {:.0?}", began.elapsed());
    print!("{}", run.tally);
    let missing = run.tally.missing();
    println!("not covered: {}", if missing.is_empty() { "nothing".into() } else { missing.join(", ") });
    println!("{} compared, {} differences", run.tally.compared(), run.differences);
    if run.differences == 0 && missing.is_empty() {
        ExitCode::SUCCESS
    } else {
        ExitCode::FAILURE
    }
}
