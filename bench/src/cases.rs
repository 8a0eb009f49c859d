//! The cases of `cases/`: tables as `.rec` files, with family and expected answer from `manifest.tsv`.

use crate::terms::{bytes_of, parse};
use std::fs;
use std::path::Path;

pub struct Case {
    pub name: String,
    pub family: String,
    pub pattern: Vec<u8>,
    pub recipe: Vec<u8>,
    /// What list answers with full tables: a number of lines, or minus a refusal number.
    pub expected: i64,
}

impl Case {
    /// A case that isn't in a file, written in document 01's notation.
    pub fn written(name: &str, pattern: &str, recipe: &str, expected: i64) -> Case {
        Case { name: name.to_string(), family: String::new(), pattern: bytes_of(&parse(pattern)), recipe: bytes_of(&parse(recipe)), expected }
    }
}

/// All cases in the order of the manifest. Stops with a message if a file is missing or is not what the manifest says.
pub fn load(folder: &Path) -> Vec<Case> {
    let manifest = fs::read_to_string(folder.join("manifest.tsv")).expect("cases/manifest.tsv");
    manifest.lines().skip(1).map(|row| read_case(folder, row)).collect()
}

fn read_case(folder: &Path, row: &str) -> Case {
    let fields: Vec<&str> = row.split('\t').collect();
    let [name, family, pattern_text, recipe_text, answer] = fields[..] else {
        panic!("a manifest row has five fields: {row}");
    };
    let pattern = fs::read(folder.join(format!("{name}.pattern.rec"))).expect(name);
    let recipe = fs::read(folder.join(format!("{name}.recipe.rec"))).expect(name);
    assert!(pattern == bytes_of(&parse(pattern_text)), "{name}: the pattern's file differs from the manifest");
    assert!(recipe == bytes_of(&parse(recipe_text)), "{name}: the recipe's file differs from the manifest");
    Case { name: name.to_string(), family: family.to_string(), pattern, recipe, expected: read_answer(answer) }
}

/// `matches N` is N, `refused N` is minus N.
fn read_answer(answer: &str) -> i64 {
    let (word, figure) = answer.split_once(' ').expect("a word and a figure");
    let figure: i64 = figure.trim().parse().expect("a figure");
    if word == "refused" {
        -figure
    } else {
        figure
    }
}
