//! What the program `mvt` says of tiles. The environment names the files of cases (MVT_CASES), with ':' between them, which
//! `fixtures/tiles/cases.py` makes and explains.

use std::collections::HashMap;
use std::{env, fs, str};

pub struct Case {
    pub name: String,
    pub tile: Vec<u8>,
    said: HashMap<String, String>,
}

impl Case {
    /// The case of these lines, each a key and a text.
    fn new(lines: &str) -> Case {
        let mut said = HashMap::<String, String>::new();
        for line in lines.trim_end_matches('\n').split('\n') {
            let (key, text) = line.split_once(' ').unwrap();
            *said.entry(key.into()).or_default() += &format!("{text}\n");
        }
        let zeros = said.get("zeros").map_or("0", |count| count.trim_end());
        let mut tile = bytes_of(&said["tile"]);
        tile.resize(tile.len() + zeros.parse::<usize>().unwrap(), 0);
        let name = said["case"].trim_end().into();
        Case { name, tile, said }
    }

    /// What is said by a key, with a line feed behind each line; nothing where the case hasn't the key.
    pub fn said(&self, key: &str) -> &str {
        self.said.get(key).map_or("", String::as_str)
    }

    pub fn has(&self, key: &str) -> bool {
        self.said.contains_key(key)
    }

    pub fn bytes(&self, key: &str) -> Vec<u8> {
        bytes_of(self.said(key))
    }

    /// The names of layers, each with what is extracted.
    pub fn layers(&self) -> impl Iterator<Item = (&str, Vec<u8>)> {
        let lines = self.said("extract").lines();
        lines
            .map(|line| line.split_once(' ').unwrap())
            .map(|(name, digits)| (name, bytes_of(digits)))
    }
}

/// The bytes of hexadecimal digits.
fn bytes_of(digits: &str) -> Vec<u8> {
    let pairs = digits.trim_end().as_bytes().chunks(2);
    pairs
        .map(|pair| u8::from_str_radix(str::from_utf8(pair).unwrap(), 16).unwrap())
        .collect()
}

pub fn cases() -> Vec<Case> {
    let paths = env::var("MVT_CASES").expect("MVT_CASES names the files of cases");
    let texts = paths
        .split(':')
        .map(|path| fs::read_to_string(path).unwrap());
    texts
        .flat_map(|text| text.split("\n\n").map(Case::new).collect::<Vec<_>>())
        .collect()
}
