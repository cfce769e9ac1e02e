//! The table of outside values: ../tools/library_rows.txt says at its head where they come from.
use std::collections::HashMap;
use std::fs;
use tinkey::Form;

/// A row: the call and what is said of it, the keyset, and the fields behind.
pub struct Row {
    pub words: Vec<String>,
    pub keyset: Vec<u8>,
    pub fields: HashMap<String, String>,
}

fn unhex(text: &str) -> Vec<u8> {
    let digits = text.trim_matches('-');
    (0..digits.len()).step_by(2).map(|at| u8::from_str_radix(&digits[at..at + 2], 16).unwrap()).collect()
}

impl Row {
    pub fn bytes(&self, name: &str) -> Vec<u8> {
        unhex(self.fields.get(name).map_or("-", |it| it))
    }

    pub fn fails(&self) -> bool {
        self.words.last().unwrap() == "fails"
    }
}

/// The rows of these calls, with wrapped keysets or without them.
pub fn rows(calls: &[&str], wrapped: bool) -> Vec<Row> {
    let text = fs::read_to_string(concat!(env!("CARGO_MANIFEST_DIR"), "/../tools/library_rows.txt")).unwrap();
    let found: Vec<Row> = text
        .lines()
        .map(|line| line.split('|').map(str::trim).collect::<Vec<_>>())
        .filter(|parts| calls.iter().any(|it| parts[0].split(' ').next() == Some(it)))
        .map(|parts| Row {
            words: parts[0].split(' ').map(str::to_string).collect(),
            keyset: unhex(parts[1]),
            fields: parts[2..]
                .iter()
                .filter_map(|it| it.split_once(' '))
                .map(|(name, value)| (name.to_string(), value.to_string()))
                .collect(),
        })
        .filter(|row| row.words.iter().any(|it| it == "wrapped") == wrapped)
        .collect();
    assert!(!found.is_empty(), "no rows of {calls:?}");
    found
}

pub fn form(word: &str) -> Form {
    if word == "json" {
        Form::Json
    } else {
        Form::Binary
    }
}
