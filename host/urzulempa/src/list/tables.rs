//! What can be named in a list, by the words that name it; shared by both ways, so that they agree on what is ambiguous.

use super::words::shown;
use super::{Table, FORBID, ORIGINS};
use std::collections::HashMap;

/// The records that can be named, table by table.
#[derive(Default)]
pub struct Named {
    keys: [Vec<Option<String>>; 7],
    by_key: [HashMap<String, Vec<usize>>; 7],
}

impl Named {
    /// Adds a record behind those of its table; without a key it is named by its label alone.
    pub fn add(&mut self, table: Table, key: Option<String>) {
        let keys = &mut self.keys[table.place()];
        if let Some(key) = &key {
            self.by_key[table.place()].entry(key.clone()).or_default().push(keys.len());
        }
        keys.push(key);
    }

    /// The words of a record.
    pub fn key(&self, table: Table, number: usize) -> Option<&str> {
        self.keys[table.place()].get(number)?.as_deref()
    }

    /// The numbers of the records that some words name.
    pub fn all(&self, table: Table, key: &str) -> &[usize] {
        self.by_key[table.place()].get(key).map_or(&[], Vec::as_slice)
    }

    /// The words that name a record and no other.
    pub fn only(&self, table: Table, number: usize) -> Option<&str> {
        self.key(table, number).filter(|key| self.all(table, key).len() == 1)
    }

    /// The words of a solvable or a version set of that name.
    pub fn of_name(&self, name: usize, text: &str) -> Option<String> {
        self.key(Table::Name, name).map(|name| format!("{name} {}", shown(text)))
    }

    /// The words of a variable.
    pub fn variable(&self, origin: u16, names: usize) -> Option<String> {
        match origin {
            1 => self.key(Table::Solvable, names).map(str::to_owned),
            2 => self.key(Table::Name, names).map(|name| format!("{FORBID} {name}")),
            _ => ORIGINS.iter().find(|(o, _)| *o == origin).map(|(_, word)| (*word).to_owned()),
        }
    }
}
