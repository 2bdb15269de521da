//! What the updates of `bench/run` cost in plain Rust: a program that prints the same for those scripts, and does of
//! each line no more than it must. It reads the line, looks the row up in a `BTreeMap` by its key, puts a new version
//! after the others, and copies the row before and after for whoever would follow the table. It knows one session,
//! no transaction block, no lock, no wait, no snapshot but that all before has committed, and no refusal: a line that
//! it doesn't know ends it.
//!
//!     rustc --edition 2021 -O -o /tmp/baseline bench/baseline.rs
//!     bench/run updates_1000 updates_100000 --program /tmp/baseline

use std::collections::{BTreeMap, HashMap};
use std::hint::black_box;
use std::io::{self, BufRead, BufReader, BufWriter, Write};
use std::mem;

#[derive(Clone, PartialEq, Eq, PartialOrd, Ord)]
enum Val {
    Int(i64),
    Text(Box<str>),
}

#[derive(PartialEq, Eq, PartialOrd, Ord)]
enum Key {
    One(Val),
    Listed(Vec<Val>),
}

type Row = Vec<Val>;

struct Version {
    txid: u64,
    row: Row,
}

struct Column {
    name: String,
    key: bool,
}

struct Table {
    columns: Vec<Column>,
    rows: BTreeMap<Key, Vec<Version>>,
}

struct Effect {
    _old: Row,
    _new: Row,
}

fn value(word: &str) -> Val {
    match word.strip_prefix('\'') {
        Some(text) => Val::Text(text.trim_end_matches('\'').into()),
        None => Val::Int(word.parse().expect("a number")),
    }
}

fn key(mut values: Vec<Val>) -> Key {
    match values.len() {
        1 => Key::One(values.remove(0)),
        _ => Key::Listed(values),
    }
}

impl Table {
    /// Puts a row that is new.
    fn insert(&mut self, txid: u64, row: Row) {
        let parts = self.columns.iter().zip(&row);
        let values = parts.filter(|(column, _)| column.key).map(|(_, value)| value.clone());
        let versions = self.rows.entry(key(values.collect())).or_default();
        versions.push(Version { txid, row });
    }

    /// Adds to columns of the row at the key.
    fn update(&mut self, txid: u64, key: &Key, sets: &[(String, i64)]) -> Effect {
        let versions = self.rows.get_mut(key).expect("a row");
        let newest = versions.iter().rev().find(|version| version.txid < txid);
        let old = newest.expect("a version").row.clone();
        let mut new = old.clone();
        for (name, more) in sets {
            let place = self.columns.iter().position(|column| column.name == *name);
            if let Val::Int(number) = &mut new[place.expect("a column")] {
                *number += more;
            }
        }
        versions.push(Version { txid, row: new.clone() });
        Effect { _old: old, _new: new }
    }
}

fn columns<'a>(words: impl Iterator<Item = &'a str>) -> Vec<Column> {
    words
        .map(|word| Column {
            name: word.split(':').next().unwrap_or_default().to_string(),
            key: word.ends_with(":key"),
        })
        .collect()
}

fn main() -> io::Result<()> {
    let mut input = BufReader::with_capacity(1 << 16, io::stdin().lock());
    let mut output = BufWriter::with_capacity(1 << 16, io::stdout().lock());
    let mut tables: HashMap<String, Table> = HashMap::new();
    let mut txid = 3;
    let mut line = String::new();
    while input.read_line(&mut line)? > 0 {
        let (session, statement) = line.trim_end().split_once(": ").expect("a session");
        let mut words = statement.split(' ');
        let answer = match words.next().unwrap_or_default() {
            "open" => "ok",
            "create" => {
                let name = words.nth(1).expect("a table").to_string();
                let (columns, rows) = (columns(words), BTreeMap::new());
                tables.insert(name, Table { columns, rows });
                "ok"
            }
            "insert" => {
                let table = tables.get_mut(words.next().expect("a table"));
                table.expect("a table").insert(txid, words.map(value).collect());
                txid += 1;
                "1"
            }
            "update" => {
                let table = tables.get_mut(words.next().expect("a table"));
                let key = key(words.by_ref().take_while(|word| *word != "set").map(value).collect());
                let sets: Vec<(String, i64)> = words
                    .map(|set| set.split_once("+=").expect("a change"))
                    .map(|(name, more)| (name.to_string(), more.parse().expect("a number")))
                    .collect();
                black_box(table.expect("a table").update(txid, &key, &sets));
                txid += 1;
                "1"
            }
            _ => panic!("not a line of this program: {statement}"),
        };
        writeln!(output, "{session}: {answer}")?;
        line.clear();
    }
    output.flush()?;
    // As in pgqrun, all memory is freed when the program ends.
    mem::forget(tables);
    Ok(())
}
