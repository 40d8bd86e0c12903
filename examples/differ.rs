//! Prints the names of the capabilities in which two entries differ: differ ENTRY-FILE ENTRY-FILE

use std::collections::BTreeMap;
use std::error::Error;
use std::{env, fs};
use ti_terminfo::Entry;

/// What an entry has, by its names, each value as it is printed.
fn values(entry: &Entry<'_>) -> BTreeMap<String, String> {
    entry.items().filter(|(_, item)| item.is_there()).map(|(name, item)| (name.to_string(), format!("{item:?}"))).collect()
}

fn main() -> Result<(), Box<dyn Error>> {
    let words: Vec<String> = env::args().skip(1).collect();
    let [one, other] = words.as_slice() else {
        return Err("call it as: differ ENTRY-FILE ENTRY-FILE".into());
    };
    let (one, other) = (fs::read(one)?, fs::read(other)?);
    let (one, other) = (values(&Entry::read(&one)?), values(&Entry::read(&other)?));
    for name in one.keys().chain(other.keys().filter(|name| !one.contains_key(*name))) {
        if one.get(name) != other.get(name) {
            println!("{name}");
        }
    }
    Ok(())
}
