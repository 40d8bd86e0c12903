//! The same work done by the crate for Rust and by the crate `term`, for `bench/run`.
//!
//! ```text
//! rust_bench WORK ROUNDS TURNS GROUP < LIST
//! ```
//!
//! reads the list that crates/ti_bench reads, and prints `GROUP WORK ITEMS NANOSECONDS`, the time of all rounds. In each round
//! it does the work on each item of the group so many turns in a row. With the feature `term` it knows that crate's calls too.

use std::error::Error;
use std::hint::black_box;
use std::time::Instant;
use ti_terminfo::{Capability, Entry, Value, Vars, expand, expand_into};

/// The most bytes that a capability of the list may write.
const ROOM: usize = 4096;

/// A capability with nine numbers, or an entry.
struct Item {
    bytes: Vec<u8>,
    numbers: [i32; 9],
}

/// An item and, if it is one, its capability.
struct Ready<'a> {
    item: &'a Item,
    capability: Option<Capability<'a>>,
    parameters: [Value<'a>; 9],
}

fn bytes_of(hex: &str) -> Result<Vec<u8>, std::num::ParseIntError> {
    (0..hex.len() / 2).map(|i| u8::from_str_radix(&hex[2 * i..2 * i + 2], 16)).collect()
}

fn item_of(line: &str) -> Result<Item, Box<dyn Error>> {
    let mut words = line.split_whitespace().skip(2);
    let bytes = bytes_of(words.next().ok_or("no bytes")?)?;
    let mut numbers = [0; 9];
    for (number, word) in numbers.iter_mut().zip(words) {
        *number = word.parse()?;
    }
    Ok(Item { bytes, numbers })
}

fn ready(item: &Item) -> Ready<'_> {
    let capability = Capability::parse(&item.bytes).ok();
    Ready { item, capability, parameters: item.numbers.map(Value::Num) }
}

/// What a kind of work makes of an item once, as a number that depends on it.
type Work = fn(&Ready<'_>, &mut Vars, &mut [u8]) -> usize;

fn parse_once(ready: &Ready<'_>, _: &mut Vars, _: &mut [u8]) -> usize {
    Capability::parse(black_box(&ready.item.bytes)).map_or(0, |capability| capability.depth())
}

fn expand_into_once(ready: &Ready<'_>, vars: &mut Vars, out: &mut [u8]) -> usize {
    let capability = black_box(&ready.capability).as_ref();
    capability.map_or(0, |capability| expand_into(capability, &ready.parameters, vars, out).map_or(0, |run| run.written))
}

fn expand_once(ready: &Ready<'_>, vars: &mut Vars, _: &mut [u8]) -> usize {
    let capability = black_box(&ready.capability).as_ref();
    capability.map_or(0, |capability| expand(capability, &ready.parameters, vars).map_or(0, |out| out.len()))
}

fn read_once(ready: &Ready<'_>, _: &mut Vars, _: &mut [u8]) -> usize {
    Entry::read(black_box(&ready.item.bytes)).map_or(0, |entry| entry.names().len())
}

#[cfg(feature = "term")]
mod other {
    use super::{Ready, black_box};
    use term::terminfo::parm::{Param, Variables, expand};
    use term::terminfo::parser::compiled::parse;
    use ti_terminfo::Vars;

    pub fn expand_once(ready: &Ready<'_>, _: &mut Vars, _: &mut [u8]) -> usize {
        let parameters = ready.item.numbers.map(Param::Number);
        expand(black_box(&ready.item.bytes), &parameters, &mut Variables::new()).map_or(0, |out| out.len())
    }

    pub fn read_once(ready: &Ready<'_>, _: &mut Vars, _: &mut [u8]) -> usize {
        parse(&mut black_box(&ready.item.bytes[..]), false).map_or(0, |entry| entry.names.len())
    }
}

fn work_of(name: &str) -> Option<Work> {
    match name {
        "rust:parse" => Some(parse_once),
        "rust:expand_into" => Some(expand_into_once),
        "rust:expand" => Some(expand_once),
        "rust:read" => Some(read_once),
        #[cfg(feature = "term")]
        "term:expand" => Some(other::expand_once),
        #[cfg(feature = "term")]
        "term:read" => Some(other::read_once),
        _ => None,
    }
}

fn main() -> Result<(), Box<dyn Error>> {
    let words: Vec<String> = std::env::args().collect();
    let [_, name, rounds, turns, group] = &words[..] else {
        return Err("rust_bench WORK ROUNDS TURNS GROUP".into());
    };
    let (rounds, turns): (u32, u32) = (rounds.parse()?, turns.parse()?);
    let work = work_of(name).ok_or("no such work")?;
    let list = std::io::read_to_string(std::io::stdin())?;
    let lines = list.lines().filter(|line| line.split_whitespace().next() == Some(group));
    let items = lines.map(item_of).collect::<Result<Vec<Item>, _>>()?;
    let ready: Vec<Ready<'_>> = items.iter().map(ready).collect();
    let (mut vars, mut out, mut total) = (Vars::new(), [0; ROOM], 0usize);
    let start = Instant::now();
    for _ in 0..rounds {
        for item in &ready {
            for _ in 0..turns {
                total = total.wrapping_add(work(item, &mut vars, &mut out));
            }
        }
    }
    let time = start.elapsed().as_nanos();
    black_box(total);
    println!("{group} {name} {} {time}", ready.len());
    Ok(())
}
