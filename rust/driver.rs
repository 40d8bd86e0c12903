//! Does over the crate what the commands of `ti` do, so that rust/check can compare the two. Each line of standard input is a
//! call: in hex the bytes that the command reads, and its words, with a space between two of them. The line that is written for
//! it has the status, and in hex the output and the line on standard error.

use std::collections::HashMap;
use std::io::{self, Write};
use ti_terminfo::*;

/// What a command writes, or its status and its line on standard error.
type Outcome = Result<(u8, Vec<u8>), (u8, String)>;

const NO_ENTRY: u8 = 3;
const NO_CAPABILITY: u8 = 4;

fn hex(bytes: &[u8]) -> String {
    bytes.iter().map(|byte| format!("{byte:02x}")).collect()
}

fn unhex(digits: &str) -> Vec<u8> {
    digits.as_bytes().chunks(2).map(|two| u8::from_str_radix(std::str::from_utf8(two).unwrap(), 16).unwrap()).collect()
}

fn refused(fault: impl ToString) -> (u8, String) {
    (NO_CAPABILITY, format!("capability: {}", fault.to_string()))
}

/// Reads an entry at once and in pieces, which must be the same.
fn entry_of(data: &[u8]) -> Result<Entry<'_>, (u8, String)> {
    let mut reader = EntryReader::new();
    let in_pieces = data.chunks(1 + data.len() % 97).try_for_each(|piece| reader.feed(piece)).and_then(|()| reader.finish());
    let at_once = Entry::read(data);
    assert_eq!(at_once.as_ref().map(Entry::names), in_pieces.as_ref().map(Entry::names));
    at_once.map_err(|refused| (NO_ENTRY, format!("entry: {refused}")))
}

/// A line of a listing: what it is of, the label, and the rest.
fn push_line(out: &mut Vec<u8>, word: &str, name: Name<'_>, rest: &str) {
    let (plus, label) = match name {
        Name::Extended(own) => ("+", own.to_vec()),
        Name::Standard { .. } => ("", name.to_string().into_bytes()),
    };
    out.extend([word.as_bytes(), plus.as_bytes(), b" ", &label, rest.as_bytes(), b"\n"].concat());
}

fn show(data: &[u8]) -> Outcome {
    let entry = entry_of(data)?;
    let width = format!("{:?}", entry.width()).to_lowercase();
    let mut out = [format!("format: {width}\nnames: ").as_bytes(), entry.names(), b"\n"].concat();
    // The listing has all standard capabilities before the extended ones.
    for wants_own in [false, true] {
        let is_due = |name: &Name<'_>| matches!(name, Name::Extended(_)) == wants_own;
        for (name, flag) in entry.flags().filter(|(name, _)| is_due(name)) {
            let rest = [(Flag::Yes, ""), (Flag::Cancelled, " cancelled"), (Flag::Missing, " missing")];
            push_line(&mut out, "flag", name, rest.iter().find(|(other, _)| *other == flag).unwrap().1);
        }
        for (name, number) in entry.numbers().filter(|(name, _)| is_due(name)) {
            push_line(&mut out, "number", name, &number.value().map_or(" cancelled".into(), |value| format!(" {value}")));
        }
        for (name, text) in entry.texts().filter(|(name, _)| is_due(name)) {
            let shown = |text: &[u8]| if text.is_empty() { " -".into() } else { format!(" {}", hex(text)) };
            push_line(&mut out, "text", name, &text.value().map_or(" cancelled".into(), shown));
        }
    }
    Ok((0, out))
}

fn check(data: &[u8]) -> Outcome {
    let (mut status, mut out) = (0, Vec::new());
    for (name, text) in entry_of(data)?.texts() {
        let rest = match text.value().map(Capability::parse) {
            None => continue,
            Some(Ok(sound)) => format!(" ok depth {} bound {}", sound.depth(), sound.bound(0)),
            Some(Err(refused)) => {
                status = 1;
                format!(" fault {refused}")
            }
        };
        push_line(&mut out, "text", name, &rest);
    }
    Ok((status, out))
}

/// Writes into a vector and into a slice, which must be the same.
fn convert(data: &[u8], width: Option<Width>) -> Outcome {
    let entry = entry_of(data)?;
    let mut draft = Draft::from(&entry);
    draft.set_width(width.unwrap_or(entry.width()));
    let (bytes, mut out) = (draft.encode(), vec![0; limits::MOST_ENTRY_BYTES]);
    assert_eq!(draft.encode_into(&mut out).map(|written| out[..written].to_vec()), bytes.clone().map_err(EncodeIntoError::Refused));
    Ok((0, bytes.map_err(|fault| (NO_ENTRY, format!("entry: {fault}")))?))
}

/// Expands into a vector and into a slice, which must be the same.
fn expanded(text: &[u8], words: &[&str]) -> Result<Vec<u8>, (u8, String)> {
    let capability = Capability::parse(text).map_err(refused)?;
    let parameters: Vec<Value<'_>> = words
        .iter()
        .map(|word| match word.strip_prefix("n:") {
            Some(number) => number.parse::<i32>().unwrap().into(),
            None => word.strip_prefix("s:").unwrap().into(),
        })
        .collect();
    let (mut vars, mut others) = (Vars::new(), Vars::new());
    let output = expand(&capability, &parameters, &mut vars).map_err(refused)?;
    let longest = words.iter().map(|word| word.len() as u16).max().unwrap_or(0);
    let mut out = vec![0; capability.bound(longest) as usize];
    let run = expand_into(&capability, &parameters, &mut others, &mut out).unwrap();
    assert_eq!(output, out[..run.written]);
    assert!((b'A'..=b'z').all(|letter| vars.get(letter) == others.get(letter)));
    assert!(run.peak <= capability.depth() && run.ran + run.passed == capability.tape().count());
    Ok(output)
}

/// The text that a name, or `#` and an index, stands for.
fn text_called<'a>(entry: &Entry<'a>, called: &str) -> Option<&'a [u8]> {
    let Some(index) = called.strip_prefix('#').and_then(|digits| digits.parse().ok()) else {
        return entry.text(called);
    };
    let due = Name::Standard { kind: Kind::Text, index };
    entry.texts().find(|(name, _)| *name == due)?.1.value()
}

fn shown(output: &[u8], words: &[&str]) -> Vec<u8> {
    let text = if words.contains(&"--escape") { notation(output) } else { hex(output) };
    (text + "\n").into_bytes()
}

/// `expand` with `--hex` or `--escape`, `--rate=`, `--lines=`, `--xon` and `--all-names`.
fn expand_named(data: &[u8], options: &[&str], words: &[&str]) -> Outcome {
    let settings: HashMap<_, _> = options.iter().filter_map(|option| option.split_once('=')).collect();
    let setting = |name, or: u32| settings.get(name).map_or(or, |value| value.parse().unwrap());
    let padding = Padding::new(setting("--rate", 0), setting("--lines", 1), options.contains(&"--xon"), 0).unwrap();
    let (name, parameters) = words.split_first().unwrap();
    let entry = entry_of(data)?;
    let text = text_called(&entry, name).ok_or_else(|| refused("absent"))?;
    let output = expanded(text, parameters)?;
    let padded = pad(&output, &padding).map_err(refused)?;
    let mut out = vec![0; padded.len()];
    assert_eq!((pad_into(&output, &padding, &mut out), &out), (Ok(padded.len()), &padded));
    Ok((0, shown(&padded, options)))
}

/// What a command writes for some words, in which `--` stands before those that are no options.
fn answer(data: &[u8], words: &[&str]) -> Outcome {
    let end = words.iter().position(|word| *word == "--").unwrap_or(words.len());
    let (options, rest) = (&words[1..end], words.get(end + 1..).unwrap_or_default());
    match words[0] {
        "show" => show(data),
        "check" => check(data),
        "convert" if options.contains(&"--wide") => convert(data, Some(Width::Wide)),
        "convert" if options.contains(&"--narrow") => convert(data, Some(Width::Legacy)),
        "convert" => convert(data, None),
        "cap" => Ok((0, shown(&expanded(data, rest)?, options))),
        _ => expand_named(data, options, rest),
    }
}

fn main() -> io::Result<()> {
    for line in io::stdin().lines() {
        let call: Vec<Vec<u8>> = line?.split(' ').map(unhex).collect();
        let words: Vec<&str> = call[1..].iter().map(|word| std::str::from_utf8(word).unwrap()).collect();
        let (status, out, fault) = match answer(&call[0], &words) {
            Ok((status, out)) => (status, out, String::new()),
            Err((status, fault)) => (status, Vec::new(), fault + "\n"),
        };
        writeln!(io::stdout(), "{status} {} {}", hex(&out), hex(fault.as_bytes()))?;
    }
    Ok(())
}
