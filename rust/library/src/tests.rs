//! What no example of the documentation shows. Expected values are from term(5) and terminfo(5), or made by hand.

use crate::*;
use std::error::Error;
use std::io::ErrorKind;
use std::string::ToString;
use std::vec::Vec;

/// An entry with all kinds of marks: the bytes of term(5), by hand.
fn marks() -> Vec<u8> {
    let mut draft = Draft::new("m", Width::Legacy);
    draft.set(cap::AutoLeftMargin, Flag::Cancelled).set(cap::AutoRightMargin, true);
    draft.set(cap::Columns, 80).set(cap::Lines, Number::Cancelled);
    draft.set(cap::Bell, b"\x07").set(cap::BackTab, Text::Cancelled);
    draft.add_flag("AX", true).add_number("U8", 1).add_text("Ss", "x").add_text("am", "own");
    draft.encode().unwrap()
}

#[test]
fn names_of_both_lengths_and_own_ones_are_found() {
    let file = marks();
    let entry = Entry::read(&file).unwrap();
    assert!(entry.flag("am") && entry.flag("auto_right_margin") && entry.flag("AX") && !entry.flag("bw"));
    assert_eq!((entry.number("cols"), entry.number("lines"), entry.number("U8")), (Some(80), None, Some(1)));
    assert_eq!((entry.text("bel"), entry.text("cbt"), entry.text("Ss")), (Some(&b"\x07"[..]), None, Some(&b"x"[..])));
    // A name that is standard for another kind is the entry's own here.
    assert_eq!(entry.text("am"), Some(&b"own"[..]));
}

#[test]
fn constants_know_absent_from_cancelled() {
    let file = marks();
    let entry = Entry::read(&file).unwrap();
    assert_eq!((entry.mark(cap::AutoLeftMargin), entry.get(cap::AutoLeftMargin)), (Flag::Cancelled, false));
    assert_eq!((entry.mark(cap::Lines), entry.get(cap::Lines)), (Number::Cancelled, None));
    assert_eq!((entry.mark(cap::CursorAddress), entry.get(cap::CursorAddress)), (Text::Absent, None));
}

#[test]
fn lists_have_what_the_entry_says_in_its_order() {
    let file = marks();
    let entry = Entry::read(&file).unwrap();
    let flags: Vec<_> = entry.flags().map(|(name, flag)| (name.to_string(), flag)).collect();
    assert_eq!(flags, [("bw".into(), Flag::Cancelled), ("am".into(), Flag::Yes), ("AX".into(), Flag::Yes)]);
    let numbers: Vec<_> = entry.numbers().map(|(name, number)| (name.to_string(), number)).collect();
    assert_eq!(numbers, [("cols".into(), 80.into()), ("lines".into(), Number::Cancelled), ("U8".into(), 1.into())]);
    assert_eq!(entry.texts().map(|(name, _)| name.to_string()).collect::<Vec<_>>(), ["cbt", "bel", "Ss", "am"]);
}

#[test]
fn each_constant_has_its_short_name() {
    fn agrees<S: cap::Standard>(_: S) -> bool {
        let name = Name::Standard { kind: S::KIND, index: S::INDEX };
        name.short() == Some(S::SHORT) && name.long() == Some(S::LONG) && Name::standard(S::LONG) == Some(name)
    }
    assert!(agrees(cap::CursorAddress) && agrees(cap::BoxChars1));
    assert!(agrees(cap::ReturnDoesClrEol) && agrees(cap::NumberOfFunctionKeys));
    for (kind, names) in [(Kind::Flag, cap::FLAGS), (Kind::Number, cap::NUMBERS), (Kind::Text, cap::TEXTS)] {
        for (index, (long, short)) in names.iter().enumerate() {
            let name = Name::Standard { kind, index };
            assert_eq!((name.short(), name.long()), (Some(*short), Some(*long)));
        }
        assert_eq!(Name::Standard { kind, index: names.len() }.short(), None);
    }
}

#[test]
fn a_draft_is_written_into_a_slice() {
    let file = marks();
    let draft = Draft::from(&Entry::read(&file).unwrap());
    for more in 0..3 {
        let mut out = std::vec![7; file.len() + more];
        assert_eq!(draft.encode_into(&mut out), Ok(file.len()));
        assert_eq!((&out[..file.len()], &out[file.len()..]), (&file[..], &[7; 3][..more]));
    }
    let mut short = std::vec![7; file.len() - 1];
    let fault = EncodeIntoError::OutTooSmall { need: file.len() };
    assert_eq!((draft.encode_into(&mut short), fault.to_string()), (Err(fault), std::format!("OutTooSmall {}", file.len())));
    let wide = Draft::new("m", Width::Legacy).set(cap::Columns, 32768).encode_into(&mut short);
    assert_eq!((wide, short.iter().all(|byte| *byte == 7)), (Err(EncodeIntoError::Refused(EncodeError::NumberOutOfRange)), true));
}

#[test]
fn ten_parameters_are_refused() {
    let nothing = Capability::parse(b"").unwrap();
    let refused = ExpandError::TooManyParameters { given: 10 };
    assert_eq!(expand(&nothing, &[0.into(); 10], &mut Vars::new()), Err(refused));
    assert_eq!(expand(&nothing, &[0.into(); 9], &mut Vars::new()), Ok(Vec::new()));
}

#[test]
fn the_deepest_capability_has_room() {
    let deep = [b"%p1".repeat(32), b"%d".repeat(32)].concat();
    let deep = Capability::parse(&deep).unwrap();
    let mut out = [0; 32 * 11];
    let run = expand_into(&deep, &[7.into()], &mut Vars::new(), &mut out).unwrap();
    assert_eq!((deep.depth(), &out[..run.written]), (32, &[b'7'; 32][..]));
}

#[test]
fn variables_last_from_one_expansion_to_the_next() {
    let mut vars = Vars::default();
    expand(&Capability::parse(b"%p1%PA").unwrap(), &[65.into()], &mut vars).unwrap();
    assert_eq!(expand(&Capability::parse(b"%gA%c").unwrap(), &[], &mut vars).unwrap(), b"A");
    assert_eq!((vars.get(b'A'), vars.get(b'b'), vars.get(b'1')), (Some(65), Some(0), None));
}

#[test]
fn a_compiled_capability_is_expanded_again_and_again() {
    let cup = Kept::compile(b"\x1b[%i%p1%d;%p2%dH").unwrap();
    let (mut vars, mut out) = (Vars::new(), [0; 26]);
    assert_eq!(cup.bound(), 26);
    let copy = cup;
    for (numbers, output) in [(&[4, 9][..], &b"\x1b[5;10H"[..]), (&[], b"\x1b[1;1H"), (&[99], b"\x1b[100;1H")] {
        let written = copy.expand_into(numbers, &mut vars, &mut out).unwrap();
        assert_eq!(&out[..written], output);
    }
    assert_eq!(cup.expand_into(&[], &mut vars, &mut [0; 25]), Err(ExpandError::OutTooSmall { need: 26 }));
    assert_eq!(cup.expand_into(&[0; 10], &mut vars, &mut out), Err(ExpandError::TooManyParameters { given: 10 }));
    assert!(!cup.has_variables() && Kept::compile(b"%p1%Pa").unwrap().has_variables());
    assert_eq!(Kept::compile(b"%p1%s").unwrap_err(), CompileError::DoesNotFit);
    assert_eq!(Kept::compile(b"%?%p1%t%p2%s%;").unwrap_err().to_string(), "DoesNotFit");
    assert_eq!(Kept::compile(b"ab%p0").unwrap_err().to_string(), "BadParameter at 2");
}

#[test]
fn a_compiled_conditional_chooses_anew_each_time() {
    let setaf = Kept::compile(b"\x1b[%?%p1%{8}%<%t3%p1%d%e%p1%{16}%<%t9%p1%{8}%-%d%e38;5;%p1%d%;m").unwrap();
    let (mut vars, mut out) = (Vars::new(), [0; 64]);
    for (color, output) in [(1, &b"\x1b[31m"[..]), (12, b"\x1b[94m"), (200, b"\x1b[38;5;200m"), (7, b"\x1b[37m")] {
        let written = setaf.expand_into(&[color], &mut vars, &mut out).unwrap();
        assert_eq!(&out[..written], output);
    }
}

#[test]
fn a_compiled_capability_is_sent_with_its_pad_bytes() {
    let marked = Kept::compile(b"%p1%Pa%p1%d$<5>").unwrap();
    let slow = Padding::new(1000, 1, false, b'.').unwrap();
    let (mut vars, mut out) = (Vars::new(), [0; 32]);
    for (padding, sent) in [(&slow, &b"7....."[..]), (&Padding::default(), b"7")] {
        let written = marked.send_into(&[7], &mut vars, padding, &mut out).unwrap();
        assert_eq!((&out[..written], vars.get(b'a')), (sent, Some(7)));
    }
    // The output has 5 bytes, and the padded output 6.
    let mut short = [0; 11 + 4];
    assert_eq!(marked.send_into(&[12345678], &mut vars, &slow, &mut short), Err(SendError::OutTooSmall { need: 12 + 13 }));
    assert_eq!(marked.send_into(&[8], &mut vars, &slow, &mut [0; 14]), Err(SendError::OutTooSmall { need: 15 }));
    assert_eq!(marked.send_into(&[8; 10], &mut vars, &slow, &mut out), Err(SendError::TooManyParameters { given: 10 }));
    assert_eq!(vars.get(b'a'), Some(7));
    let marks = b"$<99999>".repeat(8);
    let long = Kept::compile(&marks).unwrap();
    let fast = Padding::new(1_000_000, 1, false, 0).unwrap();
    assert_eq!(long.send_into(&[], &mut vars, &fast, &mut [0; 64]), Err(SendError::TooMuch { need: 799_992_000 }));
    // A mark that the numbers make is padded too, and without one the output is what is sent.
    let made = Kept::compile(b"%p1%c<5>").unwrap();
    let written = made.send_into(&[36], &mut vars, &slow, &mut out).unwrap();
    assert_eq!(&out[..written], b".....");
    let written = made.send_into(&[35], &mut vars, &slow, &mut out).unwrap();
    assert_eq!(&out[..written], b"#<5>");
    assert_eq!(made.send_into(&[35], &mut vars, &slow, &mut out[..7]), Err(SendError::OutTooSmall { need: 8 }));
}

#[test]
fn errors_print_their_name_and_place() {
    assert_eq!(Capability::parse(b"ab%p0").unwrap_err().to_string(), "BadParameter at 2");
    assert_eq!(Entry::read(b"\x1a\x01").unwrap_err().to_string(), "Truncated at 2");
    assert_eq!(Draft::new("", Width::Legacy).encode().unwrap_err().to_string(), "BadName");
    assert_eq!(ExpandError::TextTooLong { parameter: 3 }.to_string(), "TextTooLong 3");
    assert_eq!(PadIntoError::OutTooSmall { need: 2 }.to_string(), "OutTooSmall 2");
    let error = std::io::Error::from(Entry::read(b"").unwrap_err());
    assert_eq!((error.kind(), error.to_string()), (ErrorKind::InvalidData, "Truncated at 0".into()));
}

#[test]
fn a_source_is_read_to_its_end_or_refusal() {
    let file = marks();
    let mut reader = EntryReader::default();
    reader.read_from(&mut file.as_slice()).unwrap();
    assert_eq!((reader.kept(), reader.finish().unwrap().names()), (file.len(), &b"m"[..]));
    let refused = EntryReader::new().read_from(&mut &b"\x1a\x02more"[..]).unwrap_err();
    assert_eq!((refused.kind(), refused.to_string()), (ErrorKind::InvalidData, "BadMagic at 0".into()));
}

#[test]
fn a_tape_gives_the_tokens() {
    let tokens: Vec<_> = Capability::parse(b"a%p1%%").unwrap().tape().collect();
    assert_eq!(tokens, [Token::Byte(b'a'), Token::Param(1), Token::Byte(b'%')]);
}

#[test]
fn what_is_made_is_printed_cloned_and_sent() {
    fn is_fit<T: Send + Sync + Clone + core::fmt::Debug>() {}
    is_fit::<Entry<'_>>();
    is_fit::<EntryReader>();
    is_fit::<Capability<'_>>();
    is_fit::<Tape<'_>>();
    is_fit::<Vars>();
    is_fit::<Draft<'_>>();
    is_fit::<(Padding, Name<'_>, Value<'_>, Run)>();
    is_fit::<(ReadError, ParseError, ExpandError, PadError, PadIntoError, EncodeError, EncodeIntoError)>();
    let file = marks();
    assert_eq!(std::format!("{:?}", Entry::read(&file).unwrap()), "Entry { names: \"m\", .. }");
}

#[test]
fn the_version_is_that_of_the_sources() {
    assert_eq!(env!("CARGO_PKG_VERSION"), crate::made::base::VERSION);
}

#[test]
fn numbers_of_each_width_are_parameters() {
    let number = |value: Value<'_>| if let Value::Num(number) = value { number } else { i32::MIN };
    let small = [255_u8.into(), (-128_i8).into(), 65_535_u16.into(), (-1_i16).into(), true.into(), false.into()];
    assert_eq!(small.map(number), [255, -128, 65_535, -1, 1, 0]);
    assert_eq!(Value::try_from(79_usize).map(number), Ok(79));
    assert_eq!(Value::try_from(i64::from(i32::MIN)).map(number), Ok(i32::MIN));
    assert!(Value::try_from(1_u32 << 31).is_err() && Value::try_from(1_i64 << 31).is_err());
}

#[test]
fn a_name_that_nothing_has_is_known_from_what_is_absent() {
    let file = marks();
    let entry = Entry::read(&file).unwrap();
    assert_eq!(entry.find("cursor_address"), Some(Item::Text(Text::Absent)));
    assert_eq!(entry.find("lines"), Some(Item::Number(Number::Cancelled)));
    assert_eq!(entry.find("Ss"), Some(Item::Text(b"x".into())));
    assert_eq!(entry.find("cols").map(Item::number), Some(Some(80)));
    assert!(entry.find("AX").is_some_and(Item::is_set) && !entry.find("bw").is_some_and(Item::is_set));
    // The standard name comes first, also if the entry has the name for another kind.
    assert_eq!(entry.find("am"), Some(Item::Flag(Flag::Yes)));
    assert_eq!((entry.find("nosuch"), entry.find("")), (None, None));
}

#[test]
fn all_items_are_those_of_the_three_lists() {
    let file = marks();
    let entry = Entry::read(&file).unwrap();
    let names: Vec<_> = entry.items().map(|(name, _)| name.to_string()).collect();
    assert_eq!(names, ["bw", "am", "cols", "lines", "cbt", "bel", "AX", "U8", "Ss", "am"]);
}

#[test]
fn bytes_of_an_entry_are_printed_in_the_notation() {
    assert_eq!(std::format!("{:?}", Text::from(b"\x1b[H")), r#"Value("\E[H")"#);
    assert_eq!(std::format!("{:?}", Value::from("\x07")), r#"Text("^G")"#);
    assert_eq!(std::format!("{:?}", Name::Extended(b"\x1b")), r#"Extended("\E")"#);
    assert_eq!(std::format!("{:?}", Capability::parse(b"\x1b[%p1%dG").unwrap()), r#"Capability("\E[%p1%dG")"#);
    assert_eq!(std::format!("{:?}", Text::from(&[7; 65])), std::format!("Value(\"{}\")", "^G".repeat(65)));
}

#[test]
fn what_a_compilation_fails_by_is_its_source() {
    let fault = Kept::compile(b"%").unwrap_err();
    assert_eq!(fault.source().unwrap().to_string(), "CutShort at 0");
    assert_eq!(fault.message().to_string(), "at byte 0: the bytes end inside an escape");
    assert!(CompileError::DoesNotFit.source().is_none());
}

#[cfg(feature = "program")]
#[test]
fn the_program_runs_over_bytes_in_memory() {
    let linux = include_bytes!("../examples/linux");
    let outcome = program::run(&["get", "--escape", "cup", "4", "9"], linux, &[]);
    assert_eq!((outcome.status, &outcome.output[..], &outcome.errors[..]), (0, &b"\\E[5;10H\n"[..], &b""[..]));
    // Each name is that of the one file.
    assert_eq!(program::run(&["diff", "-", "other"], linux, linux).status, 0);
    assert_eq!(program::run(&["diff", "one", "other"], &[], linux).status, 0);
    let refused = program::run(&["show"], &linux[..100], &[]);
    assert_eq!((refused.status, &refused.output[..], &refused.errors[..]), (3, &b""[..], &b"entry: Truncated at 100\n"[..]));
}
