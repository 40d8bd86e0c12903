//! What the sources take from `clap`, over the crate of this name: there names are lent, and what was found lends the words.
//! The crate takes memory without a refusal.

use super::text::String;
use super::{AllocError, Global};
use ::clap::error::ErrorKind as Kind;
use core::marker::PhantomData;
use core::ops::RangeFrom;
use std::borrow::ToOwned;
use std::boxed::Box;
use std::string::ToString;

pub use ::clap::{ArgAction, value_parser};

pub mod error {
    /// What kind of fault words have, as far as the sources ask for it.
    #[derive(Clone, Copy, Debug, PartialEq, Eq)]
    pub enum ErrorKind {
        OutOfMemory,
        DisplayHelp,
        DisplayVersion,
        InvalidSubcommand,
        Other,
    }
}

use error::ErrorKind;

/// Why words are no line: what the crate found, or that memory was refused.
#[derive(Debug)]
pub struct Error(Option<::clap::Error>);

impl From<AllocError> for Error {
    fn from(_refused: AllocError) -> Self {
        Error(None)
    }
}

impl Error {
    pub fn kind(&self) -> ErrorKind {
        match self.0.as_ref().map(::clap::Error::kind) {
            None => ErrorKind::OutOfMemory,
            Some(Kind::DisplayHelp) => ErrorKind::DisplayHelp,
            Some(Kind::DisplayVersion) => ErrorKind::DisplayVersion,
            Some(Kind::InvalidSubcommand) => ErrorKind::InvalidSubcommand,
            Some(_) => ErrorKind::Other,
        }
    }

    pub fn to_string(&self, _alloc: Global) -> Result<String, AllocError> {
        Ok(String::of(self.0.as_ref().ok_or(AllocError)?.to_string()))
    }
}

/// An argument. The crate owns its texts.
#[derive(Debug)]
pub struct Arg<'a>(::clap::Arg, PhantomData<&'a str>);

impl<'a> Arg<'a> {
    fn of(arg: ::clap::Arg) -> Self {
        Arg(arg, PhantomData)
    }

    pub fn new(_alloc: Global, id: &'a str) -> Self {
        Self::of(::clap::Arg::new(id.to_owned()))
    }

    pub fn long(self, name: &'a str) -> Self {
        Self::of(self.0.long(name.to_owned()))
    }

    pub fn short(self, name: char) -> Self {
        Self::of(self.0.short(name))
    }

    pub fn action(self, action: ArgAction) -> Self {
        Self::of(self.0.action(action))
    }

    pub fn help(self, text: &'a str) -> Self {
        Self::of(self.0.help(text.to_owned()))
    }

    pub fn value_name(self, text: &'a str) -> Self {
        Self::of(self.0.value_name(text.to_owned()))
    }

    pub fn value_parser(self, parser: impl Into<::clap::builder::ValueParser>) -> Self {
        Self::of(self.0.value_parser(parser.into()))
    }

    pub fn num_args(self, range: RangeFrom<usize>) -> Self {
        Self::of(self.0.num_args(range))
    }

    pub fn required(self, is_required: bool) -> Self {
        Self::of(self.0.required(is_required))
    }
}

/// A command. The crate owns its texts.
#[derive(Debug)]
pub struct Command<'a>(::clap::Command, PhantomData<&'a str>);

impl<'a> Command<'a> {
    fn of(command: ::clap::Command) -> Self {
        Command(command, PhantomData)
    }

    pub fn new(_alloc: Global, name: &'a str) -> Self {
        Self::of(::clap::Command::new(name.to_owned()))
    }

    pub fn override_usage(self, text: &'a str) -> Self {
        Self::of(self.0.override_usage(text.to_owned()))
    }

    pub fn about(self, text: &'a str) -> Self {
        Self::of(self.0.about(text.to_owned()))
    }

    pub fn after_help(self, text: &'a str) -> Self {
        Self::of(self.0.after_help(text.to_owned()))
    }

    pub fn after_long_help(self, text: &'a str) -> Self {
        Self::of(self.0.after_long_help(text.to_owned()))
    }

    pub fn version(self, text: &'a str) -> Self {
        Self::of(self.0.version(text.to_owned()))
    }

    pub fn subcommand_required(self, is_required: bool) -> Self {
        Self::of(self.0.subcommand_required(is_required))
    }

    pub fn arg(self, arg: Arg<'a>) -> Result<Self, AllocError> {
        Ok(Self::of(self.0.arg(arg.0)))
    }

    pub fn subcommand(self, made: Command<'a>) -> Result<Self, AllocError> {
        Ok(Self::of(self.0.subcommand(made.0)))
    }

    /// What the words are by this command. The first is the program's own name.
    pub fn try_get_matches_from<'w, W: Word>(self, words: &'w [W]) -> Result<ArgMatches<'w>, Error> {
        let found = self.0.try_get_matches_from(words.iter().map(|word| word.text().to_owned()));
        found.map(|found| ArgMatches::of(found, words)).map_err(|error| Error(Some(error)))
    }
}

/// A word of a command line.
pub trait Word {
    fn text(&self) -> &str;
}

impl Word for &str {
    fn text(&self) -> &str {
        self
    }
}

impl Word for String {
    fn text(&self) -> &str {
        self.as_str()
    }
}

/// What was found of a command: its values, which are lent from the words, and the subcommand.
#[derive(Debug)]
pub struct ArgMatches<'a> {
    found: ::clap::ArgMatches,
    texts: std::vec::Vec<(::clap::Id, std::vec::Vec<&'a str>)>,
    below: Option<(&'a str, Box<ArgMatches<'a>>)>,
}

/// The text among the words. A value is the end of a word, all of it or what stands after an option.
fn lent<'a, W: Word>(words: &'a [W], text: &str) -> &'a str {
    let ends = words.iter().find_map(|word| Some(&word.text()[word.text().strip_suffix(text)?.len()..]));
    ends.expect("a value is the end of a word")
}

impl<'a> ArgMatches<'a> {
    fn of<W: Word>(mut found: ::clap::ArgMatches, words: &'a [W]) -> Self {
        let below = found.remove_subcommand();
        let texts = found.ids().filter_map(|id| {
            let values = found.try_get_many::<std::string::String>(id.as_str()).ok()??;
            Some((id.clone(), values.map(|value| lent(words, value)).collect()))
        });
        let texts = texts.collect();
        let below = below.map(|(name, found)| (lent(words, &name), Box::new(ArgMatches::of(found, words))));
        ArgMatches { found, texts, below }
    }

    pub fn subcommand(&self) -> Option<(&'a str, &ArgMatches<'a>)> {
        self.below.as_ref().map(|(name, found)| (*name, &**found))
    }

    pub fn get_one<T: Copy + Send + Sync + 'static>(&self, id: &str) -> Option<T> {
        self.found.try_get_one::<T>(id).ok().flatten().copied()
    }

    pub fn get_strs(&self, id: &str) -> Option<&[&'a str]> {
        self.texts.iter().find(|(other, _)| other.as_str() == id).map(|(_, values)| values.as_slice())
    }

    pub fn get_str(&self, id: &str) -> Option<&'a str> {
        self.get_strs(id)?.first().copied()
    }
}
