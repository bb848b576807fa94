//! A command's words: options and what is none.

use std::ffi::{OsStr, OsString};
use std::str::FromStr;

use crate::fault::Fault;

/// An option of a command.
pub enum Spec {
    /// By itself: `--csv`.
    Flag(&'static str),
    /// With a value: `--pin 0` or `--pin=0`, `-o FILE`.
    Value(&'static str),
}

impl Spec {
    pub fn name(&self) -> &'static str {
        match self {
            Spec::Flag(name) | Spec::Value(name) => name,
        }
    }
}

/// A command's words, taken apart.
#[derive(Debug, Default)]
pub struct Args {
    words: Vec<OsString>,
    options: Vec<(&'static str, OsString)>,
}

impl Args {
    /// `None` if help is asked for.
    pub fn parse(words: Vec<OsString>, specs: &[Spec]) -> Result<Option<Self>, Fault> {
        let mut args = Self::default();
        let mut words = words.into_iter();
        while let Some(word) = words.next() {
            let Some((name, value)) = option(&word) else {
                if word == "--" {
                    args.words.extend(words.by_ref());
                } else {
                    args.words.push(word);
                }
                continue;
            };
            if name == "--help" || name == "-h" {
                return Ok(None);
            }
            match (specs.iter().find(|s| s.name() == name), value) {
                (None, _) => return Err(Fault::usage(format!("no option `{name}`"))),
                (Some(Spec::Flag(_)), Some(_)) => return Err(Fault::usage(format!("{name} takes no value"))),
                (Some(Spec::Flag(name)), None) => args.options.push((name, OsString::new())),
                (Some(Spec::Value(name)), Some(value)) => args.options.push((name, value)),
                (Some(Spec::Value(name)), None) => {
                    let value = words.next().ok_or_else(|| Fault::usage(format!("{name} needs a value")))?;
                    args.options.push((name, value));
                }
            }
        }
        Ok(Some(args))
    }

    /// The one word that is no option: the list.
    pub fn list(&self) -> Result<&OsStr, Fault> {
        match &self.words[..] {
            [list] => Ok(list),
            [] => Err(Fault::usage("LIST is missing: a file, or - for standard input")),
            [_, second, ..] => Err(surplus(second)),
        }
    }

    /// There is no word that is no option.
    pub fn no_words(&self) -> Result<(), Fault> {
        self.words.first().map_or(Ok(()), |word| Err(surplus(word)))
    }

    pub fn flag(&self, name: &str) -> bool {
        self.options.iter().any(|o| o.0 == name)
    }

    /// An option's value as it is, given at most once.
    pub fn path(&self, name: &str) -> Result<Option<&OsStr>, Fault> {
        let mut values = self.options.iter().filter(|o| o.0 == name);
        let value = values.next();
        match values.next() {
            Some(_) => Err(Fault::usage(format!("{name} is given twice"))),
            None => Ok(value.map(|o| o.1.as_os_str())),
        }
    }

    /// The texts of an option that may be given more than once.
    pub fn texts(&self, name: &str) -> Result<Vec<&str>, Fault> {
        self.options.iter().filter(|o| o.0 == name).map(|o| text(name, &o.1)).collect()
    }

    /// An option's text, given at most once.
    pub fn text(&self, name: &str) -> Result<Option<&str>, Fault> {
        self.path(name)?.map(|value| text(name, value)).transpose()
    }

    /// An option that must be there.
    pub fn needed(&self, name: &str) -> Result<&str, Fault> {
        self.text(name)?.ok_or_else(|| Fault::usage(format!("{name} is missing")))
    }

    /// An option's number, given at most once.
    pub fn number<T: FromStr>(&self, name: &str) -> Result<Option<T>, Fault> {
        self.text(name)?.map(|word| number(name, word)).transpose()
    }

    pub fn needed_number<T: FromStr>(&self, name: &str) -> Result<T, Fault> {
        number(name, self.needed(name)?)
    }
}

/// A whole number in decimal digits.
pub fn number<T: FromStr>(name: &str, word: &str) -> Result<T, Fault> {
    let plain = word.bytes().all(|b| b.is_ascii_digit());
    let value = if plain { word.parse().ok() } else { None };
    value.ok_or_else(|| Fault::usage(format!("{name} {word}: not a number, or too large")))
}

/// An option and the value that stands behind its `=`; `None` for any other word.
fn option(word: &OsStr) -> Option<(String, Option<OsString>)> {
    let text = word.to_string_lossy();
    if !text.starts_with('-') || text == "-" || text == "--" {
        return None;
    }
    match text.split_once('=') {
        Some((name, value)) if name.starts_with("--") => Some((name.to_string(), Some(value.into()))),
        _ => Some((text.into_owned(), None)),
    }
}

fn text<'a>(name: &str, value: &'a OsStr) -> Result<&'a str, Fault> {
    value.to_str().ok_or_else(|| Fault::usage(format!("{name}: not a text")))
}

fn surplus(word: &OsStr) -> Fault {
    Fault::usage(format!("`{}` is one word too many", word.to_string_lossy()))
}

#[cfg(test)]
mod tests {
    use super::*;

    const SPECS: [Spec; 3] = [Spec::Flag("--csv"), Spec::Value("--pin"), Spec::Value("-o")];

    fn parse(words: &[&str]) -> Result<Option<Args>, Fault> {
        Args::parse(words.iter().map(OsString::from).collect(), &SPECS)
    }

    fn reason(r: Result<impl std::fmt::Debug, Fault>) -> String {
        match r {
            Err(Fault::Usage(reason)) => reason,
            other => panic!("{other:?}"),
        }
    }

    #[test]
    fn options_and_words_in_any_order() {
        let args = parse(&["--pin", "3", "-", "--csv", "--pin=4", "-o", "-"]).unwrap().unwrap();
        assert_eq!(args.list().unwrap(), "-");
        assert!(args.flag("--csv"));
        assert_eq!(args.texts("--pin").unwrap(), ["3", "4"]);
        assert_eq!(args.path("-o").unwrap().unwrap(), "-");
        assert_eq!(reason(args.text("--pin")), "--pin is given twice");
    }

    #[test]
    fn words_behind_two_dashes_are_none() {
        let args = parse(&["--", "--csv"]).unwrap().unwrap();
        assert_eq!(args.list().unwrap(), "--csv");
        assert!(!args.flag("--csv"));
    }

    #[test]
    fn help_is_asked_for_anywhere() {
        assert!(parse(&["x", "--help"]).unwrap().is_none());
        assert!(parse(&["-h"]).unwrap().is_none());
    }

    #[test]
    fn wrong_usage_has_its_reason() {
        assert_eq!(reason(parse(&["--what"])), "no option `--what`");
        assert_eq!(reason(parse(&["--csv=1"])), "--csv takes no value");
        assert_eq!(reason(parse(&["--pin"])), "--pin needs a value");
        let args = parse(&["a", "b"]).unwrap().unwrap();
        assert_eq!(reason(args.list()), "`b` is one word too many");
        assert_eq!(reason(args.no_words()), "`a` is one word too many");
        assert_eq!(reason(args.needed("--pin")), "--pin is missing");
        for word in ["x", "+1", "-1", "", "256", "1.0"] {
            assert_eq!(reason(number::<u8>("--pin", word)), format!("--pin {word}: not a number, or too large"));
        }
        assert_eq!(number::<u8>("--pin", "255").unwrap(), 255);
    }
}
