//! The words behind a program's name: options that it knows, some with words of their own, and other words.

use crate::layout::stand;
use crate::number::Number;
use std::ffi::OsString;

/// What a program was asked for: at most one file.
#[derive(Debug, PartialEq, Eq)]
pub enum Asked {
    Help,
    Version,
    Run {
        options: Vec<&'static str>,
        file: Option<OsString>,
    },
}

/// What is wrong with the words, in words.
pub fn asked(
    words: impl Iterator<Item = OsString>,
    known: &[&'static str],
) -> Result<Asked, String> {
    let known: Vec<_> = known.iter().map(|&option| (option, 0)).collect();
    Ok(match given(words, &known)? {
        Given::Help => Asked::Help,
        Given::Version => Asked::Version,
        Given::Words { options, others } => Asked::Run {
            options: options.into_iter().map(|(option, _)| option).collect(),
            file: one_file(others)?,
        },
    })
}

/// Options that were given, each with its words.
pub type Options = [(&'static str, Vec<OsString>)];

/// The options of a program, each with its words, and all other words.
#[derive(Debug, PartialEq, Eq)]
pub enum Given {
    Help,
    Version,
    Words {
        options: Vec<(&'static str, Vec<OsString>)>,
        others: Vec<OsString>,
    },
}

/// Of each option is known how many words behind it are its own.
pub fn given(
    mut words: impl Iterator<Item = OsString>,
    known: &[(&'static str, usize)],
) -> Result<Given, String> {
    let (mut options, mut others) = (Vec::new(), Vec::new());
    let mut ended = false;
    while let Some(word) = words.next() {
        let text = word.to_string_lossy();
        if !ended && text == "--" {
            ended = true;
        } else if !ended && (text == "--help" || text == "-h") {
            return Ok(Given::Help);
        } else if !ended && text == "--version" {
            return Ok(Given::Version);
        } else if !ended && text.len() > 1 && text.starts_with('-') {
            let option = known.iter().find(|(option, _)| *option == text);
            let &(option, count) = option.ok_or(format!("there is no option {text}"))?;
            let own: Vec<_> = words.by_ref().take(count).collect();
            if own.len() < count {
                let found = stand(own.len());
                return Err(format!("behind {option} {found} and should stand {count}"));
            }
            options.push((option, own));
        } else {
            others.push(word);
        }
    }
    Ok(Given::Words { options, others })
}

/// The line of `--version`: that of the desk, and that of the interface to the proved box.
pub fn version(program: &str) -> String {
    let (desk, interface) = (env!("CARGO_PKG_VERSION"), spwd::VERSION);
    format!("{program} {desk}, interface version {interface}\n")
}

/// The words of an option, if it was given.
pub fn own<'a>(options: &'a Options, name: &str) -> Result<Option<&'a [OsString]>, String> {
    let mut given = options.iter().filter(|(option, _)| *option == name);
    match (given.next(), given.next()) {
        (_, Some(_)) => Err(format!("{name} stands twice")),
        (first, None) => Ok(first.map(|(_, words)| &words[..])),
    }
}

/// The numbers that so many words are, each with the most that it may be.
pub fn numbers<const N: usize>(words: &[OsString], most: [u32; N]) -> Result<[u32; N], String> {
    let mut numbers = most;
    for (place, word) in numbers.iter_mut().zip(words) {
        *place = Number::up_to(*place).read(&word.to_string_lossy())?;
    }
    Ok(numbers)
}

/// The only one of these words, if there is one.
pub fn one_file(others: Vec<OsString>) -> Result<Option<OsString>, String> {
    match others.get(1) {
        None => Ok(others.into_iter().next()),
        Some(more) => {
            let more = more.to_string_lossy();
            Err(format!("one file at a time, and {more} is one more"))
        }
    }
}
