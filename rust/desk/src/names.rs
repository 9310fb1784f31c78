//! Names of devices, for people: a plan's text gives them, its file has none.

use crate::invisible::is_invisible;
use std::collections::{BTreeMap, BTreeSet};

/// The most characters of a name.
pub const NAME: usize = 40;

#[derive(Clone, Debug, Default, PartialEq, Eq)]
pub struct Names(BTreeMap<u8, String>);

impl Names {
    /// False if the device has a name already, which it keeps.
    pub fn give(&mut self, device: u8, name: String) -> bool {
        let fresh = !self.0.contains_key(&device);
        self.0.entry(device).or_insert(name);
        fresh
    }

    pub fn get(&self, device: u8) -> Option<&str> {
        self.0.get(&device).map(String::as_str)
    }

    /// Devices rising.
    pub fn iter(&self) -> impl Iterator<Item = (u8, &str)> {
        let names = self.0.iter();
        names.map(|(&device, name)| (device, name.as_str()))
    }
}

/// Words as a name, one space between them; or what is wrong with it.
pub fn name_of(words: &[&str]) -> Result<String, String> {
    let name = words.join(" ");
    let size = name.chars().count();
    if size > NAME {
        return Err(format!(
            "this name has {size} characters; right are at most {NAME}"
        ));
    }
    let wrong =
        |character: &char| is_invisible(*character) || *character == char::REPLACEMENT_CHARACTER;
    match name.chars().find(wrong) {
        None => Ok(name),
        Some(char::REPLACEMENT_CHARACTER) => {
            Err("this name is no UTF-8; right are characters of UTF-8".to_string())
        }
        Some(wrong) => {
            let code = wrong.escape_unicode();
            Err(format!(
                "in this name stands {code}; right are characters that can be seen"
            ))
        }
    }
}

/// Names and the lines that gave them, until all of a text is read: a name may stand before its device.
#[derive(Default)]
pub struct Named {
    pub names: Names,
    /// By device.
    lines: BTreeMap<u8, (usize, String)>,
}

impl Named {
    /// What is wrong, if the device was named before.
    pub fn give(
        &mut self,
        line: usize,
        text: &str,
        device: u8,
        name: String,
    ) -> Result<(), String> {
        if self.names.give(device, name) {
            self.lines.insert(device, (line, text.to_string()));
            return Ok(());
        }
        let name = self.names.get(device).unwrap_or_default();
        let line = self.lines.get(&device).map_or(0, |(line, _)| *line);
        Err(format!(
            "device {device} has the name '{name}' from line {line}; right is one name for a device"
        ))
    }

    /// The lines, with their text, that name other devices than these, and what is wrong.
    pub fn without(&self, devices: &BTreeSet<u8>) -> Vec<(usize, String, String)> {
        let lines = self.lines.iter();
        let without = lines.filter(|(device, _)| !devices.contains(device));
        without
            .map(|(device, (line, text))| {
                let wrong = format!(
                    "the text gives no device {device}; right is the number of a node or a router of it"
                );
                (*line, text.clone(), wrong)
            })
            .collect()
    }
}
