//! Running the programs, and bytes by chance.
#![allow(dead_code)]

pub mod pages;
pub mod xml;

use desk::form::compile;
use std::fs;
use std::io::Write;
use std::path::{Path, PathBuf};
use std::process::{Command, Stdio};

pub const COMPILE: &str = env!("CARGO_BIN_EXE_spwd-compile");
pub const SHOW: &str = env!("CARGO_BIN_EXE_spwd-show");
pub const SHEET: &str = env!("CARGO_BIN_EXE_spwd-sheet");
pub const PANEL: &str = env!("CARGO_BIN_EXE_spwd-panel");
pub const COUNTER: &str = env!("CARGO_BIN_EXE_spwd-counter");

/// The folder that holds plans, docs and rust; programs are run in it.
pub fn root() -> PathBuf {
    Path::new(env!("CARGO_MANIFEST_DIR")).join("../..")
}

/// What a program wrote, and its status.
#[derive(Debug, PartialEq, Eq)]
pub struct Ran {
    pub out: Vec<u8>,
    pub err: String,
    pub status: i32,
}

impl Ran {
    pub fn text(&self) -> &str {
        std::str::from_utf8(&self.out).unwrap()
    }
}

pub fn run(program: &str, words: &[&str], input: &[u8]) -> Ran {
    let mut child = Command::new(program)
        .args(words)
        .current_dir(root())
        .stdin(Stdio::piped())
        .stdout(Stdio::piped())
        .stderr(Stdio::piped())
        .spawn()
        .unwrap();
    let mut stdin = child.stdin.take().unwrap();
    let input = input.to_vec();
    // A program that needs no input may close it.
    let writer = std::thread::spawn(move || stdin.write_all(&input).is_ok());
    let output = child.wait_with_output().unwrap();
    writer.join().unwrap();
    Ran {
        out: output.stdout,
        err: String::from_utf8(output.stderr).unwrap(),
        status: output.status.code().unwrap(),
    }
}

/// A stored output.
pub fn expected(name: &str) -> String {
    let path = root().join("rust/desk/tests/expected").join(name);
    fs::read_to_string(&path).unwrap_or_else(|error| panic!("{}: {error}", path.display()))
}

/// The text forms in a folder of the project, by name, at least one.
pub fn plans(folder: &str) -> Vec<String> {
    let mut plans: Vec<_> = fs::read_dir(root().join(folder))
        .unwrap()
        .map(|entry| entry.unwrap().file_name().into_string().unwrap())
        .filter(|name| name.ends_with(".plan"))
        .map(|name| format!("{folder}/{name}"))
        .collect();
    plans.sort();
    assert!(!plans.is_empty());
    plans
}

/// The bytes of a text form.
pub fn bytes(plan: &str) -> Vec<u8> {
    let text = fs::read(root().join(plan)).unwrap();
    let compiled = compile(&text).unwrap_or_else(|complaints| panic!("{plan}: {complaints:?}"));
    compiled.bytes
}

/// A generator of numbers, xorshift.
pub struct Chance(pub u64);

impl Chance {
    pub fn next(&mut self) -> u64 {
        self.0 ^= self.0 << 13;
        self.0 ^= self.0 >> 7;
        self.0 ^= self.0 << 17;
        self.0
    }

    pub fn below(&mut self, bound: usize) -> usize {
        (self.next() % bound as u64) as usize
    }

    pub fn byte(&mut self) -> u8 {
        self.next() as u8
    }
}

/// A plan with a byte changed, or with fields left out, doubled or exchanged.
pub fn damaged(chance: &mut Chance, file: &[u8]) -> Vec<u8> {
    let mut file = file.to_vec();
    for _ in 0..1 + chance.below(2) {
        if file.is_empty() {
            return file;
        }
        let at = chance.below(file.len());
        match chance.below(4) {
            0 => file[at] ^= 1 << chance.below(8),
            1 => file[at] = chance.below(20) as u8,
            2 => file.truncate(at),
            _ => {
                let fields = desk::fields::fields(&file);
                let mut parts: Vec<_> = fields.iter().map(|field| field.bytes).collect();
                let (one, other) = (chance.below(parts.len()), chance.below(parts.len()));
                match chance.below(3) {
                    0 => parts.insert(one, parts[other]),
                    1 => drop(parts.remove(one)),
                    _ => parts.swap(one, other),
                }
                file = parts.concat();
            }
        }
    }
    file
}
