//! Reading a file or standard input, and writing where a reader may have gone.

use std::ffi::OsString;
use std::fs::{read_link, read_to_string, File};
use std::io::{self, BufRead, ErrorKind, Read, Write};
use std::path::Path;
use std::process::ExitCode;

/// How a program ends; the numbers stand in the help of each.
#[derive(Clone, Copy, Debug, PartialEq, Eq)]
pub enum Status {
    Done = 0,
    /// The box refuses the plan, or what is asked of it.
    Refused = 1,
    /// Lines that are no item or no command.
    Complaints = 2,
    /// Wrong words behind the program's name, a file that cannot be read, output that cannot be written.
    Failed = 3,
}

impl From<Status> for ExitCode {
    fn from(status: Status) -> Self {
        Self::from(status as u8)
    }
}

/// Where input comes from.
#[derive(Clone, Debug)]
pub struct Input(Option<OsString>);

impl Input {
    /// No file, and `-`, is standard input.
    pub fn of(file: Option<OsString>) -> Self {
        Self(file.filter(|file| file != "-"))
    }

    /// How a person knows it.
    pub fn name(&self) -> String {
        let name = self.0.as_ref().map(|file| file.to_string_lossy());
        name.map_or("standard input".to_string(), |name| name.into_owned())
    }

    /// Whether the file's name ends in .plan.
    pub fn is_plan(&self) -> bool {
        let file = self.0.as_ref().map(Path::new);
        let end = file.and_then(Path::extension);
        end.is_some_and(|end| end == "plan")
    }

    pub fn open(&self) -> Result<Box<dyn Read>, String> {
        match &self.0 {
            None => is_open(0, &self.name()).map(|()| Box::new(io::stdin()) as _),
            Some(file) => match File::open(file) {
                Ok(file) => Ok(Box::new(file)),
                Err(error) => Err(self.failed(&error)),
            },
        }
    }

    /// The whole input, which has at most `most` bytes.
    pub fn read(&self, most: u64) -> Result<Vec<u8>, String> {
        let bytes = self.read_of(most + 1)?;
        if bytes.len() as u64 > most {
            let name = self.name();
            return Err(format!("{name}: longer than {most} bytes: this is no plan"));
        }
        Ok(bytes)
    }

    /// At most so many bytes of the input, from its front.
    pub fn read_of(&self, most: u64) -> Result<Vec<u8>, String> {
        let mut bytes = Vec::new();
        match self.open()?.take(most).read_to_end(&mut bytes) {
            Err(error) => Err(self.failed(&error)),
            Ok(_) => Ok(bytes),
        }
    }

    pub fn failed(&self, error: &io::Error) -> String {
        format!("{}: {error}", self.name())
    }
}

/// The next line without its newline, or the first `most` + 1 bytes of one that is longer than `most`. False at the end of the input.
pub fn read_line(input: &mut impl BufRead, line: &mut Vec<u8>, most: usize) -> io::Result<bool> {
    line.clear();
    let mut any = false;
    loop {
        let part = match input.fill_buf() {
            Err(error) if error.kind() == ErrorKind::Interrupted => continue,
            part => part?,
        };
        if part.is_empty() {
            return Ok(any);
        }
        any = true;
        let end = part.iter().position(|&byte| byte == b'\n');
        let size = end.unwrap_or(part.len());
        line.extend_from_slice(&part[..size.min(most + 1 - line.len())]);
        input.consume(end.map_or(size, |end| end + 1));
        if end.is_some() {
            return Ok(true);
        }
    }
}

/// Fails if a standard stream was closed when the program began.
///
/// The runtime opens /dev/null for reading and writing in the place of a closed one, so that is how it shows. Whoever wants no output opens
/// /dev/null for writing alone, as a shell does. Where there is no /proc nothing is known, and the stream passes for open.
pub fn is_open(descriptor: u8, name: &str) -> Result<(), String> {
    let null = read_link(format!("/proc/self/fd/{descriptor}"));
    let null = null.is_ok_and(|file| file == Path::new("/dev/null"));
    let state = read_to_string(format!("/proc/self/fdinfo/{descriptor}")).unwrap_or_default();
    let flags = state.lines().find_map(|line| line.strip_prefix("flags:"));
    let flags = flags.and_then(|flags| u32::from_str_radix(flags.trim(), 8).ok());
    const ACCESS: u32 = 3;
    const BOTH: u32 = 2;
    if null && flags.is_some_and(|flags| flags & ACCESS == BOTH) {
        return Err(format!(
            "{name} is closed (or /dev/null, opened for both reading and writing)"
        ));
    }
    Ok(())
}

/// Fails if standard output was closed.
pub fn output_is_open() -> Result<(), String> {
    is_open(1, "standard output")
}

/// Writes to standard output. A reader that has closed the pipe has what it wants: that is no failure.
pub fn put(bytes: &[u8]) -> Result<(), String> {
    output_is_open()?;
    let mut output = io::stdout().lock();
    match output.write_all(bytes).and_then(|()| output.flush()) {
        Err(error) if error.kind() != ErrorKind::BrokenPipe => {
            Err(format!("standard output: {error}"))
        }
        _ => Ok(()),
    }
}

/// Lines to standard output.
pub fn put_lines(lines: &[String]) -> Result<(), String> {
    put(text(lines).as_bytes())
}

/// Lines to standard error; where they cannot be written nobody is there to be told.
pub fn say(lines: &[String]) {
    let _ = io::stderr().write_all(text(lines).as_bytes());
}

fn text(lines: &[String]) -> String {
    lines.iter().map(|line| format!("{line}\n")).collect()
}

/// Says what went wrong, and that the program failed.
pub fn fail(program: &str, what: &str) -> Status {
    say(&[format!("{program}: {what}")]);
    Status::Failed
}
