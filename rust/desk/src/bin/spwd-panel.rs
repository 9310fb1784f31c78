//! The script that `replay` reads, played on the box: what happens, in words.
#![forbid(unsafe_code)]

use desk::arguments::{given, one_file, version, Given, Options};
use desk::happening::Happening;
use desk::history::gather::Gathered;
use desk::history::page::page;
use desk::html::head;
use desk::panel::Panel;
use desk::script::LINE;
use desk::streams::{fail, output_is_open, put, read_line, say, Input, Status};
use desk::told::told;
use std::ffi::OsString;
use std::io::{self, BufReader, ErrorKind, Write};
use std::process::ExitCode;

const NAME: &str = "spwd-panel";

const HELP: &str = "\
spwd-panel [--card] [SCRIPT]   plays a script on the box and says in words what happens
spwd-panel --page [SCRIPT]     the same drawn over time-codes, as a page to print: one HTML file
spwd-panel --help              this, as -h; --version says which one this is

Without SCRIPT, or with -, standard input is read. --card adds the row of the card to every verdict and
refusal, and to every record that asks for something.

A page has a lane for each initiator, with the starts, replies and lateness of its transactions and the line of
its requests; early, late and out of sequence time-codes; what was refused; and a section for each load and
clear. It needs nothing else, no network and no script, and prints on A4. Of the run the first 2,000 time-codes
are drawn and the rest is counted. Loads that are refused and lines that are no command are said on standard
error too.
    --title WORDS   in the place of the script's name
    --date WORDS    a date, as you write it; without it the page has none

One command a line, numbers decimal:
    load HEX                                     a plan file, in lowercase hex; - for the empty file
    load FILE                                    the same from a plan file, or from the text of a plan
    clear
    tc BYTE CLOCK BUF                            a time-code, with a record buffer of BUF bytes (0 to 4,096)
    req INITIATOR TARGET KIND LENGTH             a request; kind 0 read, 1 write
    rep INITIATOR NUMBER STATUS                  a reply
    clk CLOCK                                    a clock reading
    out ROOM                                     the plan written out into ROOM bytes (0 to 32,768)
    wd                                           the watchdog's five numbers
    setwd LAST SEEN REPORTED LEAST GREATEST      lends other five
    sheet ROUTERS RATE LENGTH A D F G            the time of a transaction; no plan is asked
    sheet2 ROUTERS BACK RATE LENGTH A D F G      the same, with so many routers on the reply's way
    next INITIATOR TARGET LENGTH SLOT            the next turn of such a request after a slot, by the plan alone
    blank                                        whether every number of the box is that of a clear
    holds HEX, holds FILE                        whether the box holds the plan of this file
An empty line and one that begins with # are skipped. A line that is none of these, or whose file cannot be
read or is no text of a plan, changes nothing; what would be right is said. What is all hex digits is hex: a
file of such a name is ./NAME.
Of a request that waits alone in its line it is said where it starts, once a time-code has said the slot.

Status: 0 every line was a command or skipped, and every load accepted; 1 a load was refused; 2 some lines
were no command, or their file could not be had; 3 wrong arguments, or a script that cannot be read. Refusals
of events are answers of the box and no failure, nor is a reader that closes the pipe early.
";

/// Output that is gathered before it is written, while more input is at hand.
const CHUNK: usize = 1 << 16;

const OPTIONS: [(&str, usize); 4] = [("--card", 0), ("--page", 0), ("--title", 1), ("--date", 1)];

fn main() -> ExitCode {
    let status = match given(std::env::args_os().skip(1), &OPTIONS) {
        Ok(Given::Help) => put(HELP.as_bytes()).map(|()| Status::Done),
        Ok(Given::Version) => put(version(NAME).as_bytes()).map(|()| Status::Done),
        Ok(Given::Words { options, others }) => run(&options, others),
        Err(wrong) => Err(see(&wrong)),
    };
    status.unwrap_or_else(|what| fail(NAME, &what)).into()
}

fn see(wrong: &str) -> String {
    format!("{wrong}; see {NAME} --help")
}

fn run(options: &Options, others: Vec<OsString>) -> Result<Status, String> {
    let page = head::Given::among(options, "--card").map_err(|wrong| see(&wrong))?;
    let card = options.iter().any(|(option, _)| *option == "--card");
    let script = Input::of(one_file(others).map_err(|wrong| see(&wrong))?);
    match page {
        Some(given) => draw(&given, &script),
        None => play(card, &script),
    }
}

/// Plays all of a script, and then writes its page.
fn draw(given: &head::Given, script: &Input) -> Result<Status, String> {
    output_is_open()?;
    let mut panel = Panel::new(false);
    let mut gathered = Gathered::new();
    let mut input = BufReader::with_capacity(CHUNK, script.open()?);
    let mut line = Vec::new();
    while read_line(&mut input, &mut line, LINE).map_err(|error| script.failed(&error))? {
        let Some(happening) = panel.happen(&line) else {
            continue;
        };
        match &happening {
            Happening::Wrong(_) => say(&told(&happening, false)),
            Happening::Load(load) if !load.verdict.is_accepted() => say(&told(&happening, false)),
            _ => {}
        }
        gathered.add(happening);
    }
    let page = page(&script.name(), &gathered.chart(), given);
    put(page.as_bytes())?;
    Ok(panel.status())
}

fn play(card: bool, script: &Input) -> Result<Status, String> {
    output_is_open()?;
    let mut panel = Panel::new(card);
    let mut input = BufReader::with_capacity(CHUNK, script.open()?);
    let (mut line, mut said) = (Vec::new(), String::new());
    loop {
        let more = read_line(&mut input, &mut line, LINE);
        if let Ok(true) = more {
            panel.play(&line).iter().for_each(|happened| {
                said += happened;
                said.push('\n');
            });
        }
        // Whoever waits for an answer before the next command gets it.
        let now = input.buffer().is_empty() || said.len() > CHUNK || !matches!(more, Ok(true));
        if now && !written(&mut said)? {
            break;
        }
        if !more.map_err(|error| script.failed(&error))? {
            break;
        }
    }
    Ok(panel.status())
}

/// Writes what was said. False if the reader has closed the pipe.
fn written(said: &mut String) -> Result<bool, String> {
    let mut output = io::stdout().lock();
    let result = output
        .write_all(said.as_bytes())
        .and_then(|()| output.flush());
    said.clear();
    match result {
        Ok(()) => Ok(true),
        Err(error) if error.kind() == ErrorKind::BrokenPipe => Ok(false),
        Err(error) => Err(format!("standard output: {error}")),
    }
}
