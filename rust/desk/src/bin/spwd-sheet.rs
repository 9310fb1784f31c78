//! How long transactions take: the sheet by itself, and the sheet of a plan.
#![forbid(unsafe_code)]

use desk::arguments::{given, numbers, one_file, own, version, Given, Options};
use desk::form::times;
use desk::judge::judge;
use desk::number::Number;
use desk::page::page;
use desk::plan::Plan;
use desk::sheet::{of_plan, with_times, Asked};
use desk::source::Source;
use desk::streams::{fail, put, put_lines, say, Input, Status};
use desk::taken::{taken, Form};
use desk::ways::Routers;
use spwd::{Latencies, SheetOutOfRange};
use std::ffi::OsString;
use std::process::ExitCode;

const NAME: &str = "spwd-sheet";

const HELP: &str = "\
spwd-sheet [--text | --bytes] [FILE]                          the times of a plan's transactions
spwd-sheet --times S A D F G SLOT [--text | --bytes] [FILE]   the same with other slot times than its own
spwd-sheet --routers R --rate S --latencies A D F G LENGTH..  the sheet by itself, term by term
spwd-sheet --routers R --reply-routers B --rate S ..          the same for a reply with a way of its own
spwd-sheet --help                                             this, as -h; --version says which one this is

FILE is a plan file, or the text form of a plan; which, is seen by what is in it. --text says that it is the text
form, --bytes that it is a plan file, whatever is in it. Without FILE, or with -, standard input is read.

Of a plan: for each path its routers, and those of its reply where they are not as many, and the time of some
lengths; the largest length that its entries permit for each of their spans (none: not even 0 bytes fit); and
the least slot length with which every entry permits 256 bytes for each slot of its span. By itself: the terms
(a) to (i) and their sum, for each LENGTH of data bytes.
    R      routers, the links of a path less one: 0 to 7; of the reply too, where B is not given
    B      routers on the reply's way, its links less one: 0 to 7
    S      the rate of the links: 2 to 400 Mbit/s
    A      latency from the time-code to the start of the command, in ns: at most 1,000,000, as the next four
    D      the target authorises the command
    F      data between link and memory, beyond the time to send it
    G      from the last data to the start of the reply
    SLOT   the length of a slot, in ns
    LENGTH 0 to 4,096

Status: 0 done, and the plan accepted; 1 the box refuses the plan, or a number of the sheet is out of range;
2 the text has lines that are no item; 3 wrong arguments, or a file that cannot be read or written. A reader
that closes the pipe early is no failure.
";

const OPTIONS: [(&str, usize); 7] = [
    ("--text", 0),
    ("--bytes", 0),
    ("--times", 6),
    ("--routers", 1),
    ("--reply-routers", 1),
    ("--rate", 1),
    ("--latencies", 4),
];

/// The most bytes that are read; a plan has far fewer.
const MOST: u64 = 16 << 20;

fn main() -> ExitCode {
    let status = match given(std::env::args_os().skip(1), &OPTIONS) {
        Ok(Given::Help) => put(HELP.as_bytes()).map(|()| Status::Done),
        Ok(Given::Version) => put(version(NAME).as_bytes()).map(|()| Status::Done),
        Ok(Given::Words { options, others }) => run(&options, others),
        Err(wrong) => Err(see(&wrong)),
    };
    status.unwrap_or_else(|what| fail(NAME, &what)).into()
}

fn see(wrong: &str) -> String {
    format!("{wrong}; see {NAME} --help")
}

fn run(options: &Options, others: Vec<OsString>) -> Result<Status, String> {
    let own = |name| own(options, name).map_err(|wrong| see(&wrong));
    let alone = [own("--routers")?, own("--rate")?, own("--latencies")?];
    let plan = [own("--text")?, own("--bytes")?, own("--times")?];
    let reply = own("--reply-routers")?;
    match (alone, plan) {
        ([None, ..], _) if reply.is_some() => Err(see("--reply-routers goes with --routers")),
        ([None, None, None], [text, bytes, times]) => {
            let input = Input::of(one_file(others).map_err(|wrong| see(&wrong))?);
            let form = Form::of(text.is_some(), bytes.is_some()).map_err(see)?;
            let times = times.map(field).transpose().map_err(|wrong| see(&wrong))?;
            of_file(&input, form, times.as_deref())
        }
        ([Some(routers), Some(rate), Some(latencies)], [None, None, None]) => {
            let ways = [routers, reply.unwrap_or(routers)];
            let asked = asked(ways, rate, latencies).map_err(|wrong| see(&wrong))?;
            let lengths = lengths(&others).map_err(|wrong| see(&wrong))?;
            by_itself(&asked, &lengths)
        }
        (_, [None, None, None]) => Err(see("--routers, --rate and --latencies go together")),
        _ => Err(see(
            "--routers, --rate and --latencies go with no plan and none of its options",
        )),
    }
}

/// The routers of the command and of the reply, the rate and the latencies.
fn asked(
    [command, reply]: [&[OsString]; 2],
    rate: &[OsString],
    latencies: &[OsString],
) -> Result<Asked, String> {
    let [command] = numbers(command, [u8::MAX.into()])?;
    let [reply] = numbers(reply, [u8::MAX.into()])?;
    let [rate] = numbers(rate, [u16::MAX.into()])?;
    let [a, d, f, g] = numbers(latencies, [u32::MAX; 4])?;
    Ok(Asked {
        routers: Routers {
            command: command as u8,
            reply: reply as u8,
        },
        rate: rate as u16,
        latencies: Latencies { a, d, f, g },
    })
}

fn lengths(words: &[OsString]) -> Result<Vec<u16>, String> {
    if words.is_empty() {
        return Err("a length is missing".to_string());
    }
    let length = |word: &OsString| Number::up_to(u16::MAX.into()).read(&word.to_string_lossy());
    let lengths = words.iter().map(|word| Ok(length(word)? as u16));
    lengths.collect()
}

/// The bytes of a field with these slot times.
fn field(words: &[OsString]) -> Result<Vec<u8>, String> {
    let words: Vec<_> = words.iter().map(|word| word.to_string_lossy()).collect();
    let words: Vec<_> = words.iter().map(|word| word.as_ref()).collect();
    times(&words).map_err(|complaints| complaints.join("; "))
}

fn by_itself(asked: &Asked, lengths: &[u16]) -> Result<Status, String> {
    match asked.page(lengths) {
        Ok(lines) => {
            put_lines(&lines)?;
            Ok(Status::Done)
        }
        Err(reasons) => {
            let mut lines = vec![format!("{SheetOutOfRange}: a number is out of range")];
            lines.extend(reasons.iter().map(|reason| format!("    {reason}")));
            put_lines(&lines)?;
            Ok(Status::Refused)
        }
    }
}

fn of_file(input: &Input, form: Form, times: Option<&[u8]>) -> Result<Status, String> {
    match taken(NAME, input, &input.read(MOST)?, form) {
        Ok(source) => show(source, times),
        Err(complaints) => {
            say(&complaints);
            Ok(Status::Complaints)
        }
    }
}

/// The sheet of a plan, with other slot times if they are given; or why it is refused, with these or before.
fn show(mut source: Source, times: Option<&[u8]>) -> Result<Status, String> {
    let mut judged = judge(source.bytes());
    if let (Some(times), true) = (times, judged.verdict.is_accepted()) {
        source = Source::file(source.name, with_times(&judged.held, times));
        judged = judge(source.bytes());
    }
    if !judged.verdict.is_accepted() {
        put_lines(&page(&source).0)?;
        return Ok(Status::Refused);
    }
    let mut lines = vec![judged.verdict.to_string(), String::new()];
    lines.extend(of_plan(&Plan::of(&judged.held), times.is_none()));
    put_lines(&lines)?;
    Ok(Status::Done)
}
