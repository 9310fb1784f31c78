//! What happened, in the words of a panel.

use crate::fingerprint::fingerprint;
use crate::happening::{Blank, Happening, Holds, Joined, Load, Refused, Wrong};
use crate::judge;
use crate::plan::Plan;
use crate::sheet::Asked;
use crate::turns::{when, Wanted};
use crate::words::{self, Advice, Row};
use spwd::{Ended, Record, Refusal, Verdict, Watchdog};

/// The lines of a happening. With the card, its row follows what asks for something.
pub fn told(happening: &Happening, card: bool) -> Vec<String> {
    let said = Told { card };
    match happening {
        Happening::Wrong(wrong) => said.wrong(wrong),
        Happening::Load(load) => said.load(load),
        Happening::Clear => vec!["clear: there is no plan in the box".to_string()],
        Happening::TimeCode { byte, answer, .. } => said.time_code(*byte, answer),
        Happening::Request {
            wanted,
            kind,
            answer,
        } => said.request(wanted, *kind, answer),
        Happening::Reply {
            initiator,
            transaction,
            answer,
        } => said.reply(*initiator, *transaction, answer),
        Happening::Reading { clock, answer } => said.reading(*clock, answer),
        Happening::Out(answer) => said.out(answer),
        Happening::Watchdog(watchdog) => vec![five("watchdog", watchdog)],
        Happening::SetWatchdog(watchdog) => vec![five("watchdog set", watchdog)],
        Happening::Sheet { asked, length } => vec![time(asked, *length)],
        Happening::Next { question, answer } => match answer {
            Ok(lines) => lines.clone(),
            Err(refused) => said.refused_for(&question.to_string(), refused),
        },
        Happening::Blank(blank) => vec![blank_or_not(blank)],
        Happening::Holds(holds) => vec![held_or_not(holds)],
    }
}

struct Told {
    card: bool,
}

impl Told {
    fn wrong(&self, wrong: &Wrong) -> Vec<String> {
        let (line, what, text) = (wrong.line, wrong.what, &wrong.text);
        let mut lines = vec![format!("line {line}: {what}: {text}")];
        lines.extend(wrong.why.iter().map(|why| format!("    {why}")));
        lines
    }

    fn load(&self, load: &Load) -> Vec<String> {
        let verdict = &load.verdict;
        let none = if verdict.is_accepted() {
            ""
        } else {
            "; there is no plan in the box"
        };
        let mut lines = vec![format!("load: {}{none}", verdict_in_words(verdict))];
        lines.extend(self.to_do(&words::verdict(verdict.number())));
        lines
    }

    fn time_code(&self, byte: u8, answer: &Result<Vec<Record>, Refusal>) -> Vec<String> {
        let records = match answer {
            Err(refusal) => return self.refused(&format!("time-code {byte}"), *refusal),
            Ok(records) => records,
        };
        if records.is_empty() {
            let slot = byte % 64;
            return vec![format!("slot {slot}: nothing to report")];
        }
        let mut lines = Vec::new();
        for record in records {
            let says = words::record_on_panel(record);
            lines.push(format!("slot {}: {says}", record.value));
            if record.kind != Record::STARTED {
                lines.extend(self.kind(record.kind));
            }
        }
        lines
    }

    fn request(&self, wanted: &Wanted, kind: u8, answer: &Result<Joined, Refused>) -> Vec<String> {
        let Wanted {
            initiator,
            target,
            length,
        } = *wanted;
        let what = format!("{}, {}", words::request_kind(kind), words::bytes(length));
        match answer {
            Ok(joined) => {
                let start = joined.start.map(|(slot, count)| {
                    let when = when(slot, count);
                    format!("; starts {when}, if all time-codes are in sequence")
                });
                let (transaction, start) = (joined.transaction, start.unwrap_or_default());
                vec![format!(
                    "request: initiator {initiator} number {transaction} to target {target}, {what}: waiting{start}"
                )]
            }
            Err(refused) => {
                let what = format!("request: initiator {initiator} to target {target}, {what}");
                self.refused_for(&what, refused)
            }
        }
    }

    fn reply(
        &self,
        initiator: u8,
        transaction: u16,
        answer: &Result<Ended, Refusal>,
    ) -> Vec<String> {
        match answer {
            Ok(ended) => {
                let which = words::transaction(transaction, ended.target, ended.length);
                let (status, class) = (ended.status, words::class(ended.status_class));
                vec![format!(
                    "reply: initiator {initiator} {which}: ended, status {status} ({class})"
                )]
            }
            Err(refusal) => self.refused(
                &format!("reply: initiator {initiator} number {transaction}"),
                *refusal,
            ),
        }
    }

    fn reading(&self, clock: u32, answer: &Result<bool, Refusal>) -> Vec<String> {
        match answer {
            Ok(true) => vec![format!("clock {clock}: the next time-code is late")],
            Ok(false) => vec![format!("clock {clock}: nothing to report")],
            Err(refusal) => self.refused(&format!("clock {clock}"), *refusal),
        }
    }

    fn out(&self, answer: &Result<usize, Refusal>) -> Vec<String> {
        match answer {
            Ok(size) => vec![format!("the plan written out: {size} bytes")],
            Err(refusal) => self.refused("writing out", *refusal),
        }
    }

    fn refused(&self, what: &str, refusal: Refusal) -> Vec<String> {
        let why = None;
        self.refused_for(what, &Refused { refusal, why })
    }

    fn refused_for(&self, what: &str, refused: &Refused) -> Vec<String> {
        let mut lines = vec![words::refused(what, refused.refusal)];
        lines.extend(refused.why.iter().map(|why| format!("    {why}")));
        lines.extend(self.to_do(&words::refusal(refused.refusal.number())));
        lines
    }

    /// What to do, if the card was asked for.
    fn to_do(&self, row: &Row) -> Option<String> {
        self.card.then(|| row.advice())
    }

    /// What a record's kind says, if the card was asked for.
    fn kind(&self, kind: u8) -> Vec<String> {
        let row = words::record(kind);
        let says = self.card.then(|| format!("    kind {kind}: {}", row.means));
        says.into_iter().chain(self.to_do(&row)).collect()
    }
}

/// The printed line, what it means, and what follows the number.
pub fn verdict_in_words(verdict: &Verdict) -> String {
    let row = words::verdict(verdict.number());
    let place = judge::place(verdict).map_or(String::new(), |place| format!(" ({place})"));
    format!("{verdict}: {}{place}", row.means)
}

/// A sheet by itself: its total, or what is out of range.
fn time(asked: &Asked, length: u16) -> String {
    let (routers, rate) = (words::routers(asked.routers), asked.rate);
    let what = format!("sheet: {routers}, {rate} Mbit/s, {}", words::bytes(length));
    match asked.sheet(length) {
        Ok(sheet) => format!("{what}: {} ns", sheet.total),
        Err(refusal) => {
            let why = asked.out_of_range(&[length]).join("; ");
            format!("{what}: {refusal}: {why}")
        }
    }
}

/// The five numbers; of seen and reported 0 is no and everything else is yes.
fn five(name: &str, watchdog: &Watchdog) -> String {
    let yes = |number: u32| if number == 0 { "no" } else { "yes" };
    let (seen, reported) = (yes(watchdog.seen), yes(watchdog.reported));
    let Watchdog {
        last,
        least,
        greatest,
        ..
    } = watchdog;
    format!("{name}: last clock {last}, seen {seen}, reported {reported}, least {least}, greatest {greatest}")
}

fn blank_or_not(blank: &Blank) -> String {
    match blank {
        Blank::Yes => "blank: every number of the box is that of a clear".to_string(),
        Blank::No { held, five: own } if held.is_empty() => {
            let own = five("no plan, but the watchdog's five numbers", own);
            format!("blank: no: the box is not blank: {own}")
        }
        Blank::No { held, .. } => {
            let (print, counts) = (fingerprint(held), counts(held));
            format!(
                "blank: no: the box is not blank: a plan is in it, fingerprint {print} ({counts})"
            )
        }
    }
}

/// Of a plan that was written out, as a verdict says them.
fn counts(held: &[u8]) -> String {
    let plan = Plan::of(held);
    let (devices, links) = (plan.devices.len(), plan.links.len());
    let (paths, entries) = (plan.paths.len(), plan.entries.len());
    format!("devices {devices}, links {links}, paths {paths}, entries {entries}")
}

fn held_or_not(holds: &Holds) -> String {
    match holds {
        Holds::Yes(held) => {
            let print = fingerprint(held);
            format!("holds: the box holds the plan of this file, fingerprint {print}")
        }
        Holds::NoPlan => "holds: no: there is no plan in the box".to_string(),
        Holds::Refused(verdict) => {
            let verdict = verdict_in_words(verdict);
            format!("holds: no: this file is refused, and no box holds it: {verdict}")
        }
        Holds::Other([own, other]) => {
            let (own, other) = (fingerprint(own), fingerprint(other));
            format!("holds: no: the box holds another plan, fingerprint {own}; that of this file has {other}")
        }
    }
}
