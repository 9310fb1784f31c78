//! What was reached, and how often.

use crate::both::Answered;
use crate::counter_tally::CounterTally;
use crate::decided::ByTime;
use crate::field_tally::{row, RepliesTally, TimesTally, VERDICTS, WHOLE};
use crate::fields::split;
use crate::sheets::Sheet;
use crate::turn_tally::TurnTally;
use crate::{replies, times};
use spwd::{Answer, Record};
use std::fmt;

#[derive(Default)]
pub struct Tally {
    pub files: u64,
    pub events: u64,
    pub clears: u64,
    pub lent: u64,
    verdicts: [u64; VERDICTS],
    times: TimesTally,
    replies: RepliesTally,
    refusals: [u64; 31],
    kinds: [u64; 7],
    /// Of the status of replies that were taken.
    classes: [u64; 3],
    readings: [u64; 2],
    pub counter: CounterTally,
    by_time: [u64; ByTime::ALL.len()],
    pub turns: TurnTally,
    /// Refused, accepted: with the same routers each way, and with others on the reply's.
    sheets: [u64; 2],
    two_way_sheets: [u64; 2],
    /// Transactions with number 0 after number 65,535.
    pub rounds: u64,
    /// Plans that were drawn to be accepted and were not.
    pub spoilt: u64,
}

impl Tally {
    pub fn verdict(&mut self, verdict: [u32; 5], file: &[u8]) {
        let (fields, rest) = split(file);
        let (number, place) = (verdict[0] as usize, verdict[1] as usize);
        self.files += 1;
        self.verdicts[number] += 1;
        match number {
            1 => {}
            2..=11 => {
                let (before, judged) = at(&fields, rest, place);
                self.times.field(number, before, judged);
                self.replies.field(number, before, judged);
            }
            _ => {
                self.times.whole(number, &fields);
                self.replies.whole(verdict, &fields);
            }
        }
    }

    pub fn event(&mut self, answer: &Answered, records: &[Record]) {
        self.events += 1;
        match *answer {
            Err(number) => self.refusals[usize::from(number)] += 1,
            Ok(Answer::Ended(ended)) => self.classes[usize::from(ended.status_class)] += 1,
            Ok(Answer::Told(late)) => self.readings[usize::from(late)] += 1,
            Ok(Answer::Recorded(_) | Answer::Joined(_)) => {}
        }
        for record in records {
            self.kinds[usize::from(record.kind)] += 1;
        }
    }

    pub fn by_time(&mut self, decided: &[ByTime]) {
        for &what in decided {
            self.by_time[what as usize] += 1;
        }
    }

    /// The number of an answer of writing out.
    pub fn written(&mut self, number: u8) {
        if number != 0 {
            self.refusals[usize::from(number)] += 1;
        }
    }

    /// So many transactions started under a plan with replies.
    pub fn started_with_replies(&mut self, timed: bool, count: usize) {
        self.replies.started(timed, count);
    }

    pub fn sheet(&mut self, sheet: &Sheet, accepted: bool) {
        let counts = match sheet.command_routers == sheet.reply_routers {
            true => &mut self.sheets,
            false => &mut self.two_way_sheets,
        };
        counts[usize::from(accepted)] += 1;
    }

    /// The verdicts on a whole file that were given only where it has this tag, so many times each.
    fn never_without(&self, tag: u8, with: &[u64; VERDICTS]) -> Vec<String> {
        let never = WHOLE.into_iter();
        let never = never.filter(|&number| self.verdicts[number] == with[number]);
        never
            .map(|number| format!("verdict {number} without a 0{tag} was not reached"))
            .collect()
    }

    /// What was to be reached and was not, or the other way round.
    pub fn missing(&self) -> Vec<String> {
        let mut missing = Vec::new();
        let mut want = |name: &str, counts: &[u64], first: usize, last: usize| {
            let never = (first..=last).filter(|&number| counts[number] == 0);
            missing.extend(never.map(|number| format!("{name} {number} was not reached")));
        };
        want("verdict", &self.verdicts, 0, VERDICTS - 1);
        want("refusal", &self.refusals, 20, 30);
        want("record kind", &self.kinds, 1, 5);
        want("class of status", &self.classes, 0, 2);
        want("reading", &self.readings, 0, 1);
        want("sheet", &self.sheets, 0, 1);
        want("sheet of two ways", &self.two_way_sheets, 0, 1);
        want("number after 65535", &[self.rounds], 0, 0);
        if self.kinds[6] != 0 {
            missing.push("record kind 6 occurred: no accepted plan leaves room for it".to_owned());
        }
        if self.spoilt != 0 {
            let spoilt = self.spoilt;
            missing.push(format!("{spoilt} plans drawn to be accepted were refused"));
        }
        missing.extend(self.never_without(times::TAG, &self.times.tag.verdicts));
        missing.extend(self.never_without(replies::TAG, &self.replies.tag.verdicts));
        missing.extend(self.times.missing());
        missing.extend(self.replies.missing());
        missing.extend(self.turns.missing());
        missing.extend(self.counter.missing());
        for (what, name) in ByTime::ALL {
            if self.by_time[what as usize] == 0 {
                missing.push(format!("no request was {name}"));
            }
        }
        missing
    }
}

/// The field that begins at this place of the file, or the rest that is no field, and the field before it.
fn at<'a>(fields: &'a [Vec<u8>], rest: &'a [u8], place: usize) -> (&'a [u8], &'a [u8]) {
    let mut start = 0;
    let mut before = &[][..];
    for field in fields {
        if start == place {
            return (before, field);
        }
        start += field.len();
        before = field;
    }
    (before, rest)
}

impl fmt::Display for Tally {
    fn fmt(&self, formatter: &mut fmt::Formatter<'_>) -> fmt::Result {
        writeln!(
            formatter,
            "{} files, {} events, {} clears, five numbers lent {} times",
            self.files, self.events, self.clears, self.lent
        )?;
        writeln!(formatter, "verdicts  {}", row(&self.verdicts, 0))?;
        write!(formatter, "{}{}", self.times, self.replies)?;
        writeln!(formatter, "refusals  {}", row(&self.refusals, 20))?;
        for (what, name) in ByTime::ALL {
            writeln!(formatter, "  {name}: {}", self.by_time[what as usize])?;
        }
        writeln!(
            formatter,
            "kinds     {} (6 cannot happen with an accepted plan)",
            row(&self.kinds, 1)
        )?;
        write!(formatter, "{}", self.turns)?;
        writeln!(formatter, "classes   {}", row(&self.classes, 0))?;
        writeln!(formatter, "readings  {}", row(&self.readings, 0))?;
        write!(formatter, "{}", self.counter)?;
        writeln!(formatter, "number 0 after number 65535: {}", self.rounds)?;
        let ([refused, accepted], [refused2, accepted2]) = (self.sheets, self.two_way_sheets);
        writeln!(
            formatter,
            "sheets    {accepted} accepted, {refused} refused; of two ways {accepted2}, {refused2}"
        )
    }
}
