//! A chart gathered from what happened, line by line: records and answers of the box, and nothing else.

use crate::fingerprint::fingerprint;
use crate::happening::{Happening, Load, Wrong};
use crate::history::chart::{
    Bar, Chart, Column, Counts, Cut, End, Event, Joined, Said, Section, TimeCode, What, SAID,
    SECTIONS, TIME_CODES, WRONG,
};
use crate::plan::Plan;
use crate::told::{told, verdict_in_words};
use crate::turns::Wanted;
use crate::words;
use spwd::{Ended, Record, ERROR, SUCCESS};

/// A chart as far as the script was played.
#[derive(Default)]
pub struct Gathered {
    chart: Chart,
    loads: u64,
    /// That are drawn.
    time_codes: usize,
    /// Of the present section: whether its time-codes are drawn no more, the last time-code, and each lane.
    full: bool,
    last: Option<(u64, u8)>,
    lanes: Vec<Lane>,
}

#[derive(Clone, Default)]
struct Lane {
    waiting: u64,
    /// The bar that is under way.
    open: Option<usize>,
}

impl Gathered {
    pub fn new() -> Self {
        let mut gathered = Self::default();
        gathered.chart.sections.push(Section::default());
        gathered
    }

    /// The chart. The section before the first load is left out if nothing happened in it.
    pub fn chart(mut self) -> Chart {
        let idle = |section: &Section| {
            matches!(section.cut, Cut::Begin)
                && section.said.is_empty()
                && section.counts == Counts::default()
        };
        self.chart.sections.retain(|section| !idle(section));
        self.chart
    }

    pub fn add(&mut self, happening: Happening) {
        let said = listed(&happening);
        match happening {
            Happening::Wrong(wrong) => self.wrong(wrong),
            Happening::Load(load) => self.load(load),
            Happening::Clear => self.cut(Section {
                cut: Cut::Clear,
                ..Section::default()
            }),
            event => self.took(event),
        }
        self.say(said);
    }

    /// An event that the box took or refused. What was only asked of it is not drawn.
    fn took(&mut self, event: Happening) {
        let refused = match event {
            Happening::TimeCode {
                byte,
                clock,
                answer,
            } => match answer {
                Ok(records) => return self.time_code(byte % 64, clock, &records),
                Err(refusal) => (None, What::TimeCode, refusal),
            },
            Happening::Request {
                wanted,
                kind,
                answer,
            } => match answer {
                Ok(joined) => return self.request(&wanted, kind, joined.transaction),
                Err(refused) => (Some(wanted.initiator), What::Request, refused.refusal),
            },
            Happening::Reply {
                initiator,
                transaction,
                answer,
            } => match answer {
                Ok(ended) => return self.reply(initiator, transaction, &ended),
                Err(refusal) => (Some(initiator), What::Reply, refusal),
            },
            Happening::Reading { answer, .. } => match answer {
                Ok(late) => return self.reading(late),
                Err(refusal) => (None, What::Reading, refusal),
            },
            _ => return,
        };
        let (initiator, what, refusal) = refused;
        self.refused(initiator, what, refusal.number());
    }

    fn wrong(&mut self, wrong: Wrong) {
        if self.chart.wrong.len() < WRONG {
            self.chart.wrong.push(wrong);
        } else {
            self.chart.more_wrong += 1;
        }
    }

    fn load(&mut self, load: Load) {
        self.loads += 1;
        let accepted = load.verdict.is_accepted();
        self.cut(Section {
            cut: Cut::Load {
                number: self.loads,
                accepted,
                verdict: verdict_in_words(&load.verdict),
                fingerprint: accepted.then(|| fingerprint(&load.held)),
                file: load.file,
            },
            lanes: Plan::of(&load.held).initiators(),
            names: load.names,
            ..Section::default()
        });
    }

    /// Begins a section. Of too many, what happens is only counted.
    fn cut(&mut self, section: Section) {
        self.lanes = vec![Lane::default(); section.lanes.len()];
        self.last = None;
        self.full = self.time_codes >= TIME_CODES;
        if self.chart.sections.len() < SECTIONS {
            self.chart.sections.push(section);
        } else {
            self.chart.more += 1;
        }
    }

    /// The present section; nothing behind the last one that is kept.
    fn section(&mut self) -> Option<&mut Section> {
        let kept = self.chart.more == 0;
        self.chart.sections.last_mut().filter(|_| kept)
    }

    /// Counts what happened, and whether it is drawn.
    fn count(&mut self, count: impl Fn(&mut Counts)) {
        let full = self.full;
        if let Some(section) = self.section() {
            count(&mut section.counts);
            if full {
                count(&mut section.left_out);
            }
        }
    }

    /// The column that is drawn now; before the first time-code of a section one without a time-code.
    fn column(&mut self) -> Option<&mut Column> {
        let empty = self.section()?.columns.is_empty();
        if empty && !self.full {
            self.begin(None);
        }
        let drawn = !self.full;
        self.section()?.columns.last_mut().filter(|_| drawn)
    }

    fn begin(&mut self, time_code: Option<TimeCode>) {
        self.full |= self.time_codes >= TIME_CODES;
        if self.full {
            return;
        }
        self.time_codes += usize::from(time_code.is_some());
        let waiting = self.lanes.iter().map(|lane| lane.waiting).collect();
        if let Some(section) = self.section() {
            section.columns.push(Column {
                time_code,
                waiting,
                joined: Vec::new(),
                events: Vec::new(),
            });
        }
    }

    fn lane(&mut self, initiator: u8) -> Option<usize> {
        let section = self.section()?;
        let mut lanes = section.lanes.iter();
        lanes.position(|&own| own == initiator)
    }

    fn time_code(&mut self, slot: u8, clock: u32, records: &[Record]) {
        let number = self.last.map_or(0, |(number, _)| number) + 1;
        self.last = Some((number, slot));
        let has = |kind| records.iter().any(|record| record.kind == kind);
        let time_code = TimeCode {
            number,
            slot,
            clock,
            early: has(Record::EARLY),
            late: has(Record::LATE),
            out_of_sequence: has(Record::OUT_OF_SEQUENCE),
            not_started: Vec::new(),
        };
        self.begin(Some(time_code));
        self.count(|counts| counts.time_codes += 1);
        records.iter().for_each(|record| self.record(record));
        let waiting: Vec<_> = self.lanes.iter().map(|lane| lane.waiting).collect();
        if let Some(column) = self.column() {
            column.waiting = waiting;
        }
    }

    fn record(&mut self, record: &Record) {
        let lane = self.lane(record.initiator);
        match (record.kind, lane) {
            (Record::EARLY, _) => self.count(|counts| counts.early += 1),
            (Record::LATE, _) => self.count(|counts| counts.late_time_codes += 1),
            (Record::OUT_OF_SEQUENCE, _) => self.count(|counts| counts.out_of_sequence += 1),
            (Record::TRANSACTION_LATE, Some(lane)) => {
                self.count(|counts| counts.late += 1);
                let column = self.at();
                self.end(lane, record, End::Late(column));
            }
            (Record::STARTED, Some(lane)) => {
                self.count(|counts| counts.starts += 1);
                self.start(lane, record);
            }
            (Record::STILL_LIVE, Some(lane)) => {
                self.count(|counts| counts.not_started += 1);
                let time_code = self.column().and_then(|column| column.time_code.as_mut());
                if let Some(time_code) = time_code {
                    time_code.not_started.push((lane, record.transaction));
                }
            }
            _ => {}
        }
    }

    /// The present column by its number.
    fn at(&mut self) -> usize {
        let columns = self.section().map_or(0, |section| section.columns.len());
        columns.saturating_sub(1)
    }

    fn start(&mut self, lane: usize, record: &Record) {
        self.lanes[lane].waiting = self.lanes[lane].waiting.saturating_sub(1);
        self.lanes[lane].open = self.bar(lane, record);
    }

    /// A new bar, if it is drawn.
    fn bar(&mut self, lane: usize, record: &Record) -> Option<usize> {
        if self.full {
            return None;
        }
        let from = self.at();
        let section = self.section()?;
        section.bars.push(Bar {
            lane,
            transaction: record.transaction,
            target: record.target,
            length: record.length,
            from,
            end: End::Open,
        });
        Some(section.bars.len() - 1)
    }

    /// Ends the bar of a lane, if that is drawn; one whose start was not seen begins where it ends.
    fn end(&mut self, lane: usize, record: &Record, end: End) {
        if self.full {
            return;
        }
        let bar = self.lanes[lane].open.take();
        let bar = bar.or_else(|| self.bar(lane, record));
        let bars = self.section().map(|section| &mut section.bars);
        if let Some(bar) = bars.zip(bar).and_then(|(bars, bar)| bars.get_mut(bar)) {
            bar.end = end;
        }
    }

    fn request(&mut self, wanted: &Wanted, kind: u8, transaction: u16) {
        self.count(|counts| counts.requests += 1);
        let Some(lane) = self.lane(wanted.initiator) else {
            return;
        };
        let which = words::transaction(transaction, wanted.target, wanted.length);
        let words = format!("request {which}, {}", words::request_kind(kind));
        // A column that begins now begins with what waited before.
        if let Some(column) = self.column() {
            column.joined.push(Joined {
                lane,
                transaction,
                words,
            });
        }
        self.lanes[lane].waiting += 1;
    }

    fn reply(&mut self, initiator: u8, transaction: u16, ended: &Ended) {
        let class = match ended.status_class {
            SUCCESS => 0,
            ERROR => 1,
            _ => 2,
        };
        self.count(|counts| counts.replies[class] += 1);
        let Some(lane) = self.lane(initiator) else {
            return;
        };
        let event = self.event(Event::Reply(lane));
        let end = End::Replied {
            column: self.at(),
            event,
            status: ended.status,
            class: ended.status_class,
        };
        let record = Record {
            kind: Record::STARTED,
            initiator,
            target: ended.target,
            value: 0,
            transaction,
            length: ended.length,
        };
        self.end(lane, &record, end);
    }

    fn reading(&mut self, late: bool) {
        if late {
            self.count(|counts| counts.reported += 1);
            self.event(Event::Reported);
        }
    }

    /// Several of one kind in a column are one event.
    fn refused(&mut self, initiator: Option<u8>, what: What, number: u8) {
        self.count(|counts| counts.refused += 1);
        let lane = initiator.and_then(|initiator| self.lane(initiator));
        let events = self.column().map(|column| &mut column.events);
        let same = |event: &&mut Event| {
            matches!(event, Event::Refused { lane: own, what: kind, number: refusal, .. }
                if (*own, *kind, *refusal) == (lane, what, number))
        };
        match events.and_then(|events| events.iter_mut().find(same)) {
            Some(Event::Refused { count, .. }) => *count += 1,
            _ => {
                self.event(Event::Refused {
                    lane,
                    what,
                    number,
                    count: 1,
                });
            }
        }
    }

    /// Puts an event into the present column; its place there.
    fn event(&mut self, event: Event) -> usize {
        let Some(column) = self.column() else {
            return 0;
        };
        column.events.push(event);
        column.events.len() - 1
    }

    fn say(&mut self, lines: Vec<String>) {
        let time_code = self.last;
        let Some(section) = self.section() else {
            return;
        };
        for words in lines {
            if section.said.len() < SAID {
                section.said.push(Said { time_code, words });
            } else {
                section.unsaid += 1;
            }
        }
    }
}

/// The panel's words of what asks for something, or was asked: all but starts, replies, requests that wait, and what has nothing to report.
fn listed(happening: &Happening) -> Vec<String> {
    let quiet = match happening {
        Happening::TimeCode {
            answer: Ok(records),
            ..
        } => return asking(records),
        Happening::Request { answer, .. } => answer.is_ok(),
        Happening::Reply { answer, .. } => answer.is_ok(),
        Happening::Reading { answer, .. } => matches!(answer, Ok(false)),
        Happening::Out(answer) => answer.is_ok(),
        Happening::Wrong(_) | Happening::Load(_) | Happening::Clear => true,
        Happening::Watchdog(_) | Happening::Sheet { .. } => true,
        Happening::Next { answer, .. } => answer.is_ok(),
        Happening::TimeCode { answer: Err(_), .. } => false,
        Happening::SetWatchdog(_) | Happening::Blank(_) | Happening::Holds(_) => false,
    };
    if quiet {
        return Vec::new();
    }
    told(happening, false)
}

/// Records that are no start, in words.
fn asking(records: &[Record]) -> Vec<String> {
    let records = records.iter();
    let asking = records.filter(|record| record.kind != Record::STARTED);
    asking.map(words::record_on_panel).collect()
}
