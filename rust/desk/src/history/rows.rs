//! A section drawn in rows of time-codes: above the time-codes, below them a lane for each initiator, with the bars of its transactions and
//! the line of its waiting requests.

use crate::history::chart::{Bar, Column, End, Event, Section, TimeCode, Track, What};
use crate::history::shapes::{
    flag, given_up, red, refused, reply, small, titled, waiting, PITCH, RED,
};
use crate::html::element::{element, Element};
use crate::html::style::colour;
use crate::html::svg::{fitted, line, rect, svg, text, PAPER};
use crate::words;

/// Columns to a row, and how wide they and the names of the lanes are.
pub const ROW: usize = 16;
const LABEL: f64 = 80.0;
const WIDE: f64 = (PAPER - LABEL - 1.0) / ROW as f64;

/// How high the time-codes are, what the box reports between them, and a lane: three rows of eight lanes are a page.
const HEAD: f64 = 50.0;
const BOX: f64 = 16.0;
const LANE: f64 = 36.0;
/// Where things stand in a lane: a bar, its middle and what is written above it, requests that wait, and what is refused.
const BAR: (f64, f64) = (10.0, 18.0);
const MIDDLE: f64 = (BAR.0 + BAR.1) / 2.0;
const ABOVE: f64 = 5.0;
const WAITING: f64 = 20.5;
const REFUSED: f64 = 30.6;

/// All rows of a section; none where there is no plan, and so no lane.
pub fn rows(section: &Section) -> Vec<Element> {
    let columns = section.columns.len();
    let columns = if section.lanes.is_empty() { 0 } else { columns };
    let firsts = (0..columns).step_by(ROW);
    firsts.map(|first| Row { section, first }.drawn()).collect()
}

struct Row<'a> {
    section: &'a Section,
    first: usize,
}

impl<'a> Row<'a> {
    fn columns(&self) -> &'a [Column] {
        let columns = &self.section.columns;
        &columns[self.first..columns.len().min(self.first + ROW)]
    }

    fn last(&self) -> usize {
        self.first + self.columns().len() - 1
    }

    fn has(&self, column: usize) -> bool {
        (self.first..=self.last()).contains(&column)
    }

    /// The left end of a column of this row; of the one behind the last, the right end of that.
    fn left(&self, column: usize) -> f64 {
        LABEL + WIDE * (column - self.first) as f64
    }

    fn right(&self) -> f64 {
        self.left(self.last() + 1)
    }

    /// Where an event of a column stands among those on its track.
    fn at(&self, column: usize, event: usize) -> f64 {
        let events = &self.section.columns[column].events;
        let track = events[event].track();
        let own = |events: &[Event]| events.iter().filter(|event| event.track() == track).count();
        let (before, all) = (own(&events[..event]), own(events));
        self.left(column) + WIDE * (before + 1) as f64 / (all + 1) as f64
    }

    /// Whether something stands in no lane.
    fn boxed(&self) -> bool {
        let mut events = self.columns().iter().flat_map(|column| &column.events);
        events.any(|event| event.track() == Track::Box)
    }

    fn top(&self) -> f64 {
        HEAD + if self.boxed() { BOX } else { 0.0 }
    }

    fn lane(&self, lane: usize) -> f64 {
        self.top() + LANE * lane as f64
    }

    fn bottom(&self) -> f64 {
        self.lane(self.section.lanes.len())
    }

    fn drawn(&self) -> Element {
        let label = "time-codes from left to right, a lane for each initiator";
        let columns = self.first..=self.last();
        svg(PAPER, self.bottom() + 4.0, label)
            .add_all(columns.clone().map(|column| self.grid(column)))
            .add_all(self.labels())
            .add_all(columns.clone().flat_map(|column| self.head(column)))
            .add_all(self.boxes())
            .add_all((0..self.section.lanes.len()).flat_map(|lane| self.line(lane)))
            .add_all(self.section.bars.iter().flat_map(|bar| self.bar(bar)))
            .add_all(columns.flat_map(|column| self.marks(column)))
    }

    /// The left end of a column; heavy and red where the time-code is not the next one.
    fn grid(&self, column: usize) -> Element {
        let x = self.left(column);
        let time_code = self.section.columns[column].time_code.as_ref();
        let grid = line((x, 0.0), (x, self.bottom()));
        if time_code.is_some_and(|time_code| time_code.out_of_sequence) {
            return grid.with("stroke", RED).with("stroke-width", 2);
        }
        grid.class("grid")
    }

    /// What stands at the left, and a line above each lane.
    fn labels(&self) -> Vec<Element> {
        let mut labels: Vec<_> = [(6.0, "time-code"), (17.0, "slot"), (28.0, "clock")]
            .into_iter()
            .map(|(y, name)| small(0.0, y, 8.0, name).class("from"))
            .collect();
        if self.boxed() {
            labels.push(small(0.0, HEAD + BOX / 2.0, 8.0, "box").class("from"));
        }
        for (lane, &initiator) in self.section.lanes.iter().enumerate() {
            labels.extend(self.label(lane, initiator));
        }
        let end = line((0.0, self.bottom()), (self.right(), self.bottom()));
        labels.push(end.class("axis"));
        labels
    }

    /// The initiator in its colour, and its name.
    fn label(&self, lane: usize, initiator: u8) -> [Element; 4] {
        let y = self.lane(lane);
        let name = self.section.names.get(initiator).unwrap_or_default();
        let name = fitted(name, 8.0, LABEL - 4.0);
        [
            line((0.0, y), (self.right(), y)).class("axis"),
            rect(1.0, y + 5.0, 24.0, 15.0).class(colour(lane)),
            text(13.0, y + 12.5, initiator).class("strong halo"),
            small(0.0, y + 28.0, 8.0, name).class("from"),
        ]
    }

    /// A time-code: its number in the section, its slot, its clock, and what was wrong with it.
    fn head(&self, column: usize) -> Vec<Element> {
        let middle = self.left(column) + WIDE / 2.0;
        let Some(time_code) = &self.section.columns[column].time_code else {
            return vec![small(middle, 17.0, 8.0, "before")];
        };
        let clock = time_code.clock.to_string();
        let size = if clock.len() > 8 { 6.8 } else { 8.0 };
        let own = element("g")
            .with("data-time-code", time_code.number)
            .add(small(middle, 6.0, 7.0, time_code.number))
            .add(text(middle, 17.0, time_code.slot).class("strong"))
            .add(small(middle, 28.0, size, clock));
        let mut head = vec![own];
        head.extend(self.faults(column, time_code));
        head
    }

    fn faults(&self, column: usize, time_code: &TimeCode) -> Vec<Element> {
        let number = time_code.number;
        let interval = match (time_code.early, time_code.late) {
            (true, _) => Some(("early", "data-early")),
            (_, true) => Some(("late", "data-late-time-code")),
            _ => None,
        };
        let sequence = time_code
            .out_of_sequence
            .then_some(("not next", "data-out-of-sequence"));
        let faults = interval.into_iter().chain(sequence).enumerate();
        faults
            .map(|(place, (name, data))| {
                let (x, y) = (self.left(column) + 2.0, 37.0 + 8.0 * place as f64);
                red(x, y, 8.0, name).class("from").with(data, number)
            })
            .collect()
    }

    /// What the box reports in no lane.
    fn boxes(&self) -> Vec<Element> {
        let columns = self.first..=self.last();
        let marks = columns.flat_map(|column| {
            let events = self.section.columns[column].events.iter().enumerate();
            events.filter_map(move |(place, event)| self.boxed_mark(column, place, event))
        });
        marks.collect()
    }

    fn boxed_mark(&self, column: usize, place: usize, event: &Event) -> Option<Element> {
        let (x, y) = (self.at(column, place), HEAD + BOX / 2.0);
        match event {
            Event::Reported => {
                let mark = flag(x, HEAD + 2.0).with("data-reported", "1");
                Some(titled(mark, "a clock reading: the next time-code is late"))
            }
            Event::Refused {
                lane: None,
                what,
                number,
                count,
            } => Some(refusal(x, y, *what, *number, *count)),
            _ => None,
        }
    }

    /// The requests that wait in a lane: those that did when the column began, and those that join in it.
    fn line(&self, lane: usize) -> Vec<Element> {
        let y = self.lane(lane) + WAITING;
        let mut line = Vec::new();
        for column in self.first..=self.last() {
            let own = &self.section.columns[column];
            let before = own.waiting.get(lane).copied().unwrap_or(0);
            let mut x = self.left(column) + 1.5;
            for _ in 0..before {
                line.push(waiting(x, y, false));
                x += PITCH;
            }
            for joined in own.joined.iter().filter(|joined| joined.lane == lane) {
                let key = format!("{}-{}", self.section.lanes[lane], joined.transaction);
                let mark = waiting(x, y, true).with("data-request", key);
                line.push(titled(mark, &joined.words));
                x += PITCH;
            }
        }
        line
    }

    /// The part of a bar that is in this row, and its ends.
    fn bar(&self, bar: &Bar) -> Vec<Element> {
        let (from, to) = (bar.from, self.last_of(bar));
        if from > self.last() || to < self.first {
            return Vec::new();
        }
        let begin = if self.has(from) {
            self.left(from)
        } else {
            LABEL
        };
        let end = match bar.end {
            End::Replied { column, event, .. } if self.has(column) => self.at(column, event),
            _ if self.has(to) => self.left(to + 1),
            _ => self.right(),
        };
        let y = self.lane(bar.lane);
        let area = rect(begin, y + BAR.0, (end - begin).max(1.0), BAR.1 - BAR.0);
        let mut drawn = vec![area.class(colour(bar.lane)).with("stroke-width", 0.8)];
        if self.has(from) {
            drawn.push(self.started(bar, begin, y));
        }
        if self.has(to) {
            drawn.extend(self.ended(bar, end, y));
        }
        drawn
    }

    /// The last column that a bar reaches into.
    fn last_of(&self, bar: &Bar) -> usize {
        match bar.end {
            End::Open => self.section.columns.len().saturating_sub(1),
            End::Late(column) => column.saturating_sub(1).max(bar.from),
            End::Replied { column, .. } => column,
        }
    }

    fn started(&self, bar: &Bar, x: f64, y: f64) -> Element {
        let (number, target) = (bar.transaction, bar.target);
        let which = words::transaction(number, target, bar.length);
        let initiator = self.section.lanes[bar.lane];
        let mark = small(x + 2.0, y + ABOVE, 8.0, format!("{number}→{target}"))
            .class("from halo")
            .with("data-start", self.key(bar));
        titled(mark, format!("initiator {initiator} starts {which}"))
    }

    fn ended(&self, bar: &Bar, x: f64, y: f64) -> Option<Element> {
        let middle = y + MIDDLE;
        match bar.end {
            End::Open => None,
            End::Late(_) => {
                let mark = element("g")
                    .with("data-late", self.key(bar))
                    .add(given_up(x - 1.5, y + BAR.0 - 3.0, y + BAR.1 + 3.0))
                    .add(red(x - 5.0, middle, 8.0, "late").class("to halo"));
                Some(mark)
            }
            End::Replied { status, class, .. } => {
                let mark = element("g")
                    .with("data-reply", self.key(bar))
                    .with("data-class", words::class(class))
                    .add(reply(x, middle, class));
                let status_words = small(x + 6.0, middle, 8.0, status).class("from halo");
                let mark = if status == 0 {
                    mark
                } else {
                    mark.add(status_words)
                };
                let class = words::class(class);
                Some(titled(mark, format!("reply, status {status} ({class})")))
            }
        }
    }

    /// Initiator and number of a transaction.
    fn key(&self, bar: &Bar) -> String {
        format!("{}-{}", self.section.lanes[bar.lane], bar.transaction)
    }

    /// Refusals, and starts that were not made, in their lanes.
    fn marks(&self, column: usize) -> Vec<Element> {
        let own = &self.section.columns[column];
        let events = own.events.iter().enumerate();
        let mut marks: Vec<_> = events
            .filter_map(|(place, event)| self.mark(self.at(column, place), event))
            .collect();
        for (lane, transaction) in own.time_code.iter().flat_map(|code| &code.not_started) {
            let (x, y) = (self.left(column) + 2.0, self.lane(*lane) + ABOVE);
            let key = format!("{}-{transaction}", self.section.lanes[*lane]);
            let mark = red(x, y, 8.0, "not started").class("from halo");
            marks.push(mark.with("data-not-started", key));
        }
        marks
    }

    fn mark(&self, x: f64, event: &Event) -> Option<Element> {
        match event {
            Event::Refused {
                lane: Some(lane),
                what,
                number,
                count,
            } => {
                let y = self.lane(*lane) + REFUSED;
                Some(refusal(x, y, *what, *number, *count))
            }
            _ => None,
        }
    }
}

/// A refusal with its number, and how often.
fn refusal(x: f64, y: f64, what: What, number: u8, count: u64) -> Element {
    let times = match count {
        1 => String::new(),
        _ => format!("×{count}"),
    };
    let (name, row) = (name(what), words::refusal(number));
    let mark = element("g")
        .with("data-refused", number)
        .with("data-count", count)
        .add(refused(x, y, &format!("{number}{times}")));
    titled(
        mark,
        format!("{name}{times}: refused {number}: {}", row.means),
    )
}

pub fn name(what: What) -> &'static str {
    match what {
        What::TimeCode => "time-code",
        What::Request => "request",
        What::Reply => "reply",
        What::Reading => "clock reading",
    }
}
