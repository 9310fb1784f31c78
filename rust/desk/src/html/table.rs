//! The table of sixty-four slots: a row for each initiator in its colour, in four blocks of sixteen slots. A bar is an entry; where it runs on
//! over the end of a block, it is pointed there and goes on at the beginning of the next, after slot 63 in slot 0.

use crate::fields::{numbers, Entry};
use crate::grid::{letter, BLOCK};
use crate::html::bars::{bars, has_place, parts, Bar, Part};
use crate::html::document::section;
use crate::html::element::{element, words, Element};
use crate::html::marks::Marks;
use crate::html::once::Once;
use crate::html::style::{colour, initiators};
use crate::html::svg::{drawn, fitted, group, line, rect, short, svg, text, width, PAPER};
use crate::names::Names;
use crate::plan::Plan;
use spwd::SLOTS;

/// Units of the names of rows, of a slot, of the heading, and of a lane; what is free above and below a bar, and how far it is pointed.
const NAME: f64 = 104.0;
const SLOT: f64 = (PAPER - NAME) / BLOCK as f64;
const HEAD: f64 = 17.0;
const LANE: f64 = 22.0;
const FREE: f64 = 2.0;
const POINT: f64 = 6.0;
const SIZE: f64 = 11.0;

/// An initiator with its bars.
struct Row<'a> {
    initiator: u8,
    bars: Vec<Bar<'a>>,
}

impl Row<'_> {
    fn lanes(&self) -> usize {
        let lanes = self.bars.iter().map(|bar| bar.lane + 1);
        lanes.max().unwrap_or(1)
    }

    fn height(&self) -> f64 {
        LANE * self.lanes() as f64
    }
}

/// What the rows share.
struct Table<'a> {
    rows: Vec<Row<'a>>,
    names: &'a Names,
    marks: &'a Marks,
    /// Targets of entries that are short of room, each with its letter.
    sets: Vec<&'a [u8]>,
    /// The ids of the entries, in the order of rows and bars.
    ids: Vec<Vec<String>>,
}

pub fn table<'a>(plan: &'a Plan<'a>, names: &'a Names, marks: &'a Marks) -> Element {
    let table = Table::of(plan, names, marks);
    let section = section("table", "Table of sixty-four slots");
    if plan.entries.is_empty() {
        return section.add(words("p", "No entry: nobody may ever start."));
    }
    let blocks = (0..usize::from(SLOTS) / BLOCK).map(|block| table.block(block));
    section
        .add_all(blocks)
        .add(words("p", LEGEND).class("small"))
        .add_all(table.letters())
        .add_all(nowhere(plan, marks))
}

const LEGEND: &str = "A row is an initiator, a bar one of its entries: it may start in the bar's first slot, to one of the targets written in it. \
A pointed bar runs on in the next block, after slot 63 in slot 0.";

impl<'a> Table<'a> {
    fn of(plan: &'a Plan<'a>, names: &'a Names, marks: &'a Marks) -> Self {
        let rows: Vec<_> = initiators(plan)
            .into_iter()
            .map(|initiator| Row {
                initiator,
                bars: bars(plan.entries_of(initiator)),
            })
            .collect();
        let mut once = Once::default();
        let mut id = |bar: &Bar| once.name(key(&bar.entry));
        let ids = rows
            .iter()
            .map(|row| row.bars.iter().map(&mut id).collect())
            .collect();
        let mut table = Self {
            rows,
            names,
            marks,
            sets: Vec::new(),
            ids,
        };
        table.sets = table.short_of_room();
        table
    }

    fn block(&self, block: usize) -> Element {
        let heights: f64 = self.rows.iter().map(Row::height).sum();
        let bottom = HEAD + heights;
        let label = format!("slots {} to {}", block * BLOCK, (block + 1) * BLOCK - 1);
        let mut drawing = svg(PAPER, bottom + 2.0, &label)
            .class("block")
            .add(self.lines(bottom))
            .add_all(self.heading(block, bottom));
        let mut top = HEAD;
        for place in 0..self.rows.len() {
            drawing = drawing.add(self.row(place, block, top));
            top += self.rows[place].height();
        }
        drawing
    }

    /// Lines between slots and between rows.
    fn lines(&self, bottom: f64) -> Element {
        let mut lines = group("grid");
        for slot in 0..=BLOCK {
            let x = NAME + SLOT * slot as f64;
            lines = lines.add(line((x, HEAD), (x, bottom)));
        }
        let mut y = HEAD;
        for row in &self.rows {
            lines = lines.add(line((0.0, y), (PAPER, y)));
            y += row.height();
        }
        lines.add(line((0.0, y), (PAPER, y)))
    }

    /// The numbers of the slots; the slot of a clash is framed down to the bottom.
    fn heading(&self, block: usize, bottom: f64) -> Vec<Element> {
        let mut heading = vec![text(0.0, HEAD / 2.0, "slot").class("from")];
        for place in 0..BLOCK {
            let slot = block * BLOCK + place;
            let left = NAME + SLOT * place as f64;
            let number = text(left + SLOT / 2.0, HEAD / 2.0, slot);
            if self.marks.slot.map(usize::from) == Some(slot) {
                let frame = rect(left, 1.0, SLOT, bottom - 1.0).class("slot");
                let fault = group("fault")
                    .with("data-fault", format!("slot-{slot}"))
                    .add(frame)
                    .add(number.class("strong"));
                heading.push(fault);
            } else {
                heading.push(number);
            }
        }
        heading
    }

    fn row(&self, place: usize, block: usize, top: f64) -> Element {
        let row = &self.rows[place];
        let middle = top + row.height() / 2.0;
        let number = row.initiator.to_string();
        let wide = width(&number, SIZE) + 20.0;
        let mark = rect(0.0, middle - 6.0, 12.0, 12.0).class(colour(place));
        let mut drawn = group("row")
            .add(mark)
            .add(text(16.0, middle, &number).class("from strong"));
        if let Some(name) = self.names.get(row.initiator) {
            let name = fitted(name, 9.0, NAME - wide - 2.0);
            drawn = drawn.add(text(wide, middle, name).class("from tiny"));
        }
        for (bar, id) in row.bars.iter().zip(&self.ids[place]) {
            let here = parts(&bar.entry).into_iter();
            for part in here.filter(|part| part.block == block) {
                drawn = drawn.add(self.bar(bar, &part, id, colour(place), top));
            }
        }
        drawn
    }

    /// A part of an entry; the first one stands for the entry.
    fn bar(&self, bar: &Bar, part: &Part, id: &str, colour: String, top: f64) -> Element {
        let fault = self.marks.entries.contains(&bar.entry.offset);
        let mut drawn = group(if fault { "bar fault" } else { "bar" });
        if part.begins {
            drawn = drawn
                .with("id", format!("entry-{id}"))
                .with("data-entry", id);
        } else {
            drawn = drawn.with("data-more", id);
        }
        if fault {
            drawn = drawn.with("data-fault", format!("entry-{id}"));
        }
        let left = NAME + SLOT * part.first as f64;
        let (left, right) = (left + 1.0, left + SLOT * part.count as f64 - 1.0);
        let top = top + LANE * bar.lane as f64;
        let (high, low) = (top + FREE, top + LANE - FREE);
        let said = self.said(&bar.entry, part).unwrap_or_else(|| {
            let place = self.sets.iter().position(|&set| set == bar.entry.targets);
            place.map_or("?".to_string(), letter)
        });
        let said = if fault { format!("! {said}") } else { said };
        drawn
            .add(outline(part, [left, right], [high, low]).class(colour))
            .add(text((left + right) / 2.0, (high + low) / 2.0, said).class("halo"))
    }

    /// The targets of an entry as fully as there is room for; nothing if there is room for a letter alone.
    fn said(&self, entry: &Entry, part: &Part) -> Option<String> {
        let ends = [part.begins, part.ends].into_iter();
        let pointed = ends.filter(|straight| !straight).count() as f64;
        let fault = self.marks.entries.contains(&entry.offset);
        let mark = if fault { width("! ", SIZE) } else { 0.0 };
        let room = SLOT * part.count as f64 - 6.0 - pointed * POINT - mark;
        let mut forms = forms(entry, self.names).into_iter();
        forms.find(|form| width(form, SIZE) <= room)
    }

    /// The targets that need a letter, in the order of the table.
    fn short_of_room(&self) -> Vec<&'a [u8]> {
        let mut sets: Vec<&[u8]> = Vec::new();
        for bar in self.rows.iter().flat_map(|row| &row.bars) {
            let entry = &bar.entry;
            let short = |part: &Part| self.said(entry, part).is_none();
            if !sets.contains(&entry.targets) && parts(entry).iter().any(short) {
                sets.push(entry.targets);
            }
        }
        sets
    }

    /// What the letters stand for.
    fn letters(&self) -> Option<Element> {
        let lines = self.sets.iter().enumerate().map(|(place, set)| {
            element("li")
                .with("data-letter", letter(place))
                .add(words("b", letter(place)))
                .text(format!(" {}", numbers(set)))
        });
        let list = element("ul").class("letters").add_all(lines);
        (!self.sets.is_empty()).then_some(list)
    }
}

fn key(entry: &Entry) -> String {
    format!("{}-{}", entry.initiator, entry.slot)
}

/// With names, and with numbers alone.
fn forms(entry: &Entry, names: &Names) -> [String; 2] {
    let form = |named: bool| {
        let target = |&target: &u8| match names.get(target) {
            Some(name) if named => format!("{target} {name}"),
            _ => target.to_string(),
        };
        let targets: Vec<_> = entry.targets.iter().map(target).collect();
        targets.join(", ")
    };
    [form(true), form(false)]
}

/// A bar: straight where the entry begins or ends, pointed where it runs on and notched where it comes from.
fn outline(part: &Part, [left, right]: [f64; 2], [high, low]: [f64; 2]) -> Element {
    let middle = (high + low) / 2.0;
    let notch = if part.begins { 0.0 } else { POINT };
    let tip = if part.ends { 0.0 } else { POINT };
    let points = [
        (left, high),
        (right - tip, high),
        (right, middle),
        (right - tip, low),
        (left, low),
        (left + notch, middle),
    ];
    let points: Vec<_> = points
        .iter()
        .map(|&(x, y)| format!("{} {}", short(x), short(y)))
        .collect();
    drawn(format!("M{}Z", points.join("L")))
}

/// Entries of a refused plan that no slot has room for.
fn nowhere(plan: &Plan, marks: &Marks) -> Option<Element> {
    let mut once = Once::default();
    let lines: Vec<_> = plan
        .entries
        .iter()
        .filter(|entry| !has_place(entry))
        .map(|entry| {
            let id = once.name(key(entry));
            let line = words("li", entry)
                .with("id", format!("entry-{id}"))
                .with("data-entry", &id);
            if marks.entries.contains(&entry.offset) {
                line.class("fault")
                    .with("data-fault", format!("entry-{id}"))
            } else {
                line
            }
        })
        .collect();
    (!lines.is_empty()).then(|| {
        element("div")
            .add(words("p", "Entries that stand in no slot of the table:"))
            .add(element("ul").add_all(lines))
    })
}
