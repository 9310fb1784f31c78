//! The words of the programs are those of the card.

mod common;

use common::root;
use desk::words::{Row, RECORDS, REFUSALS, TERMS, VERDICTS};
use std::fs;

/// The rows of the card's tables that have as many columns, below a heading.
fn table(heading: &str) -> Vec<Vec<String>> {
    let card = fs::read_to_string(root().join("docs/CARD.md")).unwrap();
    let (_, section) = card.split_once(&format!("## {heading}\n")).unwrap();
    let section = section.split("\n## ").next().unwrap();
    let rows = section.lines().filter(|line| line.starts_with('|'));
    // The first two lines are the names of the columns and the line below them.
    let cells = rows.skip(2).map(|line| {
        let cells = line.trim_matches('|').split('|');
        cells.map(|cell| cell.trim().to_string()).collect()
    });
    cells.collect()
}

fn four(rows: &[Row]) -> Vec<Vec<String>> {
    let cells =
        |row: &Row| [&row.number.to_string(), row.about, row.means, row.to_do].map(String::from);
    rows.iter().map(|row| cells(row).to_vec()).collect()
}

#[test]
fn verdicts() {
    assert_eq!(four(&VERDICTS), table("The verdict on a plan"));
    assert_eq!(
        VERDICTS.map(|row| row.number),
        std::array::from_fn(|index| index as u8)
    );
}

#[test]
fn refusals() {
    assert_eq!(four(&REFUSALS), table("Refusals"));
    let numbers: Vec<_> = (20..=30).chain([33]).collect();
    assert_eq!(REFUSALS.map(|row| row.number)[..], numbers);
}

#[test]
fn records() {
    let three = four(&RECORDS).into_iter().map(|row| {
        assert_eq!(row[1], "");
        [row[0].clone(), row[2].clone(), row[3].clone()].to_vec()
    });
    assert_eq!(three.collect::<Vec<_>>(), table("Records"));
    assert_eq!(
        RECORDS.map(|row| row.number),
        std::array::from_fn(|index| 1 + index as u8)
    );
}

/// The terms of a sheet, by letter and by name.
#[test]
fn terms() {
    let card = table("A sheet").into_iter().map(|row| {
        assert_eq!(row.len(), 3);
        [row[0].clone(), row[1].clone()]
    });
    let terms = TERMS.map(|(letter, means)| [format!("({letter})"), means.to_string()]);
    assert_eq!(card.collect::<Vec<_>>(), terms);
    assert_eq!(
        TERMS.map(|(letter, _)| letter),
        ['a', 'b', 'c', 'd', 'e', 'f', 'g', 'h', 'i']
    );
}

/// A number that the card does not have is still said.
#[test]
fn unknown() {
    let row = desk::words::verdict(99);
    assert_eq!((row.number, row.means), (99, "not on the card"));
}
