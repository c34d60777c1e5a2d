//! The seasons: the methodology's list, and its use for hours and snapshots.

mod common;
use common::*;
use reference::{book, group_of, price_snapshot, read_snapshot, Record};

/// The months of each season, in the order in which the methodology prints
/// them. Seasons are numbered in this order, from 0.
const LISTED: [[u32; 3]; 4] = [
    [12, 1, 2],  // Winter
    [3, 4, 5],   // Spring
    [6, 7, 8],   // Summer
    [9, 10, 11], // Fall
];

/// The season under which the list has this month.
fn listed_season(month: u32) -> usize {
    LISTED
        .iter()
        .position(|months| months.contains(&month))
        .unwrap()
}

/// In rising order the listed months are 1..12, so none is left out, none is
/// named twice and nothing else is listed.
#[test]
fn each_month_is_listed_once_and_nothing_else_is() {
    let mut months = LISTED.as_flattened().to_vec();
    months.sort();
    assert_eq!(months, [1, 2, 3, 4, 5, 6, 7, 8, 9, 10, 11, 12]);
}

/// The formula is written out here, so this holds of the list itself, whatever
/// `group_of` does.
#[test]
fn the_list_gives_the_season_of_the_formula() {
    for month in 1..=12 {
        let computed = (month % 12 / 3) as usize;
        assert_eq!(listed_season(month), computed, "month {month}");
    }
}

#[test]
fn hours_and_snapshots_have_the_listed_season() {
    for month in 1..=12 {
        for hour in 0..24 {
            // tests/blocks.rs compares the blocks with the posted table.
            let block = ((hour + 2) % 24 / 4) as usize;
            let expected = 6 * listed_season(month) + block;
            let context = format!("month {month}, hour {hour}");
            assert_eq!(group_booked(month, hour), expected, "booked, {context}");
            assert_eq!(group_priced(month, hour), expected, "priced, {context}");
            let computed = group_of(i64::from(month), i64::from(hour));
            assert_eq!(computed, expected, "{context}");
        }
    }
}

/// The list has no season for the months 0 and 13, but the formula gives
/// winter for both. Reading refuses both months, so no text shows this
/// difference. The line is 1, because the month stands first in both texts.
#[test]
fn a_month_outside_the_list_reaches_no_season() {
    for month in [0, 13] {
        assert!(!LISTED.as_flattened().contains(&month));
        for hour in 0..24 {
            let context = format!("month {month}, hour {hour}");
            let text = hour_with_error(month, hour, -5);
            let booked = book(&Record::fresh(), text.as_bytes());
            assert_eq!(booked, refusal(7, 1), "{context}");

            let text = with_line(&example_snapshot(), "month=7", &format!("month={month}"));
            let text = with_line(&text, "hour=14", &format!("hour={hour}"));
            let priced = price_snapshot(&example_curves(), text.as_bytes());
            assert_eq!(priced, refusal(7, 1), "{context}");
            assert_eq!(read_snapshot(text.as_bytes()), refusal(7, 1), "{context}");
        }
    }
}
