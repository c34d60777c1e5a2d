//! The time blocks: the posted table, and its use for hours and snapshots.

mod common;
use common::*;
use reference::{group_of, GROUPS};

/// The hour endings of each block, in the rows of the posted table.
const POSTED: [[u32; 4]; 6] = [
    [23, 24, 1, 2],
    [3, 4, 5, 6],
    [7, 8, 9, 10],
    [11, 12, 13, 14],
    [15, 16, 17, 18],
    [19, 20, 21, 22],
];

/// The group of block 0 in each of the months 1..12.
const FIRST_GROUPS: [usize; 12] = [0, 0, 6, 6, 6, 12, 12, 12, 18, 18, 18, 0];

/// Every month with the group of its block 0.
fn months() -> impl Iterator<Item = (u32, usize)> {
    (1..=12).zip(FIRST_GROUPS)
}

#[test]
fn each_hour_ending_stands_in_one_row() {
    for ending in 1..=24 {
        let rows = POSTED.iter().filter(|row| row.contains(&ending)).count();
        assert_eq!(rows, 1, "hour ending {ending}");
    }
    assert_eq!(POSTED.as_flattened().len(), 24);
}

#[test]
fn the_blocks_are_the_rows_of_the_posted_table() {
    for (month, first) in months() {
        for (block, row) in POSTED.iter().enumerate() {
            for ending in row {
                let hour = ending - 1;
                let group = group_of(i64::from(month), i64::from(hour));
                assert_eq!(group, first + block, "month {month}, hour ending {ending}");
            }
        }
    }
}

/// The same table read the other way, from hour 0 on.
#[test]
fn the_hours_of_a_day_have_these_blocks() {
    let blocks = [
        0, 0, 1, 1, 1, 1, 2, 2, 2, 2, 3, 3, 3, 3, 4, 4, 4, 4, 5, 5, 5, 5, 0, 0,
    ];
    for (month, first) in months() {
        for (hour, block) in (0..).zip(blocks) {
            let group = group_of(i64::from(month), hour);
            assert_eq!(group, first + block, "month {month}, hour {hour}");
        }
    }
}

#[test]
fn a_booked_hour_and_a_snapshot_have_the_same_group() {
    let mut hours_of_groups = [0; GROUPS];
    for (month, _) in months() {
        for hour in 0..24 {
            let booked = group_booked(month, hour);
            let priced = group_priced(month, hour);
            assert_eq!(booked, priced, "month {month}, hour {hour}");
            assert_eq!(booked, group_of(i64::from(month), i64::from(hour)));
            hours_of_groups[booked] += 1;
        }
    }
    // Three months of four hours each.
    assert_eq!(hours_of_groups, [12; GROUPS]);
}

/// Block 0 goes over midnight, but never into the next month's season.
#[test]
fn the_last_two_hours_of_a_day_keep_their_season() {
    let group = |month: u32, hour: u32| {
        let group = group_booked(month, hour);
        assert_eq!(group_priced(month, hour), group);
        group
    };
    // December is winter and November is fall.
    assert_eq!(group(12, 22), 0);
    assert_eq!(group(11, 23), 18);
    for (month, first) in months() {
        assert_eq!(group(month, 21), first + 5);
        assert_eq!(group(month, 22), first);
        assert_eq!(group(month, 23), first);
        assert_eq!(group(month, 0), first);
    }
}
