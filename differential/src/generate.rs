//! Random inputs of every operation: accepted ones, ones near a bound, and
//! damaged ones.

use crate::damage::damage;
use crate::held::{damage_held, disturb, Held, ID_ROW, NUMBER_ROW};
use crate::marks::mark;
use crate::texts::{hour_in_group, snapshot, Snapshot, MOST_POWER};
use crate::{Curves, Input, Random, RecordNumbers};
use reference::{read_snapshot, reserves, sums, PAGE_LENGTH, WRITTEN_LIMIT};

const LARGEST_ERROR: i64 = 20_000_000;
const MOST_HOURS: i64 = 1000;

/// A random input.
pub fn input(random: &mut Random) -> Input {
    match random.bits() % 31 {
        0..=5 => book(random),
        6..=8 => settle(random),
        9..=11 => read(random),
        12 | 13 => write(random),
        14 | 15 => write_page(random),
        22..=24 => read_values(random),
        25 | 26 => values_length(random),
        27..=29 => write_values(random),
        30 => curves_length(random),
        _ => price(random),
    }
}

/// Books an error a number of times.
fn add(group: &mut [i64; 3], times: i64, error: i64) {
    group[0] += times;
    group[1] += times * error;
    group[2] += times * error * error;
}

fn scale(random: &mut Random) -> i64 {
    *random.pick(&[1, 10, 1000, 100_000, 1_000_000, LARGEST_ERROR])
}

/// A group of a few errors, each any number of times.
fn group(random: &mut Random, scale: i64, settles: bool) -> [i64; 3] {
    let mut group = [0; 3];
    if settles {
        // Two errors apart give every group a sigma.
        add(&mut group, 1, scale.max(2));
        add(&mut group, 1, -scale.max(2));
    }
    for _ in 0..random.within(0, 3) {
        let room = MOST_HOURS - group[0];
        let times = match random.bits() % 16 {
            0 => room,
            1..=4 => random.within(0, room / 2),
            _ => random.within(0, 2.min(room)),
        };
        add(&mut group, times, random.within(-scale, scale));
    }
    group
}

/// A record that can be; in most, all groups settle or all but a few.
fn record(random: &mut Random) -> Box<RecordNumbers> {
    let scale = scale(random);
    let settled = match random.bits() % 4 {
        0 => 2,
        1 => 40,
        _ => u64::MAX,
    };
    let mut record = Box::new([0; 72]);
    for place in 0..24 {
        let settles = settled == u64::MAX || !random.one_in(settled);
        let mut one = group(random, scale, settles);
        if random.one_in(8) {
            near_a_square(random, &mut one);
        }
        record[3 * place..][..3].copy_from_slice(&one);
    }
    record
}

/// Gives the group squares that make the mean square deviation a square, or
/// miss it by one in the sum.
fn near_a_square(random: &mut Random, group: &mut [i64; 3]) {
    let [count, sum, squares] = group;
    if *count < 2 {
        return;
    }
    let mu = sum.div_euclid(*count);
    let deviations = *squares - 2 * mu * *sum + *count * mu * mu;
    let root = (deviations / *count).isqrt();
    *squares += *count * root * root - deviations + random.within(-1, 1);
}

/// Changes one number of a record, often by just enough or just too much.
fn damage_record(random: &mut Random, record: &mut RecordNumbers) {
    let group = &mut record[3 * random.place(24)..][..3];
    let count = group[0];
    match random.bits() % 10 {
        0 => group[0] = *random.pick(&[-1, 0, 1, 999, 1000, 1001, i64::MAX, i64::MIN]),
        1 => group[1] = *random.pick(&[-1, 0, 1, i64::MAX, i64::MIN]),
        2 => group[2] = *random.pick(&[-1, 0, 1, i64::MAX, i64::MIN]),
        3 => group[1] = count.wrapping_mul(LARGEST_ERROR) + random.within(-1, 1),
        4 => group[1] = -count.wrapping_mul(LARGEST_ERROR) + random.within(-1, 1),
        5 => {
            group[2] = count.wrapping_mul(LARGEST_ERROR * LARGEST_ERROR) + random.within(-1, 1);
        }
        6 => group[random.place(3)] = random.bits() as i64,
        _ => {
            // The least squares that these hours can have, or a few less.
            let (count, sum) = (i128::from(group[0].max(1)), i128::from(group[1]));
            let least = (sum * sum).div_euclid(count) as i64;
            group[2] = least.saturating_add(random.within(-3, 3));
        }
    }
}

fn book(random: &mut Random) -> Input {
    let mut record = if random.one_in(3) {
        Box::new([0; 72])
    } else {
        record(random)
    };
    let group = random.place(24);
    let mut hour = hour_in_group(random, group);
    // Mostly an error that can be booked; else what the fields happen to give.
    if !random.one_in(10) {
        let error = match random.bits() % 8 {
            0 => LARGEST_ERROR + random.within(-1, 1),
            1 => -LARGEST_ERROR + random.within(-1, 1),
            _ => random.uneven(-LARGEST_ERROR, LARGEST_ERROR),
        };
        let reserve = hour.ahead_reserve() + error - hour.error();
        if !hour.set_ahead_reserve(reserve) {
            hour.ahead[1] = hour.ahead[1].clamp(0, MOST_POWER);
        }
    }
    let mut text = hour.text();
    if random.one_in(2) {
        damage(random, &mut text);
    }
    match random.bits() % 64 {
        0..=3 => {
            let error = random.within(-5, 5);
            let count = MOST_HOURS - random.within(0, 1);
            let full = [count, count * error, count * error * error];
            record[3 * group..][..3].copy_from_slice(&full);
        }
        4..=7 => damage_record(random, &mut record),
        8 if random.one_in(8) => lengthen(random, &mut text, 65_536),
        _ => {}
    }
    Input::Book { record, text }
}

/// Fills the text up to its limit of bytes, or just over it.
fn lengthen(random: &mut Random, text: &mut Vec<u8>, limit: usize) {
    let length = (limit as i64 + random.within(-1, 2)) as usize;
    let fill = *random.pick(b"\nx0=");
    if text.len() < length {
        text.resize(length, fill);
    }
}

fn settle(random: &mut Random) -> Input {
    let mut record = record(random);
    if random.one_in(3) {
        damage_record(random, &mut record);
    }
    let mut bounded = |most: i64| match random.bits() % 24 {
        0 => -1,
        1 => most + 1,
        2 => *random.pick(&[i64::MAX, i64::MIN]),
        _ => random.uneven(0, most),
    };
    let voll = bounded(2_000_000);
    let floor = bounded(20_000_000);
    Input::Settle {
        record,
        voll,
        floor,
    }
}

/// A curve set in its ranges.
fn curves(random: &mut Random) -> Curves {
    let mut curves = [0; 50];
    curves[0] = random.uneven(0, 2_000_000);
    curves[1] = random.uneven(0, 20_000_000);
    for pair in curves[2..].chunks_mut(2) {
        pair[0] = random.uneven(-20_000_000, 20_000_000);
        pair[1] = random.uneven(1, 20_000_000);
    }
    curves
}

fn damage_curves(random: &mut Random, curves: &mut Curves) {
    let place = random.place(50);
    curves[place] = match random.bits() % 4 {
        0 => *random.pick(&[-1, 0, i64::MAX, i64::MIN, 2_000_001]),
        1 => *random.pick(&[20_000_001, -20_000_001, 20_000_000, -20_000_000]),
        2 => random.bits() as i64,
        _ => random.uneven(-20_000_002, 20_000_002),
    };
}

fn read(random: &mut Random) -> Input {
    let curves = curves(random);
    let mut text = Vec::new();
    let mut put = |key: &str, value: i64| {
        text.extend_from_slice(format!("{key}={value}\n").as_bytes());
    };
    put("voll", curves[0]);
    put("floor", curves[1]);
    for pair in curves[2..].chunks(2) {
        put("mu", pair[0]);
        put("sigma", pair[1]);
    }
    if !random.one_in(4) {
        damage(random, &mut text);
    }
    if random.one_in(64) {
        lengthen(random, &mut text, 4096);
    }
    Input::Read { text }
}

fn write(random: &mut Random) -> Input {
    let mut curves = curves(random);
    if random.one_in(5) {
        damage_curves(random, &mut curves);
    }
    let mut buffer = [0; WRITTEN_LIMIT];
    let fits = reference::write_curves(&crate::curve_set(&curves), &mut buffer).unwrap_or(500);
    let length = match random.bits() % 4 {
        0 => random.within(0, 800) as usize,
        1 => WRITTEN_LIMIT,
        _ => (fits as i64 + random.within(-2, 2)) as usize,
    };
    Input::Write { curves, length }
}

/// The range of each number of a curve set.
fn range(place: usize) -> (i64, i64) {
    match place {
        0 => (0, 2_000_000),
        1 => (0, 20_000_000),
        _ if place % 2 == 1 => (1, 20_000_000),
        _ => (-20_000_000, 20_000_000),
    }
}

/// The greatest number of some number of digits, or the least with one digit
/// more; as often as not below 0.
fn edge(random: &mut Random) -> i64 {
    let power = 10_i64.pow(random.within(0, 8) as u32);
    let size = power - random.within(0, 1);
    if random.one_in(2) {
        -size
    } else {
        size
    }
}

/// A curve set in its ranges whose numbers often are where a digit more begins.
/// Where all of them are alike, its text can be the shortest or the longest.
pub fn curves_of_all_lengths(random: &mut Random) -> Curves {
    let mut curves = curves(random);
    let alike = random.one_in(4).then(|| edge(random));
    for (place, number) in curves.iter_mut().enumerate() {
        let (low, high) = range(place);
        let own = random.one_in(2).then(|| edge(random));
        if let Some(edge) = alike.or(own) {
            let edge = if low < 0 { edge } else { edge.abs() };
            *number = edge.clamp(low, high);
        }
    }
    curves
}

fn curves_length(random: &mut Random) -> Input {
    let mut curves = curves_of_all_lengths(random);
    if random.one_in(5) {
        damage_curves(random, &mut curves);
    }
    Input::CurvesLength { curves }
}

/// How far above X the probabilities of a page's row stand, in kW.
const PAGE_STEPS: [i64; 4] = [1_000_000, 2_000_000, 3_000_000, 4_000_000];

/// A curve set in its ranges, mostly with pairs whose probabilities on a page
/// lie between 0 and 1, or at an end of the curve.
pub fn page_curves(random: &mut Random) -> Curves {
    let mut curves = curves(random);
    for pair in curves[2..].chunks_mut(2) {
        let sigma = pair[1];
        let away = match random.bits() % 8 {
            0 | 1 => continue,
            2 => random.within(-2, 2),
            3 => 5 * sigma + random.within(-2, 2),
            4 => -5 * sigma + random.within(-2, 2),
            _ => random.within(-6 * sigma, 6 * sigma),
        };
        let mu = *random.pick(&PAGE_STEPS) - away;
        pair[0] = mu.clamp(-20_000_000, 20_000_000);
    }
    curves
}

fn write_page(random: &mut Random) -> Input {
    let mut curves = page_curves(random);
    if random.one_in(5) {
        damage_curves(random, &mut curves);
    }
    let length = match random.bits() % 8 {
        0 => random.within(0, 3),
        1 => random.within(0, 4096),
        2 => 72 * random.within(0, 25) + random.within(0, 1),
        3..=5 => PAGE_LENGTH as i64,
        _ => PAGE_LENGTH as i64 + random.within(-3, 3),
    };
    Input::WritePage {
        curves,
        length: length as usize,
    }
}

/// The number of a snapshot's resources: mostly a few, at times as many as there
/// can be.
pub fn size(random: &mut Random) -> usize {
    let count = match random.bits() % 4096 {
        0 => 4096,
        1..=16 => random.within(0, 500),
        _ => random.within(0, 8),
    };
    count as usize
}

/// Curves for a text that is accepted, mostly such that its prices are neither
/// least nor greatest.
pub fn curves_near(random: &mut Random, text: &[u8]) -> Curves {
    let mut curves = curves(random);
    near_the_floor(random, &mut curves, text);
    curves
}

/// A random snapshot of this many resources, with marks or without.
fn some_snapshot(random: &mut Random, count: usize) -> Snapshot {
    let mut snapshot = snapshot(random, count);
    mark(random, &mut snapshot);
    snapshot
}

fn price(random: &mut Random) -> Input {
    let count = size(random);
    let mut text = some_snapshot(random, count).text();
    let mut curves = curves_near(random, &text);
    if random.one_in(2) {
        damage(random, &mut text);
    }
    match random.bits() % 256 {
        0..=7 => damage_curves(random, &mut curves),
        8 if random.one_in(4) => lengthen(random, &mut text, 1_048_576),
        _ => {}
    }
    Input::Price { curves, text }
}

/// Mostly moves X and the curves near the snapshot's reserves, where the
/// prices change.
fn near_the_floor(random: &mut Random, curves: &mut Curves, text: &[u8]) {
    let Ok(snapshot) = read_snapshot(text) else {
        return;
    };
    let reserves = reserves(&snapshot, &sums(&snapshot));
    let target = if random.one_in(2) {
        reserves.rs
    } else {
        reserves.rsns
    };
    let sigma = random.uneven(1, 20_000_000);
    let away = match random.bits() % 4 {
        0 => return,
        1 => random.within(-2, 2),
        _ => random.within(-sigma, 6 * sigma),
    };
    curves[1] = (target - away).clamp(0, 20_000_000);
    for pair in curves[2..].chunks_mut(2) {
        pair[0] = random.within(-sigma, sigma);
        pair[1] = sigma;
    }
}

/// A length near the one that would do.
fn near(random: &mut Random, fits: usize) -> usize {
    match random.bits() % 8 {
        0 => random.place(fits + 1),
        1 => 0,
        2..=4 => fits,
        _ => (fits as i64 + random.within(-2, 3)).max(0) as usize,
    }
}

fn read_values(random: &mut Random) -> Input {
    let count = size(random);
    let mut text = some_snapshot(random, count).text();
    if random.one_in(2) {
        damage(random, &mut text);
    }
    if random.one_in(256) {
        lengthen(random, &mut text, 1_048_576);
    }
    // Mostly rows enough, and something left over.
    let mut length = |row: usize| {
        let rows = match random.bits() % 8 {
            0 => count.saturating_sub(1),
            1 => random.place(count + 1),
            2 => count + 1 + random.place(3),
            _ => count,
        };
        let left_over = if random.one_in(2) {
            0
        } else {
            random.place(row)
        };
        rows * row + left_over
    };
    Input::ReadSnapshot {
        text,
        ids: length(ID_ROW),
        numbers: length(NUMBER_ROW),
    }
}

/// Values, some of them damaged, and the length of the text of those that are not.
fn held(random: &mut Random) -> (Held, usize) {
    let count = if random.one_in(4096) {
        4097
    } else {
        size(random)
    };
    let snapshot = some_snapshot(random, count);
    let mut held = Held::of(&snapshot);
    disturb(random, &mut held);
    if random.one_in(2) {
        damage_held(random, &mut held);
    }
    let fits = reference::held_length(&held.header, &held.ids, &held.numbers);
    (held, fits.unwrap_or_else(|_| snapshot.text().len()))
}

fn values_length(random: &mut Random) -> Input {
    let (held, _) = held(random);
    Input::SnapshotLength { held }
}

fn write_values(random: &mut Random) -> Input {
    let (held, fits) = held(random);
    let length = near(random, fits);
    Input::WriteSnapshot { held, length }
}
