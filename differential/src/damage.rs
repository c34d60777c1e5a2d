//! Ways to damage a text.

use crate::Random;

/// Numbers at and beyond the bounds that fields have, and of any length.
const NUMBERS: [&str; 40] = [
    "0",
    "1",
    "2",
    "-1",
    "-2",
    "12",
    "13",
    "23",
    "24",
    "60",
    "61",
    "59",
    "4095",
    "4096",
    "4097",
    "9999",
    "10000",
    "10001",
    "1999999",
    "2000000",
    "2000001",
    "-2000000",
    "-2000001",
    "20000000",
    "20000001",
    "-20000000",
    "-20000001",
    "99999999",
    "100000000",
    "100000001",
    "200000000",
    "200000001",
    "2147483648",
    "4294967296",
    "9223372036854775807",
    "9223372036854775808",
    "-9223372036854775808",
    "18446744073709551615",
    "18446744073709551616",
    "100000000000000000000000000000000000000000000000000000000000000000000",
];
const BAD_VALUES: [&str; 20] = [
    "", "-", "-0", "00", "01", "-01", "+1", " 1", "1 ", "1\r", "1.0", "1e3", "--1", "1-", "x",
    "0x10", "=1", "1=", "\0", "\u{661}",
];
/// Values with a mark, of which a resource's number can be the first four.
const MARKED_VALUES: [&str; 20] = [
    "0?",
    "5?",
    "-5?",
    "2000000?",
    "2000001?",
    "-2000001?",
    "?",
    "-?",
    "??",
    "5??",
    "?5",
    "-0?",
    "05?",
    "+5?",
    "5? ",
    "5 ?",
    "5?5",
    "ON?",
    "gen?",
    "A?",
];
const WORDS: [&str; 24] = [
    "gen",
    "wind",
    "irr",
    "nuke",
    "clr",
    "nclr",
    "ON",
    "OFF",
    "OFFNS",
    "ONTEST",
    "STARTUP",
    "SHUTDOWN",
    "OUT",
    "on",
    "Gen",
    "OFFN",
    "O",
    "ONN",
    "A",
    "_",
    "0",
    "ABCDEFGHIJKLMNOP",
    "ABCDEFGHIJKLMNOPQ",
    "a",
];

/// Damages a text once, or a few times.
pub fn damage(random: &mut Random, text: &mut Vec<u8>) {
    damage_once(random, text);
    while random.one_in(4) {
        damage_once(random, text);
    }
}

fn damage_once(random: &mut Random, text: &mut Vec<u8>) {
    match random.bits() % 16 {
        0 if !text.is_empty() => {
            let length = random.place(text.len());
            text.truncate(length);
        }
        1 if !text.is_empty() => {
            let place = random.place(text.len());
            text[place] = random.bits() as u8;
        }
        2 if !text.is_empty() => {
            let place = random.place(text.len());
            text.remove(place);
        }
        3 => {
            let place = random.place(text.len() + 1);
            text.insert(place, *random.pick(b"\n=-09Ax_ \0?"));
        }
        4 => text.extend_from_slice(random.pick(&["\n", "x", "mu=0\n", "id=A\n"]).as_bytes()),
        _ => damage_line(random, text),
    }
}

fn damage_line(random: &mut Random, text: &mut Vec<u8>) {
    let mut lines: Vec<Vec<u8>> = text
        .split_inclusive(|&byte| byte == b'\n')
        .map(<[u8]>::to_vec)
        .collect();
    if lines.is_empty() {
        return;
    }
    let at = random.place(lines.len());
    let other = random.place(lines.len());
    match random.bits() % 15 {
        0 => {
            lines.remove(at);
        }
        1 => lines.insert(at, lines[other].clone()),
        2 => {
            let next = (at + 1) % lines.len();
            lines.swap(at, next);
        }
        3 => lines.truncate(at),
        4 => {
            lines[at].pop();
        }
        5 => lines[at].insert(0, *random.pick(b" =x\n")),
        6 => set_value(&mut lines[at], b""),
        7 | 8 => set_value(&mut lines[at], random.pick(&NUMBERS).as_bytes()),
        9 => set_value(&mut lines[at], random.pick(&BAD_VALUES).as_bytes()),
        10 => set_value(&mut lines[at], random.pick(&WORDS).as_bytes()),
        11 => set_value(&mut lines[at], random.pick(&MARKED_VALUES).as_bytes()),
        12 => change_mark(random, &mut lines, at),
        13 => add_mark(&mut lines[at]),
        _ => {
            // A line of the same key elsewhere: ids repeat this way.
            let key = key_of(&lines[at]).to_vec();
            let same: Vec<usize> = (0..lines.len())
                .filter(|&place| key_of(&lines[place]) == key)
                .collect();
            lines[at] = lines[*random.pick(&same)].clone();
        }
    }
    *text = lines.concat();
}

/// Doubles or removes the mark of a line from here on, or puts one on this line
/// where none has any.
fn change_mark(random: &mut Random, lines: &mut [Vec<u8>], at: usize) {
    let marked = |line: &Vec<u8>| line.contains(&b'?');
    let next = lines[at..].iter().position(marked);
    let line = &mut lines[at + next.unwrap_or(0)];
    if next.is_some() && random.one_in(2) {
        line.retain(|&byte| byte != b'?');
    } else {
        add_mark(line);
    }
}

/// Puts a mark at the end of a line.
fn add_mark(line: &mut Vec<u8>) {
    let end = line.len() - usize::from(line.ends_with(b"\n"));
    line.insert(end, b'?');
}

fn key_of(line: &[u8]) -> &[u8] {
    line.split(|&byte| byte == b'=').next().unwrap_or_default()
}

fn set_value(line: &mut Vec<u8>, value: &[u8]) {
    let key = key_of(line).len();
    line.truncate(key);
    line.push(b'=');
    line.extend_from_slice(value);
    line.push(b'\n');
}
