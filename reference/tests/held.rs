//! Snapshots in the form in which hosts hold them: writing and reading.

mod common;
use common::held::*;
use common::*;
use reference::{
    price_snapshot, price_values, read_snapshot, snapshot_of_held, write_held, Prices, Refusal,
    ID_ROW, NUMBER_ROW,
};

const HEADER_KEYS: [&str; 7] = ["month", "hour", "lambda", "factor", "prc", "eea1", "short"];
const KINDS: [&str; 6] = ["gen", "wind", "irr", "nuke", "clr", "nclr"];
const STATUSES: [&str; 7] = ["ON", "OFF", "OFFNS", "ONTEST", "STARTUP", "SHUTDOWN", "OUT"];
const GENERATOR_KEYS: [&str; 6] = ["net", "lsl", "hsl", "base", "nonspin", "cold30"];
const CLR_KEYS: [&str; 4] = ["base", "lpc", "nonspin", "regup"];
const NCLR_KEYS: [&str; 4] = ["rrsok", "net", "lpc", "rrs"];

/// The number keys of a kind; a kind that is not listed has none.
fn number_keys(kind: i64) -> &'static [&'static str] {
    match kind {
        0..=3 => &GENERATOR_KEYS,
        4 => &CLR_KEYS,
        5 => &NCLR_KEYS,
        _ => &[],
    }
}

fn range_of(generator: bool, key: &str) -> (i64, i64) {
    match key {
        "month" => (1, 12),
        "hour" => (0, 23),
        "lambda" => (-2_000_000, 2_000_000),
        "factor" => (0, 10_000),
        "prc" | "eea1" | "short" => (0, 200_000_000),
        "cold30" | "rrsok" => (0, 1),
        "net" if generator => (-2_000_000, 2_000_000),
        _ => (0, 2_000_000),
    }
}

/// The text of values without any check: a number that stands for no word is
/// written in the word's place, and a flag with its mark.
fn unchecked_text(held: &Held) -> Vec<u8> {
    let word = |list: &[&str], number: i64| match usize::try_from(number) {
        Ok(number) if number < list.len() => list[number].to_string(),
        _ => number.to_string(),
    };
    let mut text = Vec::new();
    let mut line = |key: &str, value: &[u8]| {
        text.extend_from_slice(key.as_bytes());
        text.push(b'=');
        text.extend_from_slice(value);
        text.push(b'\n');
    };
    for (key, number) in HEADER_KEYS.iter().zip(held.header) {
        line(key, number.to_string().as_bytes());
    }
    line("count", held.rows().to_string().as_bytes());
    let rows = held
        .ids
        .chunks_exact(ID_ROW)
        .zip(held.numbers.chunks_exact(NUMBER_ROW));
    for (id, row) in rows {
        let id: Vec<u8> = id[..16]
            .iter()
            .copied()
            .take_while(|&byte| byte != 0)
            .collect();
        line("id", &id);
        line("kind", word(&KINDS, row[0]).as_bytes());
        if row[0] < 4 {
            line("status", word(&STATUSES, row[1]).as_bytes());
        }
        let mut marks = row[8].unsigned_abs();
        for (key, number) in number_keys(row[0]).iter().zip(&row[2..]) {
            let mark = if marks % 2 == 1 { "?" } else { "" };
            line(key, format!("{number}{mark}").as_bytes());
            marks /= 2;
        }
    }
    text
}

/// One resource of every kind. The generators start at the lines 9, 18, 27 and
/// 36, the loads at 45 and 51, and the last line is 56.
fn all_kinds() -> Held {
    Held::of(&[
        ("G", [0, 0, 200, 100, 2000, 150, 20, 1, 0]),
        ("WIND_1", [1, 6, -3, 4, 5, 6, 7, 0, 0]),
        ("I", [2, 3, 8, 9, 10, 11, 12, 1, 0]),
        ("ABCDEFGHIJKLMNOP", [3, 5, 0, 0, 0, 0, 0, 0, 0]),
        ("0", [4, 0, 21, 22, 23, 24, 0, 0, 0]),
        ("_", [5, 0, 1, 31, 32, 33, 0, 0, 0]),
    ])
}

const ALL_KINDS_TEXT: &str =
    "month=7 hour=14 lambda=-2500 factor=9750 prc=3000000 eea1=2300000 short=10 count=6
     id=G kind=gen status=ON net=200 lsl=100 hsl=2000 base=150 nonspin=20 cold30=1
     id=WIND_1 kind=wind status=OUT net=-3 lsl=4 hsl=5 base=6 nonspin=7 cold30=0
     id=I kind=irr status=ONTEST net=8 lsl=9 hsl=10 base=11 nonspin=12 cold30=1
     id=ABCDEFGHIJKLMNOP kind=nuke status=SHUTDOWN net=0 lsl=0 hsl=0 base=0 nonspin=0 cold30=0
     id=0 kind=clr base=21 lpc=22 nonspin=23 regup=24
     id=_ kind=nclr rrsok=1 net=31 lpc=32 rrs=33";

const FIRST_LINES: [u64; 6] = [9, 18, 27, 36, 45, 51];

/// A value in its place, for every number of `all_kinds` but the words.
struct Field {
    /// The resource and the place in its row, or `None` and the header's place.
    row: Option<usize>,
    place: usize,
    key: &'static str,
    line: u64,
    low: i64,
    high: i64,
}

impl Field {
    fn set(&self, held: &mut Held, value: i64) {
        match self.row {
            None => held.header[self.place] = value,
            Some(row) => *held.number(row, self.place) = value,
        }
    }
}

fn fields_of_all_kinds() -> Vec<Field> {
    let mut fields = Vec::new();
    for (place, key) in HEADER_KEYS.into_iter().enumerate() {
        let (low, high) = range_of(false, key);
        let line = place as u64 + 1;
        fields.push(Field {
            row: None,
            place,
            key,
            line,
            low,
            high,
        });
    }
    for (row, first_line) in FIRST_LINES.into_iter().enumerate() {
        let generator = row < 4;
        let words = if generator { 3 } else { 2 };
        for (index, key) in number_keys(row as i64).iter().enumerate() {
            let (low, high) = range_of(generator, key);
            let line = first_line + words + index as u64;
            fields.push(Field {
                row: Some(row),
                place: 2 + index,
                key,
                line,
                low,
                high,
            });
        }
    }
    fields
}

/// The longest text there can be, in values: 4096 generators that are shut
/// down, whose marks are fine.
fn longest() -> Held {
    let row = [
        1, 5, -2_000_000, 2_000_000, 2_000_000, 2_000_000, 2_000_000, 1, 31,
    ];
    let ids: Vec<String> = (0..4096).map(|index| format!("UNIT_{index:011}")).collect();
    let resources: Vec<(&str, Row)> = ids.iter().map(|id| (id.as_str(), row)).collect();
    let mut held = Held::of(&resources);
    let most = 200_000_000;
    held.header = [12, 23, -2_000_000, 10_000, most, most, most, 4096];
    held
}

impl Random {
    /// A number of the range, its ends more often than others.
    fn number(&mut self, (low, high): (i64, i64)) -> i64 {
        match self.below(8) {
            0 => low,
            1 => high,
            _ => low + self.below((high - low + 1) as u64) as i64,
        }
    }

    /// A snapshot of 0..11 resources with all values in their ranges, and with
    /// marks on units whose status leaves them out of every sum.
    fn held(&mut self) -> Held {
        let mut held = Held::of(&[]);
        for (place, key) in HEADER_KEYS.iter().enumerate() {
            held.header[place] = self.number(range_of(false, key));
        }
        for index in 0..self.below(12) {
            let mut id = format!("{index:X}").into_bytes();
            let letters = b"ABCDEFGHIJKLMNOPQRSTUVWXYZ0123456789_";
            id.extend((0..self.below(16)).map(|_| letters[self.below(37) as usize]));
            held.ids.extend(id_row(&id));
            let kind = self.below(6) as i64;
            let mut row = [kind, 0, 0, 0, 0, 0, 0, 0, 0];
            if kind < 4 {
                row[1] = self.below(7) as i64;
            }
            for (place, key) in number_keys(kind).iter().enumerate() {
                row[2 + place] = self.number(range_of(kind < 4, key));
            }
            if kind < 4 && ["ONTEST", "SHUTDOWN", "OUT"].contains(&STATUSES[row[1] as usize]) {
                row[8] = self.below(32) as i64;
            }
            held.numbers.extend(row);
        }
        held.counted()
    }

    /// Spoils one value, or now and then one that nobody looks at.
    fn spoil(&mut self, held: &mut Held) {
        let strange = [i64::MIN, -2_000_001, -1, 2, 6, 7, 2_000_001, i64::MAX];
        let strange = strange[self.below(8) as usize];
        let rows = held.rows() as u64;
        match self.below(4) {
            0 => held.header[self.below(8) as usize] = strange,
            _ if rows == 0 => {}
            1 => {
                let ids: [&[u8]; 5] = [b"", b"a", b"0", b"A-B", b"\xFF"];
                held.set_id(self.below(rows) as usize, ids[self.below(5) as usize]);
            }
            2 => {
                let start = self.below(rows) as usize * ID_ROW;
                held.ids
                    .copy_within(start..start + ID_ROW, self.below(rows) as usize * ID_ROW);
            }
            _ => *held.number(self.below(rows) as usize, self.below(9) as usize) = strange,
        }
    }
}

#[test]
fn every_kind_is_written() {
    assert_eq!(all_kinds().written(), Ok(text(ALL_KINDS_TEXT).into_bytes()));
    assert_eq!(
        unchecked_text(&all_kinds()),
        text(ALL_KINDS_TEXT).into_bytes()
    );
    let empty =
        "month=7 hour=14 lambda=-2500 factor=9750 prc=3000000 eea1=2300000 short=10 count=0";
    assert_eq!(Held::of(&[]).written(), Ok(text(empty).into_bytes()));
}

#[test]
fn every_kind_is_read() {
    assert_eq!(values_of(text(ALL_KINDS_TEXT).as_bytes()), all_kinds());
    let example = values_of(example_snapshot().as_bytes());
    let expected = Held::of(&[
        ("A", [0, 0, 200_000, 100_000, 2_000_000, 200_000, 0, 0, 0]),
        ("B", [0, 0, 95_000, 100_000, 1_000_000, 93_000, 0, 0, 0]),
        ("C", [0, 2, 0, 0, 293_000, 0, 0, 0, 0]),
    ]);
    assert_eq!(
        (&example.ids, &example.numbers),
        (&expected.ids, &expected.numbers)
    );
    assert_eq!(
        example.header,
        [7, 14, 2500, 10_000, 3_000_000, 2_300_000, 0, 3]
    );
}

#[test]
fn the_bounds_of_every_number() {
    let fields = fields_of_all_kinds();
    assert_eq!(fields.len(), 7 + 4 * 6 + 2 * 4);
    for field in fields {
        let Field {
            key,
            line,
            low,
            high,
            ..
        } = field;
        let written = |value: i64| {
            let mut held = all_kinds();
            field.set(&mut held, value);
            held.written()
        };
        for value in [low, high] {
            let expected = with_line_at(
                &text(ALL_KINDS_TEXT),
                line as usize,
                &format!("{key}={value}"),
            );
            assert_eq!(written(value), Ok(expected.into_bytes()));
        }
        for value in [low - 1, high + 1, i64::MIN, i64::MAX] {
            assert_eq!(written(value), refusal(7, line), "{key}={value}");
        }
    }
}

#[test]
fn the_words_of_every_number() {
    let generators = "net=1 lsl=2 hsl=3 base=4 nonspin=5 cold30=1";
    for (kind, kind_word) in KINDS.into_iter().enumerate().take(4) {
        for (status, status_word) in STATUSES.into_iter().enumerate() {
            let row = [kind as i64, status as i64, 1, 2, 3, 4, 5, 1, 0];
            let held = Held::of(&[("U", row)]);
            let listing = format!("id=U kind={kind_word} status={status_word} {generators}");
            let written = String::from_utf8(held.written().unwrap()).unwrap();
            assert!(written.ends_with(&format!("\ncount=1\n{}", text(&listing))));
            assert_eq!(values_of(written.as_bytes()), held);
        }
    }
    let strange = [i64::MIN, -1, i64::MAX, 1 << 32, 1 << 8];
    for (row, line) in FIRST_LINES.into_iter().enumerate() {
        for kind in strange.into_iter().chain([6]) {
            let mut held = all_kinds();
            *held.number(row, 0) = kind;
            assert_eq!(held.written(), refusal(6, line + 1), "{kind}");
        }
        for status in strange.into_iter().chain([7]) {
            let mut held = all_kinds();
            *held.number(row, 1) = status;
            let expected = match row {
                0..=3 => refusal(6, line + 2),
                _ => all_kinds().written(),
            };
            assert_eq!(held.written(), expected, "{status}");
        }
    }
}

#[test]
fn every_byte_of_an_id() {
    for (row, line) in FIRST_LINES.into_iter().enumerate() {
        for place in [0, 1, 7, 15] {
            for byte in 0..=255 {
                let mut id = *b"QQQQQQQQQQQQQQQQ";
                id[place] = byte;
                let mut held = all_kinds();
                held.set_id(row, &id);
                let end = if byte == 0 { place } else { 16 };
                let good =
                    byte == 0 || byte == b'_' || byte.is_ascii_uppercase() || byte.is_ascii_digit();
                if good && end > 0 {
                    let id = std::str::from_utf8(&id[..end]).unwrap();
                    let expected =
                        with_line_at(&text(ALL_KINDS_TEXT), line as usize, &format!("id={id}"));
                    assert_eq!(held.written(), Ok(expected.into_bytes()));
                } else {
                    assert_eq!(held.written(), refusal(6, line), "{id:?}");
                }
            }
        }
    }
}

#[test]
fn a_repeated_id_is_refused_where_it_stands_again() {
    let ids: [&[u8]; 6] = [b"G", b"WIND_1", b"I", b"ABCDEFGHIJKLMNOP", b"0", b"_"];
    for (later, line) in FIRST_LINES.into_iter().enumerate().skip(1) {
        for id in &ids[..later] {
            let mut held = all_kinds();
            held.set_id(later, id);
            assert_eq!(held.written(), refusal(8, line));
            // Bytes that are no part of the id make no other id of it.
            if id.len() < 16 {
                held.set_id(later, &[id, &b"\0X"[..]].concat());
                assert_eq!(held.written(), refusal(8, line));
            }
            held.ids[later * ID_ROW + 16] = b'Y';
            assert_eq!(held.written(), refusal(8, line));
        }
    }
    // The first line that can be refused so: the first resource is a load.
    let load = [4, 0, 0, 0, 0, 0, 0, 0, 0];
    assert_eq!(
        Held::of(&[("A", load), ("A", load)]).written(),
        refusal(8, 15)
    );
    // One id more or less long is another.
    assert!(Held::of(&[("A", load), ("AA", load), ("A0", load)])
        .written()
        .is_ok());
}

#[test]
fn of_two_faults_the_earlier_line_is_named() {
    type Fault = (u32, u64, Box<dyn Fn(&mut Held)>);
    let mut faults: Vec<Fault> = Vec::new();
    for field in fields_of_all_kinds() {
        let beyond = field.high + 1;
        faults.push((7, field.line, Box::new(move |held| field.set(held, beyond))));
    }
    for (row, line) in FIRST_LINES.into_iter().enumerate() {
        faults.push((6, line, Box::new(move |held| held.set_id(row, b"a"))));
        faults.push((6, line, Box::new(move |held| held.set_id(row, b""))));
        if row > 0 {
            faults.push((8, line, Box::new(move |held| held.set_id(row, b"G"))));
        }
        faults.push((6, line + 1, Box::new(move |held| *held.number(row, 0) = -1)));
        if row < 4 {
            faults.push((6, line + 2, Box::new(move |held| *held.number(row, 1) = -1)));
        }
    }
    for (number, line, fault) in &faults {
        for (other_number, other_line, other_fault) in &faults {
            let mut held = all_kinds();
            fault(&mut held);
            other_fault(&mut held);
            // Two faults on one line are two ids in one place: the second stands.
            let expected = if line < other_line {
                refusal(*number, *line)
            } else {
                refusal(*other_number, *other_line)
            };
            assert_eq!(held.written(), expected);
        }
    }
}

#[test]
fn an_ill_formed_id_is_not_called_a_repeated_one() {
    for id in [&b""[..], b"a", b"A\n", b"\xFF"] {
        let mut held = all_kinds();
        held.set_id(2, id);
        held.set_id(4, id);
        assert_eq!(held.written(), refusal(6, 27));
    }
}

#[test]
fn what_no_line_carries_is_not_looked_at() {
    for junk in [i64::MIN, -1, 1, 4097, i64::MAX] {
        let mut held = all_kinds();
        held.header[7] = junk;
        for row in 0..6 {
            // The marks that a generator, and that a load, can have stay 0.
            *held.number(row, 8) = junk.wrapping_mul(if row < 4 { 64 } else { 16 });
            let id = row * ID_ROW;
            let end = held.ids[id..id + 16].iter().position(|&byte| byte == 0);
            held.ids[id + 16..id + ID_ROW].fill(junk as u8);
            if let Some(end) = end {
                // The byte 0 that ends the id must stay.
                held.ids[id + end + 1..id + 16].fill(junk as u8);
            }
        }
        for row in [4, 5] {
            for place in [1, 6, 7] {
                *held.number(row, place) = junk;
            }
        }
        let written = held.written().unwrap();
        assert_eq!(written, text(ALL_KINDS_TEXT).into_bytes());
        assert_eq!(values_of(&written), all_kinds());
    }
}

#[test]
fn only_whole_rows_of_both_sorts_are_held() {
    let expected = |rows: usize| {
        let mut held = all_kinds();
        held.ids.truncate(rows * ID_ROW);
        held.numbers.truncate(rows * NUMBER_ROW);
        unchecked_text(&held)
    };
    for rows in 0..6 {
        for left_over in [0, 1, 8] {
            let mut held = all_kinds();
            held.numbers.truncate(rows * NUMBER_ROW + left_over);
            // Beyond the rows nothing is looked at, however wrong.
            held.ids[rows * ID_ROW..].fill(b'?');
            held.numbers[rows * NUMBER_ROW..].fill(i64::MIN);
            assert_eq!(held.written(), Ok(expected(rows)));
        }
        for left_over in [0, 1, 16, 31] {
            let mut held = all_kinds();
            held.ids.truncate(rows * ID_ROW + left_over);
            held.ids[rows * ID_ROW..].fill(b'?');
            held.numbers[rows * NUMBER_ROW..].fill(i64::MIN);
            assert_eq!(held.written(), Ok(expected(rows)));
        }
    }
    let nothing = Held {
        header: all_kinds().header,
        ids: vec![],
        numbers: vec![],
    };
    assert_eq!(nothing.written(), Ok(expected(0)));
}

#[test]
fn as_many_resources_of_greatest_length_as_allowed() {
    let held = longest();
    let written = held.written().unwrap();
    assert_eq!(written.len(), 102 + 4096 * 126);
    assert_eq!(written, unchecked_text(&held));
    assert_eq!(values_of(&written), held);
    let mut exact = vec![0; written.len()];
    let Held {
        header,
        ids,
        numbers,
    } = &held;
    assert_eq!(
        write_held(header, ids, numbers, &mut exact),
        Ok(written.len())
    );
    assert_eq!(exact, written);
    exact.fill(0xAA);
    let short = &mut exact[1..];
    assert_eq!(write_held(header, ids, numbers, short), refusal(14, 0));
    assert!(short.iter().all(|&byte| byte == 0xAA));
    // The last line of each number, the last id being that of row 4095.
    let last = 9 + 4095 * 9;
    let spoilt = |spoil: &dyn Fn(&mut Held)| {
        let mut held = longest();
        spoil(&mut held);
        held.written()
    };
    assert_eq!(
        spoilt(&|held| *held.number(4095, 7) = 2),
        refusal(7, last + 8)
    );
    assert_eq!(
        spoilt(&|held| *held.number(4095, 1) = 7),
        refusal(6, last + 2)
    );
    assert_eq!(
        spoilt(&|held| *held.number(4095, 0) = 6),
        refusal(6, last + 1)
    );
    assert_eq!(spoilt(&|held| held.set_id(4095, b"")), refusal(6, last));
    for earlier in [0, 2047, 4094] {
        let id = format!("UNIT_{earlier:011}");
        let repeated = spoilt(&|held| held.set_id(4095, id.as_bytes()));
        assert_eq!(repeated, refusal(8, last));
    }
    let middle = 9 + 2048 * 9;
    assert_eq!(
        spoilt(&|held| held.set_id(2048, b"UNIT_00000000000")),
        refusal(8, middle)
    );
    assert_eq!(
        spoilt(&|held| *held.number(2048, 2) = -2_000_001),
        refusal(7, middle + 3)
    );
}

#[test]
fn one_resource_too_many() {
    let mut held = longest();
    held.ids.extend(id_row(b"MORE"));
    held.numbers.extend([4, 0, 0, 0, 0, 0, 0, 0]);
    assert_eq!(held.written().map(|text| text.len()), Ok(102 + 4096 * 126));
    held.numbers.push(0);
    assert_eq!(held.rows(), 4097);
    assert_eq!(held.written(), refusal(7, 8));
    // A wrong header line comes before, a wrong id after.
    held.set_id(0, b"");
    assert_eq!(held.written(), refusal(7, 8));
    held.header[6] = -1;
    assert_eq!(held.written(), refusal(7, 7));
    held.header[0] = 13;
    assert_eq!(held.written(), refusal(7, 1));
}

#[test]
fn a_short_buffer_is_refused_last() {
    let held = all_kinds();
    let length = text(ALL_KINDS_TEXT).len();
    let write = |held: &Held, room: usize| {
        let mut buffer = vec![0xAA; room];
        let answer = write_held(&held.header, &held.ids, &held.numbers, &mut buffer);
        if answer.is_err() {
            assert!(buffer.iter().all(|&byte| byte == 0xAA));
        }
        (answer, buffer)
    };
    for room in 0..length {
        assert_eq!(write(&held, room).0, refusal(14, 0));
    }
    for room in [length, length + 1, length + 1000] {
        let (answer, buffer) = write(&held, room);
        assert_eq!(answer, Ok(length));
        assert_eq!(buffer[..length], *text(ALL_KINDS_TEXT).as_bytes());
        assert!(buffer[length..].iter().all(|&byte| byte == 0xAA));
    }
    for room in [0, length - 1] {
        let mut held = all_kinds();
        *held.number(5, 5) = 2_000_001;
        assert_eq!(write(&held, room).0, refusal(7, 56));
        held.set_id(5, b"G");
        assert_eq!(write(&held, room).0, refusal(8, 51));
        held.set_id(5, b"g");
        assert_eq!(write(&held, room).0, refusal(6, 51));
    }
}

#[test]
fn reading_into_more_space_than_needed() {
    let text = text(ALL_KINDS_TEXT);
    for (more_ids, more_numbers) in [(0, 0), (1, 8), (31, 1), (32, 9), (100, 0), (0, 100)] {
        let mut lent = Held::lent(6);
        lent.ids.extend(vec![0x55; more_ids]);
        lent.numbers.extend(vec![-55; more_numbers]);
        assert_eq!(lent.read(text.as_bytes()), Ok(()));
        let mut expected = all_kinds();
        expected.ids.extend(vec![0x55; more_ids]);
        expected.numbers.extend(vec![-55; more_numbers]);
        assert_eq!(lent, expected);
    }
    let mut lent = Held::lent(3);
    assert_eq!(lent.read(snapshot_of(&[]).as_bytes()), Ok(()));
    let mut expected = Held::lent(3);
    expected.header = [7, 14, 0, 10_000, 1, 0, 0, 0];
    assert_eq!(lent, expected);
}

#[test]
fn too_little_space_is_refused_last() {
    let text = text(ALL_KINDS_TEXT);
    for (ids, numbers) in [
        (0, 54),
        (31, 54),
        (191, 54),
        (192, 53),
        (192, 8),
        (192, 0),
        (0, 0),
    ] {
        let mut lent = Held::lent(6);
        lent.ids.truncate(ids);
        lent.numbers.truncate(numbers);
        assert_eq!(lent.read(text.as_bytes()), refusal(14, 0));
        assert_eq!(lent.read(format!("{text}\n").as_bytes()), refusal(9, 57));
        let repeated = with_line_at(&text, 51, "id=G");
        assert_eq!(lent.read(repeated.as_bytes()), refusal(8, 51));
        let out_of_range = with_line_at(&text, 56, "rrs=2000001");
        assert_eq!(lent.read(out_of_range.as_bytes()), refusal(7, 56));
        assert_eq!(lent.read(&[b'x'; 1_048_577]), refusal(2, 0));
        assert_eq!(lent.read(snapshot_of(&[]).as_bytes()), Ok(()));
    }
    let mut lent = Held::lent(4095);
    assert_eq!(lent.read(&longest().written().unwrap()), refusal(14, 0));
}

#[test]
fn reading_refuses_what_a_snapshot_may_not_be() {
    let text = text(ALL_KINDS_TEXT);
    let read = |text: &str| Held::lent(6).read(text.as_bytes());
    for (index, line) in text.lines().enumerate() {
        let place = index as u64 + 1;
        let (key, _) = line.split_once('=').unwrap();
        let answer = |line: &str| read(&with_line_at(&text, index + 1, line));
        assert_eq!(read(&first_lines(&text, index)), refusal(3, place));
        assert_eq!(answer(key), refusal(4, place));
        assert_eq!(answer(&format!("{key}=")), refusal(5, place));
        assert_eq!(answer(&format!("{key}=+1")), refusal(6, place));
        if !["id", "kind", "status"].contains(&key) {
            assert_eq!(answer(&format!("{key}=200000001")), refusal(7, place));
        }
        if key == "id" && index > 8 {
            assert_eq!(answer("id=G"), refusal(8, place));
        }
    }
    assert_eq!(read(&format!("{text}x")), refusal(9, 57));
    assert_eq!(read(&"x".repeat(1_048_577)), refusal(2, 0));
    assert_eq!(read(&"x".repeat(1_048_576)), refusal(3, 1));
}

#[test]
fn a_text_that_is_read_and_written_yields_its_bytes() {
    let texts = [
        example_snapshot(),
        text(ALL_KINDS_TEXT),
        snapshot_of(&[]),
        snapshot_of(&["id=L kind=nclr rrsok=0 net=10 lpc=0 rrs=3"]),
        snapshot_of(&[
            "id=A kind=clr base=0 lpc=2000000 nonspin=0 regup=10",
            "id=A_ kind=gen status=STARTUP net=-2000000 lsl=0 hsl=1 base=2000000 nonspin=9 cold30=0",
            "id=____________0000 kind=nuke status=OFF net=0 lsl=0 hsl=9 base=0 nonspin=0 cold30=1",
        ]),
    ];
    for text in texts {
        assert_eq!(values_of(text.as_bytes()).written(), Ok(text.into_bytes()));
    }
}

#[test]
fn values_that_are_written_and_read_are_the_same() {
    let mut random = Random(1);
    for _ in 0..2000 {
        let held = random.held();
        let written = held.written().unwrap();
        assert_eq!(written, unchecked_text(&held));
        assert_eq!(values_of(&written), held);
    }
}

/// A refusal in writing is the one that the text would get in reading, but
/// that an empty id is 6 and not 5.
#[test]
fn writing_refuses_what_reading_would_refuse() {
    let mut random = Random(2);
    let mut seen = [0; 16];
    for _ in 0..20_000 {
        let mut held = random.held();
        for _ in 0..=random.below(3) {
            random.spoil(&mut held);
        }
        let text = unchecked_text(&held);
        let expected = match read_snapshot(&text) {
            Ok(_) => Ok(text.clone()),
            Err(Refusal { number: 5, line }) => refusal(6, line),
            Err(refusal) => Err(refusal),
        };
        assert_eq!(held.written(), expected);
        seen[expected.map_or_else(|refusal| refusal.number as usize, |_| 0)] += 1;
    }
    assert!(
        [0, 6, 7, 8, 15].iter().all(|&number| seen[number] > 100),
        "{seen:?}"
    );
}

#[test]
fn a_written_text_is_priced_as_the_values_are() {
    let curves = example_curves();
    let price = |held: &Held| {
        let snapshot = snapshot_of_held(&held.header, &held.ids, &held.numbers).unwrap();
        let prices = price_values(&curves, &snapshot);
        assert_eq!(
            price_snapshot(&curves, &held.written().unwrap()),
            Ok(prices)
        );
        prices
    };
    let mut held = values_of(example_snapshot().as_bytes());
    let expected = Prices {
        rs: 2_707_000,
        rsns: 3_000_000,
        pis: 158_655_254,
        pins: 158_655_254,
        online: 142_393,
        offline: 71_197,
    };
    assert_eq!(price(&held), expected);
    // An edit in memory: PRC at EEA Level 1, then B below 95 percent of its LSL.
    held.header[4] = 2_300_000;
    assert_eq!(price(&held).rsns, 2_707_000);
    *held.number(1, 2) = 94_999;
    assert_eq!(price(&held).rs, 1_800_000);
    price(&longest());
    let mut random = Random(3);
    for _ in 0..500 {
        price(&random.held());
    }
}
