//! A snapshot of all kinds as a text and as rows, and what a host does with them.

use ordc::{
    read_snapshot, snapshot_length, write_snapshot, Refusal, Snapshot, HEADER, ID_ROW, NUMBER_ROW,
};

/// Header at lines 1 to 8; six generators at lines 9, 18, 27, 36, 45 and 54; a clr at 63; an nclr at 69 and at 75. The
/// last line is 80.
pub const ALL_KINDS: &str = include_str!("../../../python/examples/snapshots/5-all-kinds.txt");
pub const FIRST_LINES: [u64; 9] = [9, 18, 27, 36, 45, 54, 63, 69, 75];

/// The rows of ALL_KINDS, laid by hand.
#[rustfmt::skip]
pub const NUMBERS: [[i64; NUMBER_ROW]; 9] = [
    [0, 0, 1_190_000, 600_000, 2_000_000, 1_200_000, 50_000, 0, 0],
    [0, 2, 0, 150_000, 400_000, 0, 400_000, 0, 0],
    [0, 1, 0, 40_000, 100_000, 0, 0, 1, 0],
    [1, 0, 900_000, 0, 1_900_000, 900_000, 0, 0, 0],
    [2, 0, 500_000, 0, 800_000, 500_000, 0, 0, 0],
    [3, 0, 1_250_000, 1_000_000, 1_300_000, 1_250_000, 0, 0, 0],
    [4, 0, 300_000, 50_000, 30_000, 40_000, 0, 0, 0],
    [5, 0, 1, 900_000, 20_000, 300_001, 0, 0, 0],
    [5, 0, 0, 200_000, 0, 150_000, 0, 0, 0],
];
pub const IDS: [&[u8]; 9] = [
    b"GAS_1", b"GAS_2", b"GAS_3", b"WIND_1", b"SOLAR_1", b"NUKE_1", b"CLR_1", b"NCLR_1", b"NCLR_2",
];

/// What a host holds, or lends for reading.
#[derive(Clone, Debug, PartialEq, Eq)]
pub struct Held {
    pub header: [i64; HEADER],
    pub ids: Vec<u8>,
    pub numbers: Vec<i64>,
}

impl Held {
    pub fn all_kinds() -> Held {
        let mut held = Held {
            header: [8, 16, 4500, 9800, 2_900_000, 2_300_000, 5000, 9],
            ids: vec![0; 9 * ID_ROW],
            numbers: NUMBERS.concat(),
        };
        for (row, id) in IDS.iter().enumerate() {
            held.set_id(row, id);
        }
        held
    }

    /// Space with something in every place.
    pub fn lent(id_bytes: usize, numbers: usize) -> Held {
        Held {
            header: [-7; HEADER],
            ids: vec![7; id_bytes],
            numbers: vec![-7; numbers],
        }
    }

    /// Space for so many resources.
    pub fn rows(resources: usize) -> Held {
        Held::lent(resources * ID_ROW, resources * NUMBER_ROW)
    }

    pub fn set_id(&mut self, row: usize, id: &[u8]) {
        let row = &mut self.ids[row * ID_ROW..][..ID_ROW];
        row.fill(0);
        row[..id.len()].copy_from_slice(id);
    }

    pub fn number(&mut self, row: usize, place: usize) -> &mut i64 {
        &mut self.numbers[row * NUMBER_ROW + place]
    }

    pub fn read(&mut self, text: &[u8]) -> Result<(), Refusal> {
        read_snapshot(text, &mut self.header, &mut self.ids, &mut self.numbers)
    }

    pub fn length(&self) -> Result<usize, Refusal> {
        snapshot_length(&self.header, &self.ids, &self.numbers)
    }

    pub fn write(&self, buffer: &mut [u8]) -> Result<usize, Refusal> {
        write_snapshot(&self.header, &self.ids, &self.numbers, buffer)
    }

    pub fn text(&self) -> Vec<u8> {
        let mut text = vec![0; self.length().unwrap()];
        assert_eq!(self.write(&mut text), Ok(text.len()));
        text
    }

    /// The values are refused, whatever the buffer, which stays.
    pub fn refused(&self, number: u64, line: u64) {
        let refusal = Refusal { number, line };
        assert_eq!(self.length(), Err(refusal));
        for size in [0, 1, 2000] {
            let mut buffer = vec![7; size];
            assert_eq!(self.write(&mut buffer), Err(refusal));
            assert_eq!(buffer, vec![7; size]);
        }
    }
}

/// The text is refused, and what was lent for it stays.
pub fn refused(text: &[u8], number: u64, line: u64) {
    let refusal = Refusal { number, line };
    assert_eq!(Snapshot::from_text(text), Err(refusal));
    for resources in [0, 9, 20] {
        let mut held = Held::rows(resources);
        assert_eq!(held.read(text), Err(refusal));
        assert_eq!(held, Held::rows(resources));
    }
}

/// The text with another value in its line, counted from 1.
pub fn with_line(text: &str, line: usize, value: &str) -> String {
    let mut lines: Vec<String> = text.lines().map(String::from).collect();
    let (key, _) = lines[line - 1].split_once('=').unwrap();
    lines[line - 1] = format!("{key}={value}");
    lines.join("\n") + "\n"
}
