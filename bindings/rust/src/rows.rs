//! The layout of a snapshot in the library's rows (include/ordc.h).

use crate::raw::{HEADER, ID_ROW, NUMBER_ROW, RESOURCES};
use crate::snapshot::*;

/// The place of a row's first number, after its kind and its status.
const FIRST_NUMBER: usize = 2;

/// The place of a row's marks.
const MARKS: usize = NUMBER_ROW - 1;

/// No id is longer.
const LONGEST_ID: usize = 16;

/// No resource has fewer bytes in a text: id=A, kind=nclr, rrsok=0, net=0, lpc=0 and rrs=0, each with its byte 10.
const SHORTEST_RESOURCE: usize = 41;

/// Stands in an id row for what an id row cannot hold. No id has this byte, so the library refuses the id, at its line
/// and only where no line above it is refused.
const NO_ID_BYTE: u8 = b'?';

// A kind's number, and a status's, is its place in the list.
const GENERATOR_KINDS: [GeneratorKind; 4] = [
    GeneratorKind::Gen,
    GeneratorKind::Wind,
    GeneratorKind::Irr,
    GeneratorKind::Nuke,
];
const CLR: i64 = 4;
const NCLR: i64 = 5;
const STATUSES: [Status; 7] = [
    Status::On,
    Status::Off,
    Status::OffNs,
    Status::OnTest,
    Status::Startup,
    Status::Shutdown,
    Status::Out,
];

pub struct Rows {
    pub header: [i64; HEADER],
    pub ids: Vec<u8>,
    pub numbers: Vec<i64>,
}

impl Rows {
    /// Rows for as many resources as the text can have, so that it is never refused for want of space.
    pub fn enough_for(text: &[u8]) -> Rows {
        let resources = (text.len() / SHORTEST_RESOURCE).min(RESOURCES);
        Rows {
            header: [0; HEADER],
            ids: vec![0; resources * ID_ROW],
            numbers: vec![0; resources * NUMBER_ROW],
        }
    }

    pub fn of(snapshot: &Snapshot) -> Rows {
        let resources = &snapshot.resources;
        Rows {
            header: [
                snapshot.month,
                snapshot.hour,
                snapshot.lambda,
                snapshot.factor,
                snapshot.prc,
                snapshot.eea1,
                snapshot.short,
                0, // the number of rows stands for it
            ],
            ids: resources.iter().flat_map(|r| id_row(&r.id)).collect(),
            numbers: resources.iter().flat_map(|r| number_row(&r.unit)).collect(),
        }
    }

    /// The snapshot of rows that the library has read.
    pub fn snapshot(&self) -> Snapshot {
        let [month, hour, lambda, factor, prc, eea1, short, count] = self.header;
        let rows = self
            .ids
            .chunks_exact(ID_ROW)
            .zip(self.numbers.chunks_exact(NUMBER_ROW))
            .take(count as usize);
        Snapshot {
            month,
            hour,
            lambda,
            factor,
            prc,
            eea1,
            short,
            resources: rows
                .map(|(id, numbers)| Resource {
                    id: id_of(id),
                    unit: unit_of(numbers),
                })
                .collect(),
        }
    }
}

fn id_row(id: &str) -> [u8; ID_ROW] {
    let mut row = [0; ID_ROW];
    for (place, byte) in row.iter_mut().zip(id.bytes().take(LONGEST_ID)) {
        // A byte 0 would end the id here.
        *place = if byte == 0 { NO_ID_BYTE } else { byte };
    }
    if id.len() > LONGEST_ID {
        row[LONGEST_ID - 1] = NO_ID_BYTE;
    }
    row
}

fn id_of(row: &[u8]) -> String {
    let bytes = row[..LONGEST_ID].iter().take_while(|&&byte| byte != 0);
    bytes.map(|&byte| char::from(byte)).collect()
}

#[rustfmt::skip] // Kind and status, the numbers of the kind, the places that it does not use, the marks.
fn number_row(unit: &Unit) -> [i64; NUMBER_ROW] {
    let marks = marks_of(unit);
    match unit {
        Unit::Generator(unit) => [
            place_of(&GENERATOR_KINDS, unit.kind), place_of(&STATUSES, unit.status),
            unit.net, unit.lsl, unit.hsl, unit.base, unit.nonspin, i64::from(unit.cold30),
            marks,
        ],
        Unit::ControllableLoad(load) => [
            CLR, 0,
            load.base, load.lpc, load.nonspin, load.regup,
            0, 0, marks,
        ],
        Unit::OtherLoad(load) => [
            NCLR, 0,
            i64::from(load.rrsok), load.net, load.lpc, load.rrs,
            0, 0, marks,
        ],
    }
}

/// The marks of a unit's numbers as one number: 1 for the first of them, 2 for the second, then 4, 8 and 16, added up.
fn marks_of(unit: &Unit) -> i64 {
    let laid = |marks: &[bool]| {
        let bits = marks.iter().enumerate();
        bits.map(|(bit, &mark)| i64::from(mark) << bit).sum()
    };
    match unit {
        Unit::Generator(Generator { marks, .. }) => {
            laid(&[marks.net, marks.lsl, marks.hsl, marks.base, marks.nonspin])
        }
        Unit::ControllableLoad(ControllableLoad { marks, .. }) => {
            laid(&[marks.base, marks.lpc, marks.nonspin, marks.regup])
        }
        // The first number is rrsok, a flag, which carries no mark.
        Unit::OtherLoad(OtherLoad { marks, .. }) => laid(&[false, marks.net, marks.lpc, marks.rrs]),
    }
}

fn unit_of(row: &[i64]) -> Unit {
    let marked = |place| row[MARKS] >> (place - FIRST_NUMBER) & 1 == 1;
    match row[0] {
        CLR => Unit::ControllableLoad(ControllableLoad {
            base: row[2],
            lpc: row[3],
            nonspin: row[4],
            regup: row[5],
            marks: ControllableLoadMarks {
                base: marked(2),
                lpc: marked(3),
                nonspin: marked(4),
                regup: marked(5),
            },
        }),
        NCLR => Unit::OtherLoad(OtherLoad {
            rrsok: row[2] != 0,
            net: row[3],
            lpc: row[4],
            rrs: row[5],
            marks: OtherLoadMarks {
                net: marked(3),
                lpc: marked(4),
                rrs: marked(5),
            },
        }),
        kind => Unit::Generator(Generator {
            kind: GENERATOR_KINDS[kind as usize],
            status: STATUSES[row[1] as usize],
            net: row[2],
            lsl: row[3],
            hsl: row[4],
            base: row[5],
            nonspin: row[6],
            cold30: row[7] != 0,
            marks: GeneratorMarks {
                net: marked(2),
                lsl: marked(3),
                hsl: marked(4),
                base: marked(5),
                nonspin: marked(6),
            },
        }),
    }
}

fn place_of<T: PartialEq>(list: &[T], item: T) -> i64 {
    let place = list.iter().position(|listed| *listed == item);
    place.expect("the list has every item") as i64
}
