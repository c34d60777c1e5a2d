//! The reference behind the trait.

use crate::{Answer, Curves, Header, Library, RecordNumbers, Refusal};
use reference::{CurveSet, Group, Record};

/// The reference.
pub struct Plain;

fn record(numbers: &RecordNumbers) -> Record {
    Record {
        groups: std::array::from_fn(|place| Group {
            // A count below 0 becomes one far above 1000, and so stays
            // impossible.
            count: numbers[3 * place] as u64,
            sum: numbers[3 * place + 1],
            squares: numbers[3 * place + 2],
        }),
    }
}

/// The reference's form of a curve set.
pub fn curve_set(numbers: &Curves) -> CurveSet {
    CurveSet {
        voll: numbers[0],
        floor: numbers[1],
        pairs: std::array::from_fn(|place| (numbers[2 + 2 * place], numbers[3 + 2 * place])),
    }
}

fn set_curves(numbers: &mut Curves, curves: &CurveSet) {
    numbers[0] = curves.voll;
    numbers[1] = curves.floor;
    for (place, &(mu, sigma)) in curves.pairs.iter().enumerate() {
        numbers[2 + 2 * place] = mu;
        numbers[3 + 2 * place] = sigma;
    }
}

/// Takes an answer over, or gives the refusal.
fn take<T>(answer: Result<T, reference::Refusal>, accept: impl FnOnce(T)) -> Refusal {
    match answer {
        Ok(answer) => {
            accept(answer);
            Refusal::NONE
        }
        Err(refusal) => Refusal {
            number: refusal.number.into(),
            line: refusal.line,
        },
    }
}

impl Library for Plain {
    fn name(&self) -> &'static str {
        "reference"
    }

    fn book(&self, numbers: &mut RecordNumbers, text: &[u8]) -> Refusal {
        take(reference::book(&record(numbers), text), |booked| {
            for (place, group) in booked.groups.iter().enumerate() {
                numbers[3 * place] = group.count as i64;
                numbers[3 * place + 1] = group.sum;
                numbers[3 * place + 2] = group.squares;
            }
        })
    }

    fn settle(
        &self,
        numbers: &RecordNumbers,
        voll: i64,
        floor: i64,
        curves: &mut Curves,
    ) -> Refusal {
        let settled = reference::settle(&record(numbers), voll, floor);
        take(settled, |settled| set_curves(curves, &settled))
    }

    fn read_curves(&self, text: &[u8], curves: &mut Curves) -> Refusal {
        take(reference::read_curves(text), |read| {
            set_curves(curves, &read)
        })
    }

    fn curves_length(&self, curves: &Curves, length: &mut usize) -> Refusal {
        let told = reference::curves_length(&curve_set(curves));
        take(told, |told| *length = told)
    }

    fn write_curves(&self, curves: &Curves, buffer: &mut [u8], written: &mut i64) -> Refusal {
        let length = reference::write_curves(&curve_set(curves), buffer);
        take(length, |length| *written = length as i64)
    }

    fn price(&self, curves: &Curves, text: &[u8], answer: &mut Answer) -> Refusal {
        take(
            reference::price_snapshot(&curve_set(curves), text),
            |prices| {
                *answer = [
                    prices.rs,
                    prices.rsns,
                    prices.pis,
                    prices.pins,
                    prices.online,
                    prices.offline,
                ];
            },
        )
    }

    fn write_page(&self, curves: &Curves, buffer: &mut [u8]) -> Refusal {
        take(reference::write_page(&curve_set(curves), buffer), |_| ())
    }

    fn read_snapshot(
        &self,
        text: &[u8],
        header: &mut Header,
        ids: &mut [u8],
        numbers: &mut [i64],
    ) -> Refusal {
        take(reference::read_held(text, header, ids, numbers), |()| ())
    }

    fn snapshot_length(
        &self,
        header: &Header,
        ids: &[u8],
        numbers: &[i64],
        length: &mut usize,
    ) -> Refusal {
        let told = reference::held_length(header, ids, numbers);
        take(told, |told| *length = told)
    }

    fn write_snapshot(
        &self,
        header: &Header,
        ids: &[u8],
        numbers: &[i64],
        buffer: &mut [u8],
        written: &mut usize,
    ) -> Refusal {
        let length = reference::write_held(header, ids, numbers, buffer);
        take(length, |length| *written = length)
    }
}
