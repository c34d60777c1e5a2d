//! A library with a fault: what it does not spoil is the reference's.

use differential::{
    input, run, shrink, Answer, Curves, Header, Input, Library, Plain, Random, RecordNumbers,
    Refusal,
};
use std::fmt::Debug;

/// The library with this fault.
pub struct Faulty<Fault>(pub Fault);

/// Each operation stands in the trait and in the library, so one list makes both.
macro_rules! operations {
    ($($operation:ident($($argument:ident: $type:ty),*);)*) => {
        /// The operations, each the reference's where a library does not spoil it.
        pub trait Spoils {
            $(fn $operation(&self, $($argument: $type),*) -> Refusal {
                Plain.$operation($($argument),*)
            })*
        }

        impl<Fault> Library for Faulty<Fault>
        where
            Faulty<Fault>: Spoils,
        {
            fn name(&self) -> &'static str {
                "faulty"
            }

            $(fn $operation(&self, $($argument: $type),*) -> Refusal {
                Spoils::$operation(self, $($argument),*)
            })*
        }
    };
}

operations! {
    book(record: &mut RecordNumbers, text: &[u8]);
    settle(record: &RecordNumbers, voll: i64, floor: i64, curves: &mut Curves);
    read_curves(text: &[u8], curves: &mut Curves);
    curves_length(curves: &Curves, length: &mut usize);
    write_curves(curves: &Curves, buffer: &mut [u8], written: &mut i64);
    price(curves: &Curves, text: &[u8], answer: &mut Answer);
    write_page(curves: &Curves, buffer: &mut [u8]);
    read_snapshot(text: &[u8], header: &mut Header, ids: &mut [u8], numbers: &mut [i64]);
    snapshot_length(header: &Header, ids: &[u8], numbers: &[i64], length: &mut usize);
    write_snapshot(
        header: &Header, ids: &[u8], numbers: &[i64], buffer: &mut [u8], written: &mut usize
    );
}

/// The smallest input found on which the fault shows.
pub fn smallest<Fault: Copy + Debug>(fault: Fault) -> Input
where
    Faulty<Fault>: Spoils,
{
    let differs = |input: &Input| run(&Faulty(fault), input) != run(&Plain, input);
    let inputs = (0..50_000).map(|place| input(&mut Random::at(7, place)));
    let found = inputs.into_iter().find(|input| differs(input));
    let found = found.unwrap_or_else(|| panic!("{fault:?} is not found"));
    let smallest = shrink(&found, differs);
    assert!(differs(&smallest));
    smallest
}
