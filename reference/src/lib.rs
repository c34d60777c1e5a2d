//! Reserve curves and the on-line and off-line price adders.
//!
//! History hours are booked into a [`Record`], a record settles into a
//! [`CurveSet`] of 24 pairs (mu, sigma), and a curve set prices a snapshot of
//! the grid or is printed as a page. A snapshot that a host holds as rows of
//! numbers is written as its text and read back into rows. A resource's number
//! may be marked suspect; on a unit that counts, or may count, such a number is
//! refused, and elsewhere its mark is kept. Power is in whole kW, money in whole
//! cents per MWh and shares of one in billionths. All arithmetic is exact;
//! nothing uses floating point.

mod curves;
mod held;
mod held_check;
mod history;
mod marks;
mod natural;
mod normal;
mod page;
mod price;
mod programs;
mod snapshot;
mod snapshot_text;
mod text;

pub use curves::{
    curves_length, read_curves, write_curves, CurveSet, FLOOR_RANGE, VOLL_RANGE, WRITTEN_LEAST,
    WRITTEN_LIMIT,
};
pub use held::{held_length, held_text, read_held, write_held, ID_ROW, NUMBER_ROW};
pub use held_check::snapshot_of_held;
pub use history::{book, group_of, settle, Group, Record, GROUPS};
pub use marks::turned_back_by_a_mark;
pub use normal::{n_of, normal_table, BILLION, KNOTS};
pub use page::{write_page, PAGE_LENGTH};
pub use price::{
    pi_ns, pi_s, price_snapshot, price_values, reserves, sums, Prices, Reserves, Sums,
};
pub use programs::{
    run_curves, run_curves_from, run_page, run_price, PAGE_INPUT_LIMIT, PRICE_INPUT_LIMIT,
};
pub use snapshot::{
    read_snapshot, Clr, Generator, GeneratorKind, Nclr, Resource, Snapshot, Status, Unit,
};
pub use text::{number, Refusal};
