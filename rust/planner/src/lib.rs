//! The text form of plans, with windows of planned work, and for people a listing, several thresholds beside each other and
//! credits.
//!
//! A convenience outside the proof: nothing here is proved. Plan files are read, written and run by the proved code
//! (libprobe.a), which also runs with windows and at several thresholds, reads equipment sheets and works out credits; the text
//! form, the names, the times of the week, the bytes of a sheet, the layout of tables and pictures and the words around credits
//! are plain Rust, held by tests.

mod asked;
mod axis;
mod check;
mod complete;
mod credit;
mod curve;
mod equipment;
mod events;
mod frame;
mod help;
mod line;
mod listing;
mod named;
mod names;
mod perfect;
mod picture;
mod print;
mod progress;
mod readings;
mod refused;
mod svg;
mod table;
mod text;
mod thresholds;
mod week;
mod windows;
mod witness;
mod work;

pub use asked::{thresholds, Drawing};
pub use check::{check, Checked};
pub use credit::{contract, credit};
pub use help::{form_of, help_of, HELP, VERSION};
pub use line::Fault;
pub use listing::listing;
pub use named::Named;
pub use perfect::warnings;
pub use picture::{drawn_pair, picture};
pub use print::{print, print_events};
pub use progress::Progress;
pub use refused::{plan_reason, sheet_reason};
pub use text::{parse, parse_sheet};
pub use thresholds::{at_thresholds, thresholds_table, AtThreshold};
pub use week::{minute_of, Wrong};
pub use windows::{windows_are, NamedWindow};
pub use witness::Witness;
pub use work::listing_at;
