//! The files that are read and written.

mod kind;
mod place;
mod source;
mod target;
mod write;

pub use kind::{Contents, Kind};
pub use source::Source;
pub use target::{Target, PICTURE, PLAN, SHEET};
