//! The library's algorithm once more, in ordinary safe Rust: the baseline that the library is measured beside. The buffers, the index, the marks, the
//! passes and the order of the tests are the same; how a loop or a test is written is Rust's way.
mod index;
mod rebuild;
mod removal;
mod rules;
mod saved_read;
mod saved_write;
mod stack;
mod table;
mod text;

pub use rebuild::rebuild;
pub use removal::eliminate;
pub use saved_read::read_saved;
pub use saved_write::write_saved;
pub use stack::check_stack;
pub use table::is_sound;
pub use text::read_text;

/// Why a call is refused, with its place (document 01, 'Refusal numbers').
#[derive(Clone, Copy, Debug, PartialEq, Eq)]
pub enum Refusal {
    BadText(usize),
    OverLimit(usize),
    NoRoom,
    BadTable,
    BadStack(usize),
    NotBlocking(usize),
    BadValues(usize),
    NotModel(usize),
    BadSaved(usize),
}

impl Refusal {
    /// The refusal's number and place, as document 01's table has them.
    pub fn told(self) -> (usize, usize) {
        match self {
            Refusal::BadText(place) => (1, place),
            Refusal::OverLimit(place) => (2, place),
            Refusal::NoRoom => (3, 0),
            Refusal::BadTable => (4, 0),
            Refusal::BadStack(place) => (5, place),
            Refusal::NotBlocking(place) => (6, place),
            Refusal::BadValues(place) => (8, place),
            Refusal::NotModel(place) => (9, place),
            Refusal::BadSaved(place) => (10, place),
        }
    }
}
