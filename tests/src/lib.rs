//! What the library is compared with, and measured beside.
pub mod books;
pub mod cadical;
pub mod compare;
pub mod doors;
pub mod random;
pub mod same;
pub mod second;
