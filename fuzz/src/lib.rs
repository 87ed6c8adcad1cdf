//! A second, independent checker (`checker`, `text`), and what makes cases for it and for the library.
pub mod checker;
pub mod damage;
pub mod generate;
pub mod random;
pub mod text;
pub mod trace;
pub mod writer;
