//! A proved low-fare search in a Rust program.
//!
//! ```no_run
//! use lowfare::{Book, Request, Slice, BUDGET};
//!
//! # fn main() -> Result<(), Box<dyn std::error::Error>> {
//! let book = Book::from_case(&std::fs::read("book.case")?)?;
//! let request = Request::new("2031-02-01", 1, [Slice::new("LON", "NYC", "2031-03-03")]);
//! for ticket in book.search(&request, BUDGET)?.tickets {
//!     println!("{}", ticket.price);
//! }
//! # Ok(())
//! # }
//! ```
//!
//! The calls go to the library that `make_lib` builds, whose clauses are proved. What this crate does beside them, in
//! [`raw`] and in reading texts, is tested and not proved.

mod answer;
mod book;
mod error;
mod raw;
mod request;

pub use answer::{Answer, Breach, Cell, Check, Component, Flight, Ticket, Verdict};
pub use book::{run, Book, BUDGET};
pub use error::Error;
pub use request::{Request, Slice};
