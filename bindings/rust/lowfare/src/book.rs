//! Books, and the program's commands.

use crate::answer::{answer_of, cells_of, check_of, verdict_of};
use crate::raw::{self, BookHandle};
use crate::{Answer, Cell, Check, Error, Request, Verdict};
use std::sync::{Mutex, PoisonError};

/// The budget that the program has by default: how many residuals a search may reach.
pub const BUDGET: u32 = 100_000;

/// Runs a command of the program, any but `serve`, over an input in memory: the exit status that the program would end
/// with, and what it would print. No word has a line feed.
pub fn run(words: &[&str], input: &[u8]) -> Result<(u32, Vec<u8>), Error> {
    raw::run(words.join("\n").as_bytes(), input)
}

/// A version of a book. It never changes: `file` gives the next version. Many threads may ask it at once: the lock is
/// held while a handle is counted, and not during the call.
pub struct Book {
    handle: Mutex<BookHandle>,
}

impl Book {
    /// The book of the text of a search's case: its last version.
    pub fn from_case(case: &[u8]) -> Result<Book, Error> {
        Ok(Book::of(raw::open(case)?))
    }

    fn of(handle: BookHandle) -> Book {
        Book {
            handle: Mutex::new(handle),
        }
    }

    /// A handle for one call.
    fn own(&self) -> Result<BookHandle, Error> {
        self.handle
            .lock()
            .unwrap_or_else(PoisonError::into_inner)
            .share()
    }

    /// The version's number: how many filings the book has.
    pub fn version(&self) -> Result<u32, Error> {
        Ok(self.own()?.version())
    }

    /// The next version, with a filing, which is a JSON text.
    pub fn file(&self, filing: &[u8]) -> Result<Book, Error> {
        Ok(Book::of(self.own()?.file(filing)?))
    }

    /// What the command `search` prints for a request that is a JSON text. `best` takes the place of the request's own
    /// number of tickets.
    pub fn search_text(
        &self,
        request: &[u8],
        best: Option<u16>,
        budget: u32,
    ) -> Result<Vec<u8>, Error> {
        self.own()?
            .search(request, best.unwrap_or(0).into(), budget)
    }

    /// The best tickets of a request.
    pub fn search(&self, request: &Request, budget: u32) -> Result<Answer, Error> {
        answer_of(self.search_text(&request.to_json(), None, budget)?)
    }

    /// Whether a certificate shows that its answers are the best tickets of the request in this version.
    pub fn check(&self, request: &Request, certificate: &[u8]) -> Result<Check, Error> {
        check_of(&self.own()?.check(&request.to_json(), certificate)?)
    }

    /// For a request of two slices the least price of each pair of days: so many days out and so many back, 1 to 31,
    /// from the first days of its slices on.
    pub fn calendar(
        &self,
        request: &Request,
        outs: u8,
        backs: u8,
        budget: u32,
    ) -> Result<Vec<Cell>, Error> {
        cells_of(
            &self
                .own()?
                .calendar(&request.to_json(), outs, backs, budget)?,
        )
    }

    /// Whether a ticket is lawful for the request, with its price, or all its breaches. The ticket is the lines of
    /// [`Ticket::to_text`](crate::Ticket::to_text), or of a case's `#ticket` section.
    pub fn verdict(&self, request: &Request, ticket: &[u8]) -> Result<Verdict, Error> {
        verdict_of(&self.own()?.verdict(&request.to_json(), ticket)?)
    }
}
