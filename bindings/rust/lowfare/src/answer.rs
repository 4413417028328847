//! What a book answers, read from the library's texts.

use crate::Error;

/// A dated flight of a component.
#[derive(Clone, Debug, PartialEq, Eq)]
pub struct Flight {
    pub carrier: String,
    pub number: u16,
    /// The local day of its departure, as `2031-03-03`.
    pub date: String,
    pub from: String,
    pub to: String,
}

/// Flights that one fare pays for, with the number and the kind of their pricing unit; the places are the fare's.
#[derive(Clone, Debug, PartialEq, Eq)]
pub struct Component {
    pub unit: u8,
    /// `one_way`, `round_trip`, `open_jaw` or `circle`.
    pub kind: String,
    pub is_forward: bool,
    pub carrier: String,
    pub from: String,
    pub to: String,
    pub basis: String,
    pub price: u64,
    pub flights: Vec<Flight>,
}

/// A lawful ticket, with its price for one passenger.
#[derive(Clone, Debug, PartialEq, Eq)]
pub struct Ticket {
    pub price: u64,
    pub components: Vec<Component>,
}

impl Ticket {
    /// The lines that [`Book::verdict`](crate::Book::verdict) takes.
    #[must_use]
    pub fn to_text(&self) -> Vec<u8> {
        let mut text = String::new();
        for part in &self.components {
            text += &format!(
                "component {} {} {} {} {}\n",
                part.unit, part.carrier, part.from, part.to, part.basis
            );
            for leg in &part.flights {
                text += &format!(
                    "flight {} {} {} {}\n",
                    leg.carrier, leg.number, leg.date, leg.from
                );
            }
        }
        text.into_bytes()
    }
}

/// The best tickets of a request in one version of a book, ascending by price, with the certificate by which whoever has
/// the book can check that they are the best.
#[derive(Clone, Debug, PartialEq, Eq)]
pub struct Answer {
    pub version: u32,
    pub tickets: Vec<Ticket>,
    pub certificate: Vec<u8>,
    /// The whole text, as the program prints it.
    pub text: Vec<u8>,
}

/// What a check of a certificate says: that it holds, or the first check that fails, by its number, and where.
#[derive(Clone, Copy, Debug, PartialEq, Eq)]
pub enum Check {
    Yes,
    No { check: u8, place: u32 },
}

/// A pair of days of a calendar. There is no price where there is no ticket, or the search is too large.
#[derive(Clone, Debug, PartialEq, Eq)]
pub struct Cell {
    pub out: String,
    pub back: String,
    pub price: Option<u64>,
    pub is_too_large: bool,
}

/// A rule that a ticket breaks, with the component, the unit and the category that it is broken at, 0 where there is
/// none.
#[derive(Clone, Copy, Debug, PartialEq, Eq)]
pub struct Breach {
    pub rule: u8,
    pub component: u8,
    pub unit: u8,
    pub category: u8,
}

/// Whether a ticket is lawful, with its price, or all its breaches.
#[derive(Clone, Debug, PartialEq, Eq)]
pub enum Verdict {
    Lawful { price: u64 },
    Breaches(Vec<Breach>),
}

/// A text that isn't of the form that is expected.
fn unknown(text: &[u8]) -> Error {
    Error::Unknown(String::from_utf8_lossy(text).into_owned())
}

fn number<N: std::str::FromStr>(word: &str) -> Option<N> {
    word.parse().ok()
}

const CERTIFICATE: &[u8] = b"certificate 1\n";

/// The answer of a text of `search`.
pub(crate) fn answer_of(text: Vec<u8>) -> Result<Answer, Error> {
    let read = || {
        let at = text
            .windows(CERTIFICATE.len())
            .position(|part| part == CERTIFICATE)?;
        let mut lines = std::str::from_utf8(&text[..at]).ok()?.lines();
        let version = number(lines.next()?.strip_prefix("version ")?)?;
        lines.next()?.strip_prefix("tickets ")?;
        let mut tickets = Vec::new();
        for line in lines {
            add_line(&mut tickets, line)?;
        }
        Some((version, tickets, text[at..].to_vec()))
    };
    match read() {
        Some((version, tickets, certificate)) => Ok(Answer {
            version,
            tickets,
            certificate,
            text,
        }),
        None => Err(unknown(&text)),
    }
}

/// Adds what a line says: a ticket, a component of the last ticket, or a flight of the last component.
fn add_line(tickets: &mut Vec<Ticket>, line: &str) -> Option<()> {
    let words: Vec<&str> = line.split(' ').collect();
    match words[..] {
        ["ticket", _, "price", price] => tickets.push(Ticket {
            price: number(price)?,
            components: Vec::new(),
        }),
        ["component", _, "unit", unit, kind, direction, carrier, from, to, basis, price] => {
            tickets.last_mut()?.components.push(Component {
                unit: number(unit)?,
                kind: kind.to_string(),
                is_forward: direction == "forward",
                carrier: carrier.to_string(),
                from: from.to_string(),
                to: to.to_string(),
                basis: basis.to_string(),
                price: number(price)?,
                flights: Vec::new(),
            });
        }
        ["flight", carrier, flight, date, from, to] => {
            let part = tickets.last_mut()?.components.last_mut()?;
            part.flights.push(Flight {
                carrier: carrier.to_string(),
                number: number(flight)?,
                date: date.to_string(),
                from: from.to_string(),
                to: to.to_string(),
            });
        }
        _ => return None,
    }
    Some(())
}

/// The check of a text of `check`.
pub(crate) fn check_of(text: &[u8]) -> Result<Check, Error> {
    let read = || {
        let words = std::str::from_utf8(text).ok()?.trim_end();
        if words == "yes" {
            return Some(Check::Yes);
        }
        let (check, place) = words.strip_prefix("no C")?.split_once(' ')?;
        Some(Check::No {
            check: number(check)?,
            place: number(place)?,
        })
    };
    read().ok_or_else(|| unknown(text))
}

/// The cells of a text of `calendar`.
pub(crate) fn cells_of(text: &[u8]) -> Result<Vec<Cell>, Error> {
    let cell = |line: &str| {
        let words: Vec<&str> = line.splitn(4, ' ').collect();
        match words[..] {
            ["cell", out, back, price] => Some(Cell {
                out: out.to_string(),
                back: back.to_string(),
                price: number(price),
                is_too_large: price == "too large",
            }),
            _ => None,
        }
    };
    let lines = std::str::from_utf8(text).map_err(|_| unknown(text))?;
    let cells: Option<Vec<Cell>> = lines.lines().skip(2).map(cell).collect();
    cells.ok_or_else(|| unknown(text))
}

/// The verdict of a text of `verdict`.
pub(crate) fn verdict_of(text: &[u8]) -> Result<Verdict, Error> {
    let breach = |line: &str| {
        let words: Vec<&str> = line.split(' ').collect();
        match words[..] {
            ["breach", rule, "component", component, "unit", unit, "category", category] => {
                Some(Breach {
                    rule: number(rule)?,
                    component: number(component)?,
                    unit: number(unit)?,
                    category: number(category)?,
                })
            }
            _ => None,
        }
    };
    let read = || {
        let lines = std::str::from_utf8(text).ok()?;
        if let Some(price) = lines.strip_prefix("lawful price ") {
            return Some(Verdict::Lawful {
                price: number(price.trim_end())?,
            });
        }
        let breaches: Option<Vec<Breach>> = lines.lines().skip(1).map(breach).collect();
        Some(Verdict::Breaches(breaches?))
    };
    read().ok_or_else(|| unknown(text))
}
