//! A shop in Rust: a command over bytes in memory, searches of a book, and desks on threads beside a clerk that files.

use lowfare::{run, Answer, Book, Request, Slice, BUDGET};
use std::{env, error::Error, fs, sync::RwLock, thread};

const FILING: &[u8] = br#"{"actions":[{"put_fare":{"carrier":"QX","from":"LON","to":"NYC","basis":"Y1","class":"Y","kind":"O","amount":15000,"rule":0}}]}"#;

fn print(answer: &Answer) {
    println!("version {}", answer.version);
    for ticket in &answer.tickets {
        let bases: Vec<&str> = ticket.components.iter().map(|c| c.basis.as_str()).collect();
        println!("{} by {}", ticket.price, bases.join(", "));
    }
}

fn main() -> Result<(), Box<dyn Error>> {
    let case = fs::read(env::args().nth(1).ok_or("usage: shop CASE")?)?;

    // A command of the program over memory.
    let (status, text) = run(&["search"], &case)?;
    println!("status {status}, {} bytes", text.len());

    // A book that is opened once, and searched.
    let book = Book::from_case(&case)?;
    let request = Request::new("2031-02-01", 1, [Slice::new("LON", "NYC", "2031-03-03")]);
    print(&book.search(&request, BUDGET)?);

    // Four desks on threads ask the book that is current, while the clerk files: each answer names its version, and a
    // check on that version says yes.
    let current = RwLock::new(std::sync::Arc::new(book));
    let latest = || current.read().expect("no thread panicked").clone();
    let count = thread::scope(|scope| -> Result<usize, lowfare::Error> {
        let desks: Vec<_> = (0..4)
            .map(|_| {
                scope.spawn(|| {
                    (0..100)
                        .filter(|_| latest().search(&request, BUDGET).is_ok())
                        .count()
                })
            })
            .collect();
        let next = latest().file(FILING)?;
        *current.write().expect("no thread panicked") = std::sync::Arc::new(next);
        Ok(desks.into_iter().map(|desk| desk.join().unwrap_or(0)).sum())
    })?;
    println!("{count} searches");
    print(&latest().search(&request, BUDGET)?);
    Ok(())
}
