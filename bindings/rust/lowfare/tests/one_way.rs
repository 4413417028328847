//! Facts of the one-way case, which docs/FORMATS.md works out by hand; refusals; and threads.

use lowfare::{run, Book, Check, Error, Request, Slice, Verdict, BUDGET};
use std::{fs, thread};

const FILING: &[u8] = br#"{"actions":[{"put_fare":{"carrier":"QX","from":"LON","to":"NYC","basis":"Y1","class":"Y","kind":"O","amount":15000,"rule":0}}]}"#;

fn example(name: &str) -> Vec<u8> {
    fs::read(format!(
        "{}/../../../examples/{name}",
        env!("CARGO_MANIFEST_DIR")
    ))
    .expect("the example is there")
}

fn one_way() -> Book {
    Book::from_case(&example("one-way.case")).expect("the case is lawful")
}

fn request() -> Request {
    let slice = Slice::new("LON", "NYC", "2031-03-03");
    Request {
        best: 3,
        ..Request::new("2031-02-01", 1, [slice])
    }
}

#[test]
fn a_search_prints_what_the_program_prints() {
    let text = one_way().search_text(&request().to_json(), None, BUDGET);
    assert_eq!(text, Ok(example("one-way.out")));
}

#[test]
fn an_answer_has_its_ticket() {
    let answer = one_way().search(&request(), BUDGET).expect("an answer");
    assert_eq!(answer.version, 1);
    assert_eq!(answer.tickets.len(), 1);
    assert_eq!(answer.tickets[0].price, 20000);
    assert_eq!(answer.tickets[0].components[0].flights[0].number, 101);
}

#[test]
fn a_filing_makes_another_book() {
    let old = one_way();
    let new = old.file(FILING).expect("the filing is taken");
    let price = |book: &Book| book.search(&request(), BUDGET).map(|a| a.tickets[0].price);
    assert_eq!((old.version(), new.version()), (Ok(1), Ok(2)));
    assert_eq!((price(&old), price(&new)), (Ok(20000), Ok(15000)));
}

#[test]
fn a_certificate_is_checked() {
    let old = one_way();
    let proof = old
        .search(&request(), BUDGET)
        .expect("an answer")
        .certificate;
    assert_eq!(old.check(&request(), &proof), Ok(Check::Yes));
    let new = old.file(FILING).expect("the filing is taken");
    assert!(matches!(
        new.check(&request(), &proof),
        Ok(Check::No { .. })
    ));
}

#[test]
fn a_ticket_is_judged() {
    let book = one_way();
    let answer = book.search(&request(), BUDGET).expect("an answer");
    let lines = answer.tickets[0].to_text();
    assert_eq!(
        book.verdict(&request(), &lines),
        Ok(Verdict::Lawful { price: 20000 })
    );
    let other = String::from_utf8_lossy(&lines).replace("Y1", "Y2");
    assert!(matches!(
        book.verdict(&request(), other.as_bytes()),
        Ok(Verdict::Breaches(_))
    ));
}

#[test]
fn a_refusal_has_its_line_and_reason() {
    let refused = |line, reason: &str| Error::Refused {
        line,
        reason: reason.to_string(),
    };
    assert_eq!(Book::from_case(b"").err(), Some(refused(1, "NoEnd")));
    let book = one_way();
    assert_eq!(
        book.search_text(b"{", None, BUDGET),
        Err(refused(1, "Syntax"))
    );
}

#[test]
fn a_command_runs_over_memory() {
    let ran = run(&["search"], &example("one-way.case"));
    assert_eq!(ran, Ok((0, example("one-way.out"))));
}

#[test]
fn a_book_may_go_to_other_threads() {
    fn crosses<T: Send + Sync>() {}
    crosses::<Book>();
}

#[test]
fn threads_share_a_book() {
    let book = one_way();
    let expected = example("one-way.out");
    thread::scope(|scope| {
        for _ in 0..8 {
            scope.spawn(|| {
                for _ in 0..50 {
                    let text = book.search_text(&request().to_json(), None, BUDGET);
                    assert_eq!(text.as_ref(), Ok(&expected));
                }
            });
        }
    });
}

#[test]
fn a_place_that_is_none_is_refused_and_not_read_as_json() {
    let slice = Slice::new("L\"}\\\n", "NYC", "2031-03-03");
    let asked = Request::new("2031-02-01", 1, [slice]).to_json();
    let text = one_way().search_text(&asked, None, BUDGET);
    assert!(matches!(text, Err(Error::Refused { line: 1, reason }) if reason != "Syntax"));
}

#[cfg(feature = "serde")]
#[test]
fn a_request_is_read_and_written_by_serde() {
    let value: serde_json::Value = serde_json::from_slice(&request().to_json()).expect("JSON");
    assert_eq!(serde_json::to_value(request()).ok(), Some(value.clone()));
    assert_eq!(serde_json::from_value::<Request>(value).ok(), Some(request()));
}
