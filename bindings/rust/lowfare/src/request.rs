//! Requests: what is asked of a book.

/// One way of a journey: from a place to another, departing on one of so many days (1 to 7) from the first on.
#[derive(Clone, Debug, PartialEq, Eq)]
#[cfg_attr(feature = "serde", derive(serde::Serialize, serde::Deserialize))]
#[cfg_attr(feature = "serde", serde(deny_unknown_fields))]
pub struct Slice {
    pub from: String,
    pub to: String,
    /// A date, as `2031-03-03`.
    pub first: String,
    pub days: u8,
}

impl Slice {
    /// A slice with one day.
    #[must_use]
    pub fn new(from: &str, to: &str, first: &str) -> Slice {
        Slice {
            from: from.to_string(),
            to: to.to_string(),
            first: first.to_string(),
            days: 1,
        }
    }

    fn to_json(&self) -> String {
        format!(
            r#"{{"from":{},"to":{},"first":{},"days":{}}}"#,
            quoted(&self.from),
            quoted(&self.to),
            quoted(&self.first),
            self.days
        )
    }
}

/// A request: the day of sale, how many passengers (1 to 9), the slices (1 to 6), and how many tickets are wanted (1 to
/// 1,000; 10 where it is left out).
#[derive(Clone, Debug, PartialEq, Eq)]
#[cfg_attr(feature = "serde", derive(serde::Serialize, serde::Deserialize))]
#[cfg_attr(feature = "serde", serde(deny_unknown_fields))]
pub struct Request {
    /// A date, as `2031-02-01`.
    pub sale: String,
    pub party: u8,
    pub slices: Vec<Slice>,
    #[cfg_attr(feature = "serde", serde(default = "ten"))]
    pub best: u16,
}

fn ten() -> u16 {
    10
}

impl Request {
    /// A request for ten tickets.
    #[must_use]
    pub fn new<S: IntoIterator<Item = Slice>>(sale: &str, party: u8, slices: S) -> Request {
        Request {
            sale: sale.to_string(),
            party,
            slices: slices.into_iter().collect(),
            best: ten(),
        }
    }

    /// The request's text.
    #[must_use]
    pub fn to_json(&self) -> Vec<u8> {
        let slices: Vec<String> = self.slices.iter().map(Slice::to_json).collect();
        format!(
            r#"{{"sale":{},"party":{},"best":{},"slices":[{}]}}"#,
            quoted(&self.sale),
            self.party,
            self.best,
            slices.join(",")
        )
        .into_bytes()
    }
}

/// A text in JSON.
fn quoted(text: &str) -> String {
    let mut json = String::from("\"");
    for letter in text.chars() {
        match letter {
            '"' | '\\' => json.extend(['\\', letter]),
            '\0'..='\u{1f}' => json += &format!("\\u{:04x}", u32::from(letter)),
            _ => json.push(letter),
        }
    }
    json + "\""
}
