//! Values and terms as antt writes them.

use std::fmt::{self, Display, Formatter};

use second::params::Parameters;

/// What an equation says that a definition gives.
#[derive(Clone, Debug, PartialEq, Eq)]
pub enum Value {
    Number(u64),
    Integer(i64),
    Numbers(Vec<u64>),
    Vote(Option<u16>),
    Row(Parameters),
}

impl Value {
    /// Words, bytes or characters.
    pub fn list<T: Copy + Into<u64>>(numbers: &[T]) -> Value {
        Value::Numbers(numbers.iter().map(|&number| number.into()).collect())
    }

    /// Another value, as close to this one as can be.
    pub fn damaged(&self) -> Value {
        match self {
            Value::Number(number) => Value::Number(number + 1),
            Value::Integer(number) => Value::Integer(number + 1),
            Value::Numbers(numbers) => Value::Numbers(last_damaged(numbers)),
            // None as the count 65,535, which is written by the same word.
            Value::Vote(vote) => Value::Vote(Some(vote.map_or(u16::MAX, |count| count + 1))),
            Value::Row(row) => Value::Row(Parameters {
                settled: row.settled + 1,
                ..*row
            }),
        }
    }
}

/// The last number one larger, or a 0 where there is none.
fn last_damaged(numbers: &[u64]) -> Vec<u64> {
    let mut numbers = numbers.to_vec();
    match numbers.last_mut() {
        Some(last) => *last += 1,
        None => numbers.push(0),
    }
    numbers
}

impl Display for Value {
    fn fmt(&self, out: &mut Formatter<'_>) -> fmt::Result {
        match self {
            Value::Number(number) => write!(out, "{number}"),
            Value::Integer(number) if *number < 0 => write!(out, "negsuc {}", -(number + 1)),
            Value::Integer(number) => write!(out, "pos {number}"),
            Value::Numbers(numbers) => {
                numbers
                    .iter()
                    .try_for_each(|item| write!(out, "{item} ∷ "))?;
                out.write_str("[]")
            }
            Value::Vote(None) => out.write_str("None"),
            Value::Vote(Some(count)) => write!(out, "Count {count}"),
            Value::Row(row) => write!(
                out,
                "record {{ turn = {}; c0 = {}; c1 = {}; restart = {}; words = {}; beats = {} }}",
                row.t, row.c0, row.c1, row.restart, row.words, row.settled
            ),
        }
    }
}

/// A definition applied to its arguments, each of them in brackets where it has several words.
pub fn apply(definition: &str, arguments: &[&dyn Display]) -> String {
    let mut term = definition.to_string();
    for argument in arguments {
        let argument = argument.to_string();
        term += &if argument.contains(' ') {
            format!(" ({argument})")
        } else {
            format!(" {argument}")
        };
    }
    term
}
