//! A case: some inputs, and equations between definitions of them and what the second
//! implementation says.

use crate::value::Value;

#[derive(Clone, Debug, PartialEq, Eq)]
pub struct Equation {
    /// What of the case it is about, in a word.
    pub about: String,
    /// The definition, applied to the inputs.
    pub term: String,
    /// What the second implementation says.
    pub value: Value,
}

#[derive(Clone, Debug, PartialEq, Eq)]
pub struct Case {
    /// The inputs, for a reader.
    pub inputs: String,
    pub equations: Vec<Equation>,
}

impl Case {
    pub fn new(inputs: String) -> Case {
        Case {
            inputs,
            equations: Vec::new(),
        }
    }

    /// The case with one equation more.
    pub fn says(mut self, about: &str, term: String, value: Value) -> Case {
        let about = about.to_string();
        self.equations.push(Equation { about, term, value });
        self
    }

    /// The same case with every value wrong.
    pub fn damaged(&self) -> Case {
        let mut case = self.clone();
        for equation in &mut case.equations {
            equation.value = equation.value.damaged();
        }
        case
    }
}
