//! How values and terms are written.

use compare::value::{apply, Value};
use second::params::parameters;

#[test]
fn each_value_is_written_as_antt_reads_it() {
    let written = [
        (Value::Number(7), "7"),
        (Value::Integer(0), "pos 0"),
        (Value::Integer(3), "pos 3"),
        (Value::Integer(-1), "negsuc 0"),
        (Value::Integer(-32_767), "negsuc 32766"),
        (Value::list::<u16>(&[]), "[]"),
        (Value::list(&[1_u16, 65_535]), "1 ∷ 65535 ∷ []"),
        (Value::list(b"\n0"), "10 ∷ 48 ∷ []"),
        (Value::Vote(None), "None"),
        (Value::Vote(Some(5)), "Count 5"),
        (
            Value::Row(parameters(4, 1).unwrap()),
            "record { turn = 9; c0 = 18; c1 = 54; restart = 108; words = 9; beats = 192 }",
        ),
    ];
    for (value, text) in written {
        assert_eq!(value.to_string(), text);
    }
}

#[test]
fn an_argument_of_several_words_is_in_brackets() {
    let list = Value::list(&[2_u16, 1]);
    let empty = Value::list::<u16>(&[]);
    let term = apply("shown_answer", &[&2, &0, &empty, &list]);
    assert_eq!(term, "shown_answer 2 0 [] (2 ∷ 1 ∷ [])");
    assert_eq!(apply("bit_of", &[&term]), format!("bit_of ({term})"));
}

#[test]
fn a_damaged_value_is_another_one_of_the_same_type() {
    let damaged = [
        (Value::Number(0), Value::Number(1)),
        (Value::Integer(-1), Value::Integer(0)),
        (Value::list::<u16>(&[]), Value::list(&[0_u16])),
        (Value::list(&[4_u16, 8]), Value::list(&[4_u16, 9])),
        (Value::Vote(None), Value::Vote(Some(65_535))),
        (Value::Vote(Some(5)), Value::Vote(Some(6))),
    ];
    for (value, other) in damaged {
        assert_eq!(value.damaged(), other);
    }
    let row = Value::Row(parameters(4, 1).unwrap()).damaged();
    assert!(row.to_string().ends_with("words = 9; beats = 193 }"));
}
