//! What each kind of mutation makes of small sources.

mod common;

use common::mutants_in;

/// The lines that a kind puts in the place of others, of a function on bytes with this body.
fn made(kind: &str, returns: &str, body: &str) -> Vec<String> {
    let text = format!("fn sample(x: u8, y: u8){returns}\n{{\n{body}\n}}\n");
    let mutants = mutants_in(&text);
    let of_kind = mutants.iter().filter(|mutant| mutant.kind.name == kind);
    of_kind.map(|mutant| mutant.edit.lines(&text).1).collect()
}

#[test]
fn comparisons_take_in_their_bound_or_leave_it_out() {
    assert_eq!(made("comparison", " -> bool", "x < y"), ["x <= y"]);
    assert_eq!(made("comparison", " -> bool", "x >= y"), ["x > y"]);
    assert_eq!(made("comparison", " -> bool", "x != y"), ["x == y"]);
    assert_eq!(
        made("comparison", "", "for i in 0..n {}"),
        ["for i in 0..=n {}"]
    );
    assert_eq!(
        made("comparison", "", "for i in (1..=n).rev() {}"),
        ["for i in (1..n).rev() {}"]
    );
    assert_eq!(made("comparison", " -> u8", "x.min(y)"), ["x.max(y)"]);
}

#[test]
fn ranges_are_changed_in_the_head_of_a_loop_alone() {
    let body = "for i in s.iter() { f(&s[..i]); }\nlet t = 1..n;\nR { a: t, ..r }";
    assert_eq!(made("comparison", " -> R", body), Vec::<String>::new());
}

#[test]
fn closures_and_guards_of_arms_are_edited_as_other_code() {
    assert_eq!(
        made("comparison", " -> bool", "s.all(|&z| z != x)"),
        ["s.all(|&z| z == x)"]
    );
    let body = "match r {\nA(z) if z < y => x,\n_ => S { a: x, b: y },\n}";
    assert_eq!(made("comparison", " -> S", body), ["A(z) if z <= y => x,"]);
    assert_eq!(made("arguments", " -> S", body), ["_ => S { a: y, b: x },"]);
}

#[test]
fn what_is_between_angle_brackets_after_a_path_is_no_comparison() {
    let body = "f::<3>(x, y) < z";
    assert_eq!(made("comparison", " -> bool", body), ["f::<3>(x, y) <= z"]);
    assert_eq!(
        made("constant", " -> bool", body),
        ["f::<4>(x, y) < z", "f::<2>(x, y) < z"]
    );
    assert_eq!(made("arguments", " -> bool", body), ["f::<3>(y, x) < z"]);
}

#[test]
fn arithmetic_operators_become_others() {
    assert_eq!(
        made("arithmetic", " -> u8", "x + y % 2"),
        ["x - y % 2", "x + y / 2"]
    );
    assert_eq!(made("arithmetic", "", "x >>= y;"), ["x <<= y;"]);
    assert_eq!(
        made("arithmetic", " -> Result<u8, Refusal>", "Ok(f(x)? - y)"),
        ["Ok(f(x)? + y)"]
    );
}

#[test]
fn an_operator_before_a_value_is_left_out() {
    assert_eq!(made("arithmetic", " -> i32", "-(x as i32)"), ["(x as i32)"]);
    assert_eq!(
        made("arithmetic", " -> u8", "f(&x, *y)"),
        Vec::<String>::new()
    );
    assert_eq!(made("boolean", " -> bool", "!f(x)"), ["f(x)"]);
}

#[test]
fn booleans_become_their_opposites() {
    assert_eq!(
        made("boolean", " -> bool", "a && true"),
        ["a || true", "a && false"]
    );
    assert_eq!(made("boolean", " -> bool", "s.all(f)"), ["s.any(f)"]);
}

#[test]
fn numbers_and_characters_are_off_by_one() {
    assert_eq!(
        made("constant", "", "g([0u16; 3]);"),
        ["g([1u16; 3]);", "g([0u16; 4]);", "g([0u16; 2]);"]
    );
    assert_eq!(made("constant", " -> u8", "b'a'"), ["b'b'", "b'`'"]);
    assert_eq!(made("constant", " -> u8", "x.0"), Vec::<String>::new());
}

#[test]
fn a_refusal_becomes_its_neighbours_in_the_order_of_the_rules() {
    let refused = |body: &str| made("refusal", " -> Result<(), Refusal>", body);
    assert_eq!(
        refused("return Err(Refusal::Set);"),
        [
            "return Err(Refusal::Modulus);",
            "return Err(Refusal::Card);"
        ]
    );
    assert_eq!(
        refused("match x {\nNone => Err(rules::Refusal::Lag),\n_ => Ok(()),\n}"),
        [
            "None => Err(rules::Refusal::Output),",
            "None => Err(rules::Refusal::Text),"
        ]
    );
    assert_eq!(refused("Err(Refusal::Cards)"), ["Err(Refusal::Broken)"]);
    assert_eq!(refused("Err(Refusal::Beat)"), ["Err(Refusal::Text)"]);
    for other in [
        "Ok(())",
        "Err(refusal)",
        "Err(Stage::Set)",
        "Err(Refusal::from(7))",
    ] {
        assert_eq!(refused(other), Vec::<String>::new());
    }
}

#[test]
fn neighbouring_arguments_change_places() {
    assert_eq!(
        made("arguments", " -> u8", "f(x, g(y), y,)"),
        ["f(g(y), x, y,)", "f(x, y, g(y),)"]
    );
    assert_eq!(made("arguments", " -> u8", "f(x, x)"), Vec::<String>::new());
    assert_eq!(
        made("arguments", " -> u8", "if (x == y) { x } else { y }"),
        Vec::<String>::new()
    );
    assert_eq!(
        made("arguments", " -> bool", "matches!(x, 1 | 2)"),
        Vec::<String>::new()
    );
}

#[test]
fn neighbours_in_a_tuple_or_an_array_change_places() {
    assert_eq!(
        made("arguments", " -> u8", "match (x, y) {\n_ => 0,\n}"),
        ["match (y, x) {"]
    );
    assert_eq!(
        made("arguments", "", "let [a, b] = t;"),
        ["let [b, a] = t;"]
    );
    for other in [
        "let t = [0u16; 4];",
        "for (i, z) in s.iter().enumerate() {}",
    ] {
        assert_eq!(made("arguments", "", other), Vec::<String>::new());
    }
}

#[test]
fn neighbouring_fields_change_their_values() {
    let body = "S { a: x, b: y, x, c: 1, ..s }";
    assert_eq!(
        made("arguments", " -> S", body),
        ["S { a: y, b: x, x, c: 1, ..s }"]
    );
}

#[test]
fn indices_of_one_statement_change_places() {
    assert_eq!(
        made("indices", "", "t[x][y] = 1;\nu[0] = 2;"),
        ["t[y][x] = 1;"]
    );
    assert_eq!(
        made("indices", "", "t[x] = u[y + 1];"),
        ["t[y + 1] = u[x];"]
    );
    assert_eq!(
        made("indices", "", "f([t[x], t[y]]);"),
        ["f([t[y], t[x]]);"]
    );
    assert_eq!(made("indices", "", "t[u[x]] = 1;"), Vec::<String>::new());
    let body = "match x {\n0 => t[x],\n_ => t[y],\n}";
    assert_eq!(made("indices", " -> u8", body), Vec::<String>::new());
}

#[test]
fn neighbouring_guards_change_places() {
    let body = "if x == 0 { return 1; }\nif y == 0 { return 2; }\nif x < y { f(); }\n0";
    let swapped = "if y == 0 { return 2; } if x == 0 { return 1; }";
    assert_eq!(made("guards", " -> u32", body), [swapped]);
    let body = "f(x)?;\nif y == 0 { return Err(Refusal::Lag); }\nlet z = f(y)?;\nOk(())";
    let swapped = "if y == 0 { return Err(Refusal::Lag); } f(x)?;";
    assert_eq!(made("guards", " -> Result<(), Refusal>", body), [swapped]);
}

#[test]
fn statements_are_left_out() {
    let body = "let a = x;\na = y;\nf(a);\nif a < y { return 1; }\nwhile a < y { a += 1; }\na";
    let dropped = made("dropped", " -> u8", body);
    assert_eq!(dropped, ["", "", "", "", "while a < y { }"]);
    let body = "let _ = f(x);\nf(y)?;\nfor &z in s {}\nOk(())";
    let dropped = made("dropped", " -> Result<(), Refusal>", body);
    assert_eq!(dropped, ["", "", ""]);
}

#[test]
fn what_gives_the_result_stays() {
    let body = "if x < y {\nreturn x;\n} else {\nf();\n}\nmatch x {\n0 => x,\n_ => y,\n}";
    assert_eq!(made("dropped", " -> u8", body), ["", ""]);
    let body = "if x < y {\nx\n} else {\ny\n}";
    assert_eq!(made("dropped", " -> u8", body), Vec::<String>::new());
}

#[test]
fn functions_return_at_once() {
    assert_eq!(
        made("return", " -> bool", "f(x)"),
        ["{ return false;", "{ return true;"]
    );
    assert_eq!(
        made("return", " -> u16", "f(x)"),
        ["{ return 0;", "{ return 1;"]
    );
    assert_eq!(made("return", "", "f(x);"), ["{ return;"]);
    assert_eq!(
        made("return", " -> Result<(), Refusal>", "f(x)"),
        ["{ return Ok(());"]
    );
    assert_eq!(
        made("return", " -> Result<Row, Refusal>", "f(x)"),
        Vec::<String>::new()
    );
    assert_eq!(made("return", " -> Row", "f(x)"), Vec::<String>::new());
}

#[test]
fn conditions_are_always_true_or_never() {
    let body = "if x < y { x } else { y }";
    let fixed = ["if true { x } else { y }", "if false { x } else { y }"];
    assert_eq!(made("condition", " -> u8", body), fixed);
    assert_eq!(
        made("condition", "", "while x < y { f(); }"),
        ["while false { f(); }"]
    );
    assert_eq!(
        made("condition", "", "if let A(z) = x { f(z); }"),
        Vec::<String>::new()
    );
    let body = "match r {\nA(z) if z < y => S { a: x },\n_ => S { a: y },\n}";
    assert_eq!(
        made("condition", " -> S", body),
        [
            "A(z) if true => S { a: x },",
            "A(z) if false => S { a: x },"
        ]
    );
}

#[test]
fn constants_have_only_their_value_mutated() {
    let text = "const SIZE: [u8; 2] = [1 + 2, 7];\n";
    let names: Vec<_> = mutants_in(text)
        .iter()
        .map(|mutant| mutant.edit.apply(text))
        .collect();
    assert_eq!(names.len(), 8);
    assert!(names
        .iter()
        .all(|text| text.starts_with("const SIZE: [u8; 2] = [")));
}
