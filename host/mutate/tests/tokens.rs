//! What the scanner sees of a source, and what it passes over.

use mutate::code::{Code, PartSort};
use mutate::tokens::{tokens, Sort};

fn texts(source: &str) -> Vec<&str> {
    tokens(source).iter().map(|token| token.text).collect()
}

#[test]
fn signs_are_read_as_long_as_they_are() {
    assert_eq!(
        texts("a<=b << 2..=c"),
        ["a", "<=", "b", "<<", "2", "..=", "c"]
    );
    assert_eq!(texts("x-=1;-y"), ["x", "-=", "1", ";", "-", "y"]);
    assert_eq!(texts("f::<3>::g"), ["f", "::<", "3", ">", "::", "g"]);
}

#[test]
fn each_token_knows_its_place_and_sort() {
    let source = "let x = b'}' + 0u16;";
    for token in tokens(source) {
        assert_eq!(&source[token.start..token.end()], token.text);
    }
    let sorts: Vec<_> = tokens(source).iter().map(|token| token.sort).collect();
    use Sort::{Number, Quoted, Sign, Word};
    assert_eq!(sorts, [Word, Word, Sign, Quoted, Sign, Number, Sign]);
}

#[test]
fn quotes_may_be_escaped() {
    assert_eq!(
        texts(r#"b'\'' b"a\"b" 'label: x"#),
        [r"b'\''", r#"b"a\"b""#, "'label", ":", "x"]
    );
}

#[test]
fn comments_have_no_tokens() {
    assert_eq!(texts("a // b < c\n/* d { */ e"), ["a", "e"]);
}

#[test]
fn attributes_have_no_tokens() {
    let source = "#![tactic(auto)]\n#[f(a[1], 2 < 3)]\n#[inline(always)] fn f() {}";
    assert_eq!(texts(source), ["fn", "f", "(", ")", "{", "}"]);
}

#[test]
fn the_provers_text_has_no_tokens() {
    let source = "ghost use lib.{a, b}; fn f(x: u8) -> u8
        ghost { ℕ }
        requires { x' {A = ℕ} < 3 }
        ensures low { result ≤ x }
        ensures high { OnOk result (x < 3) } { x }";
    let code = [
        "fn", "f", "(", "x", ":", "u8", ")", "->", "u8", "{", "x", "}",
    ];
    assert_eq!(texts(source), code);
}

#[test]
fn the_parts_are_bodies_and_constant_values() {
    let source = "use a::b;
        const SIZE: [u8; 2] = [1, 2];
        struct S { x: u8 }
        impl<'a> S<'a> { fn one<const I: usize>(self) -> u32 ensures { result ≡ 1 } { 1 } }
        impl From<S> for Result<u8, No> {
            ghost from_gives = { λ s r. 1 ≡ 1 };
            fn from(s: S) -> Result<u8, No> { Ok(1) }
        }
        fn each<F: Fn(u8) -> bool>(test: F) {}
        fn none(x: &mut [u8; 3]) {}";
    let code = Code::new(source);
    let parts: Vec<_> = code
        .parts()
        .iter()
        .map(|part| (part.name, part.sort, code.text_of(&part.range)))
        .collect();
    let expected = [
        ("SIZE", PartSort::Constant, "[1, 2]"),
        ("one", PartSort::Function("u32"), "{ 1 }"),
        ("from", PartSort::Function("Result<u8, No>"), "{ Ok(1) }"),
        ("each", PartSort::Function(""), "{}"),
        ("none", PartSort::Function(""), "{}"),
    ];
    assert_eq!(parts, expected);
}
