//! `.ci/contracts` passes as things are, and reports each way in which a public routine can be listed wrongly.

use gate::Copy;

const LAG: &str = "crates/lag/src/lib.rt";
const COLUMNS: &str = "crates/columns/src/lib.rt";
const RULES: &str = "crates/rules/src/lib.rt";
const LEMMAS: &str = "crates/lag/proofs/Determined.antt";
const LIST: &str = "docs/CONTRACTS.md";
const REFUSAL: &str = "ensures { number_in result ≡ lag_refusal c x y }";

/// What is reported of a copy with something wrong in it.
fn reported(name: &str, sabotage: impl Fn(&Copy), lines: &[&str]) {
    let copy = Copy::of_repository(name);
    sabotage(&copy);
    copy.run(".ci/contracts").assert_told(lines);
}

/// A copy with something in it that is not a fault.
fn passes(name: &str, change: impl Fn(&Copy)) -> String {
    let copy = Copy::of_repository(name);
    change(&copy);
    let ended = copy.run(".ci/contracts");
    ended.assert_passed();
    ended.printed()
}

#[test]
fn the_list_as_it_is() {
    let printed = passes("as-it-is", |_| ());
    assert!(printed.starts_with("contracts: "), "{printed}");
    assert!(printed.ends_with(" internal ones\n"), "{printed}");
}

#[test]
fn a_public_routine_with_a_requires() {
    let asks = format!("requires {{ 2 ≤ c }}\n    {REFUSAL}");
    reported(
        "requires",
        |copy| copy.replace(LAG, REFUSAL, &asks),
        &["contracts: lag::lag_refusal: a public routine has a requires"],
    );
}

#[test]
fn a_public_routine_without_an_ensures() {
    reported(
        "no-ensures",
        |copy| copy.replace(LAG, REFUSAL, ""),
        &["contracts: lag::lag_refusal: it has no ensures"],
    );
}

#[test]
fn an_internal_routine_without_an_ensures() {
    reported(
        "internal-no-ensures",
        |copy| copy.replace(RULES, "ensures { result ≡ read_vote m word }", ""),
        &["contracts: rules::Vote::read: it has no ensures"],
    );
}

/// In any crate, in any file, in any block, with its brace on any line.
#[test]
fn a_routine_that_is_not_listed() {
    let promised = "ensures { result ≡ x }";
    let plain = format!("\npub fn extra(x: u32) -> u32\n    {promised}\n{{\n    x\n}}\n");
    let in_one_line = format!("\npub fn extra(x: u32) -> u32 {promised} {{ x }}\n");
    let method = format!(
        "\nimpl Column<'_> {{\n    pub fn extra(self, x: u32) -> u32 {promised} {{ x }}\n}}\n"
    );
    let generic = format!(
        "\nimpl<'a, T: Is<u8>> Pair<'a, T> {{\n    pub fn extra(self, x: u32) -> u32 {promised} {{ x }}\n}}\n"
    );
    let inner =
        format!("\nmod inner {{ pub extern \"C\" fn extra(x: u32) -> u32 {promised} {{ x }} }}\n");
    for (file, code, routine) in [
        (LAG, &plain, "lag::extra"),
        (COLUMNS, &in_one_line, "columns::extra"),
        (COLUMNS, &method, "columns::Column::extra"),
        (COLUMNS, &generic, "columns::Pair::extra"),
        (COLUMNS, &inner, "columns::inner::extra"),
        ("crates/rack/src/broken.rt", &plain, "rack::broken::extra"),
        ("crates/blockrun/src/main.rt", &plain, "blockrun::extra"),
    ] {
        let line = format!("contracts: {routine}: it is not listed");
        reported("not-listed", |copy| copy.append(file, code), &[&line]);
    }
}

#[test]
fn a_routine_of_a_new_crate() {
    reported(
        "new-crate",
        |copy| {
            copy.append("crates.txt", "other: rules\n");
            copy.write("crates/other/src/lib.rt", "pub fn extra() {}\n");
        },
        &[
            "contracts: other::extra: it has no ensures",
            "contracts: other::extra: it is not listed",
        ],
    );
}

#[test]
fn a_row_of_no_routine() {
    reported(
        "no-routine",
        |copy| copy.replace(LAG, "pub fn lag_refusal", "fn lag_refusal"),
        &["contracts: lag::lag_refusal: it is listed, but is not a pub fn"],
    );
    reported(
        "no-internal-routine",
        |copy| copy.replace(RULES, "pub fn read", "pub(crate) fn read"),
        &["contracts: rules::Vote::read: it is listed, but is not a pub fn"],
    );
}

#[test]
fn a_routine_with_two_rows() {
    let row = "| `lag::lag_refusal` | the refusal of a lag | 3, 9 | `lag_refusal_determined` | `swapped_refusals`, `one_input_tested` |\n";
    reported(
        "two-rows",
        |copy| copy.replace(LIST, row, &row.repeat(2)),
        &["contracts: lag::lag_refusal: it has two rows"],
    );
}

#[test]
fn a_routine_that_is_public_and_internal() {
    reported(
        "both",
        |copy| copy.append(LIST, "- `lag`: `lag_of`\n"),
        &["contracts: lag::lag_of: it is public and internal"],
    );
}

#[test]
fn an_internal_routine_that_no_other_crate_calls() {
    reported(
        "not-called",
        |copy| {
            copy.replace(
                "crates/card/src/lib.rt",
                "groups::step_group(",
                "groups::step_groups(",
            )
        },
        &["contracts: groups::step_group: no other crate calls it"],
    );
}

/// A method is called by its name, with or without what fills its parameters; only by another crate does it count.
#[test]
fn a_method_that_no_other_crate_calls() {
    reported(
        "not-called-method",
        |copy| {
            copy.replace(
                "crates/steps/src/lib.rt",
                "col.smallest_supported(",
                "col.supported(",
            );
        },
        &["contracts: columns::Column::smallest_supported: no other crate calls it"],
    );
    passes("called-method", |copy| {
        copy.replace(
            "crates/steps/src/lib.rt",
            "col.smallest_supported(",
            "col.smallest_supported::<0>(",
        )
    });
}

/// A crate that does not depend on the method's crate calls another method of that name.
#[test]
fn a_method_whose_name_others_have() {
    reported(
        "not-called-namesake",
        |copy| {
            copy.replace(
                "crates/groups/src/lib.rt",
                "level::next_level(g, card, row).put(",
                "level::next_level(g, card, row).write(",
            );
        },
        &["contracts: level::Level::put: no other crate calls it"],
    );
}

/// Names may come in one by one or in lists, on any lines, and under another name.
#[test]
fn a_call_by_a_name_that_a_list_brings_in() {
    let header = "crates/frames/src/header.rt";
    let list = "use digits::{\n    well_formed,\n    words::{self, put_word as put}, // both\n    number_of,\n};\n";
    passes("listed-name", |copy| {
        copy.replace(header, "use digits::{number_of, well_formed};\n", list);
        copy.replace(
            "crates/frames/src/frame.rt",
            "use digits::{number_of, well_formed, words};\n",
            "use digits::well_formed;\n",
        );
        copy.replace(
            "crates/frames/src/output.rt",
            "use digits::words::put_word;\n",
            "use digits::words as put_word;\n",
        );
        copy.append(header, "fn more() {\n    put(1);\n}\n");
    });
}

#[test]
fn a_lemma_that_is_not_there() {
    reported(
        "no-lemma",
        |copy| copy.replace(LEMMAS, "pub lag_determined :", "lag_determined :"),
        &["contracts: lag::lag_of: there is no lemma lag_determined over its contract"],
    );
    reported(
        "no-file",
        |copy| copy.remove(LEMMAS),
        &[
            "contracts: lag::lag_refusal: there is no crates/lag/proofs/Determined.antt",
            "contracts: lag::lag_of: there is no crates/lag/proofs/Determined.antt",
        ],
    );
}

#[test]
fn a_lemma_that_is_not_checked() {
    reported(
        "not-checked",
        |copy| copy.replace("crates/lag/proofs/Lib.antt", "pub mod Determined\n", ""),
        &[
            "contracts: lag::lag_refusal: crates/lag/proofs/Lib.antt does not name Determined",
            "contracts: lag::lag_of: crates/lag/proofs/Lib.antt does not name Determined",
        ],
    );
}

#[test]
fn a_lemma_of_another_contract() {
    reported(
        "another-contract",
        |copy| copy.replace(LEMMAS, "proofs.lag_of.Reads as lag_reads", "proofs.lag_refusal.Reads as lag_reads"),
        &["contracts: lag::lag_of: crates/lag/proofs/Determined.antt does not use its Reads as lag_reads"],
    );
    reported(
        "by-hand",
        |copy| {
            let over = ": Determined lag_kinds.ps lag_kinds.r lag_reads.Pre lag_reads.Post";
            let by_hand =
                ": (c x y : ℕ) (z w : ℤ) → z ≡ lag_answer c x y → w ≡ lag_answer c x y → z ≡ w";
            copy.replace(LEMMAS, over, by_hand);
        },
        &["contracts: lag::lag_of: there is no lemma lag_determined over its contract"],
    );
}

/// A way out after the statement, on its line or on the next; and a lemma that says nothing of the result.
#[test]
fn a_lemma_that_says_less() {
    let over = "Determined lag_kinds.ps lag_kinds.r lag_reads.Pre lag_reads.Post\n";
    let way_out = over.replace("Post\n", "Post ⊎ Unit\n");
    let on_the_next_line = over.replace("Post\n", "Post\n    ⊎ Unit\n");
    let blind = over
        .replace("Determined", "DeterminedAs")
        .replace("Post\n", "Post (λ κs. Unit) (λ κs r. tt)\n");
    for less in [way_out, on_the_next_line, blind] {
        reported(
            "says-less",
            |copy| copy.replace(LEMMAS, over, &less),
            &["contracts: lag::lag_of: there is no lemma lag_determined over its contract"],
        );
    }
}

const OTHER_MEANING: [&str; 2] = [
    "contracts: lag::lag_refusal: crates/lag/proofs/Determined.antt does not use what the rules say of one result",
    "contracts: lag::lag_of: crates/lag/proofs/Determined.antt does not use what the rules say of one result",
];

#[test]
fn a_lemma_of_another_meaning() {
    let ours = "use Rattle.rules.proofs.Determined.{Determined";
    reported(
        "another-meaning",
        |copy| copy.replace(LEMMAS, ours, "use Rattle.lag.proofs.Parts.{Determined"),
        &OTHER_MEANING,
    );
    reported(
        "own-meaning",
        |copy| copy.append(LEMMAS, "\nabbrev Determined : Type 0\nDetermined = Unit\n"),
        &OTHER_MEANING,
    );
}

#[test]
fn an_edit_that_is_not_there() {
    reported(
        "no-edit",
        |copy| copy.remove("crates/lag/must-fail/wrong_way.edit"),
        &["contracts: lag::lag_of: there is no edit wrong_way of lag"],
    );
}

#[test]
fn one_edit_for_two() {
    reported(
        "one-edit",
        |copy| {
            copy.replace(
                LIST,
                "`negative_half`, `wrong_way`",
                "`wrong_way`, `wrong_way`",
            )
        },
        &["contracts: lag::lag_of: one edit is named twice"],
    );
}

#[test]
fn only_edits_of_other_routines() {
    reported(
        "edits-elsewhere",
        |copy| {
            copy.replace(
                LIST,
                "`negative_half`, `wrong_way`",
                "`swapped_refusals`, `one_input_tested`",
            )
        },
        &["contracts: lag::lag_of: neither edit is of its own body"],
    );
}

/// What only looks like a routine of its own is none.
#[test]
fn comments_strings_and_clauses() {
    let code = "
// pub fn in_a_line(x: u32) -> u32 {
/* pub fn in_a_block() {
} */
pub(crate) fn for_the_crate(brace: u8) -> bool
    ensures { result ≡ same {A = ℕ} brace }
{
    brace == b'{' || b\"pub fn {\"[0] == brace
}
";
    passes("comments", |copy| copy.append(LAG, code));
}
