//! The pages lead to one another, need no other document, and name what has to be believed; a source fits a page too.

use std::collections::{BTreeMap, BTreeSet};
use std::path::Path;

use gate::pages::{files, names, page, read, rows, texts};
use program::root;

/// A heading as a link names it.
fn anchor(heading: &str) -> String {
    let text = heading.trim_start_matches('#').trim().to_lowercase();
    let kept = text
        .chars()
        .filter(|&sign| sign.is_alphanumeric() || " -_".contains(sign));
    kept.collect::<String>().replace(' ', "-")
}

fn assert_leads(from: &Path, link: &str) {
    let (file, place) = link.split_once('#').unwrap_or((link, ""));
    let target = match file {
        "" => from.to_path_buf(),
        _ => from.parent().expect("a page is in a folder").join(file),
    };
    assert!(target.exists(), "{}: {link}", from.display());
    if !place.is_empty() {
        let text = read(&target);
        let mut headings = text
            .lines()
            .filter(|line| line.starts_with('#'))
            .map(anchor);
        assert!(
            headings.any(|heading| heading == place),
            "{}: {link}",
            from.display()
        );
    }
}

#[test]
fn every_link_leads_somewhere() {
    let mut pages = vec![root().join("README.md"), root().join("CHANGELOG.md")];
    files(&root().join("docs"), &mut pages);
    pages.retain(|path| path.extension().map_or(false, |kind| kind == "md"));
    let mut links = 0;
    for path in &pages {
        for part in read(path).split("](").skip(1) {
            let link = part.split(')').next().expect("a part before the end");
            if !link.starts_with("http") {
                assert_leads(path, link);
                links += 1;
            }
        }
    }
    assert!(links > 40, "{links}");
}

#[test]
fn no_page_needs_a_document_that_is_not_here() {
    let words = ["ocument 0", "the paper"];
    for path in texts() {
        let text = read(&path);
        for word in words {
            let here = path.ends_with("tests/pages.rs");
            assert!(here || !text.contains(word), "{}: {word}", path.display());
        }
    }
}

/// The file of a routine, and its own name: `text::lines::line_end` is in text/src/lines.rt, and `feed::Run::new`, a method,
/// in feed/src/lib.rt.
fn source_of(routine: &str) -> (String, String) {
    let parts: Vec<&str> = routine.split("::").collect();
    let is_module = |part: &&str| part.starts_with(|sign: char| sign.is_lowercase());
    let module = parts[1..parts.len() - 1]
        .iter()
        .copied()
        .find(|part| is_module(part))
        .unwrap_or("lib");
    let file = format!("crates/{}/src/{module}.rt", parts[0]);
    (page(&file), parts[parts.len() - 1].to_string())
}

/// The names that a source's contracts take from specs other than the rules' and the kit's own.
fn lent(source: &str) -> BTreeSet<String> {
    let lines = source
        .lines()
        .filter_map(|line| line.strip_prefix("ghost use Rattle."));
    let others = lines.filter(|line| !line.starts_with("rules.") && !line.starts_with("std."));
    let lists = others.filter_map(|line| line.split_once('{')?.1.strip_suffix("};"));
    lists
        .flat_map(|list| list.split(", "))
        .map(String::from)
        .collect()
}

/// The names of those that the contract of a public routine cites.
fn cited_from_elsewhere(routine: &str) -> BTreeSet<String> {
    let (source, name) = source_of(routine);
    let begin = source
        .find(&format!("fn {name}("))
        .expect("the routine is there");
    let rest = &source[begin..];
    let body = |brace: &str| rest.find(brace).unwrap_or(rest.len());
    let head = &rest[..body("\n{").min(body("\n    {"))];
    let words: BTreeSet<&str> = head.split(|sign: char| " ().{}\n".contains(sign)).collect();
    lent(&source)
        .into_iter()
        .filter(|name| words.contains(name.as_str()))
        .collect()
}

#[test]
fn what_contracts_cite_from_elsewhere_is_believed_by_name() {
    let mut listed: BTreeMap<String, BTreeSet<String>> = BTreeMap::new();
    for row in rows(&page("docs/BELIEVED.md"), 4) {
        for routine in names(&row[0]) {
            listed.insert(
                routine.to_string(),
                names(&row[1]).map(String::from).collect(),
            );
        }
    }
    let mut elsewhere = 0;
    for row in rows(&page("docs/CONTRACTS.md"), 5) {
        let routine = names(&row[0]).next().expect("a routine in its row");
        let cited = cited_from_elsewhere(routine);
        let known = listed.get(routine).cloned().unwrap_or_default();
        assert!(cited.is_subset(&known), "{routine}: {cited:?}");
        assert_eq!(cited.is_empty(), known.is_empty(), "{routine}");
        elsewhere += usize::from(!cited.is_empty());
    }
    assert!(elsewhere > 0);
}

#[test]
fn no_line_of_a_crate_is_longer_than_a_page_is_wide() {
    let mut sources = Vec::new();
    files(&root().join("crates"), &mut sources);
    sources.retain(|path| {
        path.extension()
            .map_or(false, |kind| kind == "rt" || kind == "antt")
    });
    assert!(sources.len() > 200, "{}", sources.len());
    for path in sources {
        for line in read(&path).lines() {
            assert!(line.chars().count() <= 140, "{}: {line}", path.display());
        }
    }
}
