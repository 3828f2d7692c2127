use mutate::mutant::{mutants_of, Mutant};
use mutate::repository::Source;

/// The mutants of a source that belongs to no crate.
pub fn mutants_in(text: &str) -> Vec<Mutant> {
    let source = Source {
        name: "sample/src/lib.rt".to_string(),
        text: text.to_string(),
    };
    mutants_of("sample", &source)
}
