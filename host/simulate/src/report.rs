//! Outcomes as text.

use std::collections::BTreeMap;
use std::iter;

use second::params::MOST_BROKEN;

use crate::survey::{late, latest, Outcome, Survey};

/// One row for each f: the runs, T(f), and the run that agreed last.
pub fn table(survey: &Survey) -> String {
    let heading = " f   runs  T(f)  latest  of T(f)  lies         n      c    seed\n";
    let rows = (0..=MOST_BROKEN).filter_map(|f| row(f, &survey.with_f(f)));
    iter::once(heading.to_string()).chain(rows).collect()
}

fn row(f: u32, runs: &[Outcome]) -> Option<String> {
    let last = latest(runs)?;
    Some(format!(
        "{f:2} {:6} {:5}  {:>6}  {:>7}  {:<10}  {:2}  {:5}  {:6}\n",
        runs.len(),
        last.bound,
        beat(&last),
        percent(&last),
        last.lies,
        last.shape.n,
        last.shape.c,
        last.seed,
    ))
}

/// One row for each f above 0: the runs, T(f), and for each cooldown the latest agreement and
/// how many runs were late.
pub fn side_by_side(surveys: &[Survey]) -> String {
    let names = surveys.iter().map(|survey| survey.cooldown.name);
    let mut text = " f   runs  T(f)".to_string();
    text.extend(names.map(|name| format!("  | {name:>4}: latest  of T(f)   late")));
    for f in 1..=MOST_BROKEN {
        let cells = surveys.iter().enumerate();
        text.extend(cells.filter_map(|(place, survey)| cell(f, place == 0, survey)));
    }
    text + "\n"
}

/// One cooldown's part of a row; the first starts the row.
fn cell(f: u32, first: bool, survey: &Survey) -> Option<String> {
    let runs = survey.with_f(f);
    let last = latest(&runs)?;
    let start = if first {
        format!("\n{f:2} {:6} {:5}", runs.len(), last.bound)
    } else {
        String::new()
    };
    let (beat, percent, late) = (beat(&last), percent(&last), late(&runs).len());
    Some(format!("{start}  | {beat:>12}  {percent:>7}  {late:5}"))
}

/// How many runs with broken cards were tried with each kind of lies.
pub fn tried(survey: &Survey) -> String {
    let mut runs = BTreeMap::new();
    for outcome in survey.outcomes.iter().filter(|run| run.shape.f > 0) {
        *runs.entry(outcome.lies).or_insert(0) += 1;
    }
    let counts: Vec<_> = runs
        .iter()
        .map(|(lies, runs)| format!("{lies} {runs}"))
        .collect();
    counts.join(", ")
}

/// A run in one line.
pub fn line(run: &Outcome) -> String {
    let (n, f, c) = (run.shape.n, run.shape.f, run.shape.c);
    let when = match run.together_since {
        Some(beat) => format!("together since beat {beat}"),
        None => format!("not together after {} beats", run.watched),
    };
    let (seed, lies, bound) = (run.seed, run.lies, run.bound);
    format!("seed {seed}, n {n}, f {f}, c {c}, lies {lies}: {when}, T(f) is {bound}")
}

fn beat(run: &Outcome) -> String {
    let beat = run.together_since.map(|beat| beat.to_string());
    beat.unwrap_or_else(|| "later".to_string())
}

fn percent(run: &Outcome) -> String {
    let percent = run.together_since.map(|beat| 100 * beat / run.bound);
    percent.map_or_else(|| "-".to_string(), |percent| format!("{percent} %"))
}
