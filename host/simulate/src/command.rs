//! What the program answers to its arguments.

use std::path::Path;

use crate::cooldown::{Cooldown, HALF, RIGHT, TOO_SOON};
use crate::report::{line, side_by_side, table, tried};
use crate::strategy::STRATEGIES;
use crate::survey::{late, Outcome, Survey};

const RUNS: u64 = 2_000;

/// How many late runs are listed one by one, and for how many times T(f) they are watched.
const LISTED: usize = 10;
const LONG: usize = 10;

/// What the arguments of the launcher's command `simulate` ask for.
#[derive(Debug, PartialEq, Eq)]
pub enum Request<'a> {
    /// The latest beat of agreement in that many runs.
    Agreement(u64),
    /// The same runs with wrong cooldowns beside.
    Fault(u64),
    /// One run with each cooldown.
    OneRun(u64),
    /// A run drawn into a file, which is what the package picture does.
    Picture {
        file: &'a str,
        seed: Option<u64>,
    },
    Lies,
}

/// The options and the argument, in any order.
#[derive(Default)]
struct Given<'a> {
    runs: Option<u64>,
    fault: Option<&'a str>,
    seed: Option<u64>,
    svg: Option<&'a str>,
    lies: Option<()>,
}

/// The request, or one line that says what is wrong with the arguments.
pub fn request<'a>(arguments: &[&'a str]) -> Result<Request<'a>, String> {
    let read = given(arguments).and_then(|given| {
        let apart = || format!("these do not go together: {}", arguments.join(" "));
        given.request().ok_or_else(apart)
    });
    read.map_err(|message| format!("simulate: {message}; try ./tsendurkho simulate --help\n"))
}

fn given<'a>(arguments: &[&'a str]) -> Result<Given<'a>, String> {
    let mut given = Given::default();
    let mut words = arguments.iter().copied();
    while let Some(word) = words.next() {
        let mut value = |name| words.next().ok_or(format!("{word} needs {name}"));
        match word {
            "--fault" => once(
                word,
                &mut given.fault,
                known_fault(value("the word cooldown")?)?,
            )?,
            "--seed" => once(word, &mut given.seed, number("SEED", value("a SEED")?)?)?,
            "--svg" => once(word, &mut given.svg, no_folder(value("a FILE")?)?)?,
            "--lies" => once(word, &mut given.lies, ())?,
            _ if word.starts_with('-') => return Err(format!("there is no option '{word}'")),
            _ if given.runs.is_some() => return Err(format!("one argument too many: '{word}'")),
            _ => given.runs = Some(number("RUNS", word)?),
        }
    }
    Ok(given)
}

fn once<T>(option: &str, place: &mut Option<T>, value: T) -> Result<(), String> {
    match place.replace(value) {
        None => Ok(()),
        Some(_) => Err(format!("{option} is given twice")),
    }
}

fn known_fault(name: &str) -> Result<&str, String> {
    let known = Some(name).filter(|&name| name == "cooldown");
    known.ok_or_else(|| format!("the only fault is 'cooldown', not '{name}'"))
}

fn no_folder(file: &str) -> Result<&str, String> {
    let fit = Some(file).filter(|file| !Path::new(file).is_dir());
    fit.ok_or_else(|| format!("'{file}' is a directory, and a file is wanted"))
}

fn number(name: &str, text: &str) -> Result<u64, String> {
    let parsed = text.parse();
    parsed.map_err(|_| format!("{name} has to be a number, not '{text}'"))
}

impl<'a> Given<'a> {
    /// Nothing where what is given does not go together.
    fn request(&self) -> Option<Request<'a>> {
        match (self.runs, self.fault, self.seed, self.svg, self.lies) {
            (runs, None, None, None, None) => Some(Request::Agreement(runs.unwrap_or(RUNS))),
            (runs, Some(_), None, None, None) => Some(Request::Fault(runs.unwrap_or(RUNS))),
            (None, None, Some(seed), None, None) => Some(Request::OneRun(seed)),
            (None, None, seed, Some(file), None) => Some(Request::Picture { file, seed }),
            (None, None, None, None, Some(())) => Some(Request::Lies),
            _ => None,
        }
    }
}

/// What goes to standard output and to standard error. Any error makes the program fail.
#[derive(Debug, Default, PartialEq, Eq)]
pub struct Answer {
    pub output: String,
    pub errors: String,
}

impl From<String> for Answer {
    fn from(output: String) -> Answer {
        Answer {
            output,
            ..Answer::default()
        }
    }
}

/// A picture is not drawn here, since what links the archive stands apart: the launcher starts that once this program has
/// found no fault in the arguments.
pub fn answer(request: &Request) -> Answer {
    match *request {
        Request::Agreement(runs) => agreement(runs),
        Request::Fault(runs) => fault(runs),
        Request::OneRun(seed) => with_each_cooldown(seed),
        Request::Lies => lies(),
        Request::Picture { .. } => Answer::default(),
    }
}

/// The table of the runs by the rules; late runs are errors.
fn agreement(runs: u64) -> Answer {
    let survey = Survey::new(RIGHT, runs);
    Answer {
        output: table(&survey),
        errors: late_runs(&survey),
    }
}

/// The search for a run that a cooldown restarting at c1 makes late; late runs are errors with
/// the right cooldown only.
fn fault(runs: u64) -> Answer {
    let surveys = [RIGHT, HALF, TOO_SOON].map(|cooldown| Survey::new(cooldown, runs));
    let [right, half, too_soon] = &surveys;
    Answer {
        output: format!(
            "The cooldown restarts at {}, by the rules; at {}, which is half of it; and at {},\n\
             where the search has to find late runs, or it shows nothing of the others.\n\n\
             {}\nlies: {}\n\n{}{}",
            right.cooldown.name,
            half.cooldown.name,
            too_soon.cooldown.name,
            side_by_side(&surveys),
            tried(right),
            found(half),
            found(too_soon),
        ),
        errors: late_runs(right),
    }
}

/// What the search found with a wrong cooldown.
fn found(survey: &Survey) -> String {
    let late = late(&survey.outcomes).len();
    let name = survey.cooldown.name;
    format!(
        "cooldown from {name}: {late} runs late\n{}",
        late_runs(survey)
    )
}

/// The first late runs of a survey.
fn late_runs(survey: &Survey) -> String {
    let late = late(&survey.outcomes);
    let listed = late.iter().take(LISTED);
    let listed = listed.map(|run| one_run(run.seed, survey.cooldown));
    listed.map(|run| format!("late: {run}")).collect()
}

fn one_run(seed: u64, cooldown: Cooldown) -> String {
    let run = Outcome::of(seed, cooldown, LONG);
    format!("cooldown from {}, {}\n", cooldown.name, line(&run))
}

fn with_each_cooldown(seed: u64) -> Answer {
    let cooldowns = [RIGHT, HALF, TOO_SOON];
    let runs: String = cooldowns.map(|cooldown| one_run(seed, cooldown)).concat();
    Answer::from(runs)
}

fn lies() -> Answer {
    let alike = STRATEGIES.map(|strategy| (strategy.name, strategy.description));
    let others = [
        ("mixed", "each broken card keeps to one of these"),
        (
            "directed",
            "the broken cards together keep the halves' pointers apart",
        ),
    ];
    let lines = alike.iter().chain(&others);
    let text: String = lines
        .map(|(name, description)| format!("{name:<10}  {description}\n"))
        .collect();
    Answer::from(text)
}
