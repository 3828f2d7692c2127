//! What the arguments ask for.

use crate::choice::Choice;

#[derive(Clone, Debug, PartialEq, Eq)]
pub struct Request {
    pub crates: Vec<String>,
    pub choice: Choice,
    pub list: bool,
    pub jobs: Option<usize>,
}

/// The request, or what is wrong with the arguments.
pub fn request(arguments: &[String]) -> Result<Request, String> {
    let mut request = Request {
        crates: Vec::new(),
        choice: Choice::Spread,
        list: false,
        jobs: None,
    };
    let mut words = arguments.iter();
    while let Some(word) = words.next() {
        let mut value = |name| words.next().ok_or(format!("{word} needs {name}"));
        match word.as_str() {
            "--list" => request.list = true,
            "--all" | "--only" if request.choice != Choice::Spread => {
                return Err("at most one of --all and --only is allowed".to_string());
            }
            "--all" => request.choice = Choice::All,
            "--only" => request.choice = Choice::only(value("a number or a text")?),
            "--jobs" => request.jobs = Some(jobs(value("a number N")?)?),
            option if option.starts_with('-') => {
                return Err(format!("there is no option '{option}'"));
            }
            name => request.crates.push(name.to_string()),
        }
    }
    Ok(request)
}

fn jobs(text: &str) -> Result<usize, String> {
    match text.parse() {
        Ok(jobs) if jobs > 0 => Ok(jobs),
        _ => Err(format!("N has to be a number from 1 on, not '{text}'")),
    }
}
