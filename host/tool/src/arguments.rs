//! The command line.

use crate::help;
use crate::trouble::Trouble;

/// What is asked for.
#[derive(Debug)]
pub enum Request {
    Help(&'static str),
    Check { plan: String },
    Show { plan: String },
    Read { plan: String, to: String },
    Run(Asked),
    Demo,
}

/// A run, its options read.
#[derive(Debug)]
pub struct Asked {
    pub plan: String,
    pub events: Option<String>,
    pub budget: u16,
    pub svg: Option<String>,
}

pub fn read(arguments: &[String]) -> Result<Request, Trouble> {
    let Some((command, rest)) = arguments.split_first() else { return Ok(Request::Help(help::ALL)) };
    let wants_help = rest.iter().any(|argument| argument == "--help" || argument == "-h");
    match command.as_str() {
        "--help" | "-h" | "help" => Ok(Request::Help(help::ALL)),
        "check" if wants_help => Ok(Request::Help(help::CHECK)),
        "show" if wants_help => Ok(Request::Help(help::SHOW)),
        "read" if wants_help => Ok(Request::Help(help::READ)),
        "run" if wants_help => Ok(Request::Help(help::RUN)),
        "demo" if wants_help => Ok(Request::Help(help::DEMO)),
        "check" => only_plan(command, rest).map(|plan| Request::Check { plan }),
        "show" => only_plan(command, rest).map(|plan| Request::Show { plan }),
        "read" => text_and_image(rest),
        "run" => asked(rest).map(Request::Run),
        "demo" if rest.is_empty() => Ok(Request::Demo),
        "demo" => Err(Trouble::Usage("`demo` takes no arguments".to_string())),
        other => Err(Trouble::Usage(format!("there is no command `{other}`"))),
    }
}

fn only_plan(command: &str, rest: &[String]) -> Result<String, Trouble> {
    match rest {
        [plan] if !plan.starts_with("--") => Ok(plan.clone()),
        _ => Err(Trouble::Usage(format!("`{command}` takes one plan file"))),
    }
}

fn text_and_image(rest: &[String]) -> Result<Request, Trouble> {
    let (plan, to) = match rest {
        [plan, option, to] if option == "-o" => (plan, to),
        [option, to, plan] if option == "-o" => (plan, to),
        _ => return Err(Trouble::Usage("`read` takes a text file, and -o with an image file".to_string())),
    };
    Ok(Request::Read { plan: plan.clone(), to: to.clone() })
}

fn asked(rest: &[String]) -> Result<Asked, Trouble> {
    let mut asked = Asked { plan: String::new(), events: None, budget: 1000, svg: None };
    let mut rest = rest.iter();
    while let Some(argument) = rest.next() {
        match argument.as_str() {
            "--events" => asked.events = Some(value(argument, rest.next())?),
            "--svg" => asked.svg = Some(value(argument, rest.next())?),
            "--budget" => asked.budget = budget(&value(argument, rest.next())?)?,
            option if option.starts_with("--") => {
                return Err(Trouble::Usage(format!("`run` has no option `{option}`")));
            }
            plan if asked.plan.is_empty() => asked.plan = plan.to_string(),
            more => {
                return Err(Trouble::Usage(format!("`run` takes one plan file, and `{more}` is another")));
            }
        }
    }
    if asked.plan.is_empty() {
        return Err(Trouble::Usage("`run` takes a plan file".to_string()));
    }
    Ok(asked)
}

fn value(option: &str, given: Option<&String>) -> Result<String, Trouble> {
    given.cloned().ok_or_else(|| Trouble::Usage(format!("`{option}` needs a value")))
}

fn budget(text: &str) -> Result<u16, Trouble> {
    text.parse().map_err(|_| Trouble::Usage(format!("`{text}` is no budget: it must be 0 to 65535")))
}
