//! `samblokur`: reads, checks, shows and runs plans from the command line.

mod arguments;
mod check;
mod complaint;
mod demo;
mod events;
mod help;
mod kinds;
mod paint;
mod read;
mod run;
mod said;
mod show;
mod source;
mod svg;
mod telling;
mod text;
mod trouble;
mod turn;
mod written;

use arguments::Request;
use std::io::Write;
use std::process::ExitCode;
use trouble::Trouble;

fn main() -> ExitCode {
    let arguments: Vec<String> =
        std::env::args_os().skip(1).map(|argument| argument.to_string_lossy().into_owned()).collect();
    let mut told = String::new();
    let ending = answer(&arguments, &mut told);
    // A reader that has gone away is no trouble of ours.
    let _ = std::io::stdout().write_all(told.as_bytes());
    match ending {
        Ok(status) => ExitCode::from(status),
        Err(trouble) => {
            let _ = writeln!(std::io::stderr(), "{trouble}");
            ExitCode::from(trouble.status())
        }
    }
}

/// Does what is asked; what it tells so far stands in `told` also when it ends in trouble.
fn answer(arguments: &[String], told: &mut String) -> Result<u8, Trouble> {
    match arguments::read(arguments)? {
        Request::Help(text) => told.push_str(text),
        Request::Check { plan } => return check::check(&plan, told),
        Request::Show { plan } => show::show(&plan, told)?,
        Request::Read { plan, to } => read::read(&plan, &to, told)?,
        Request::Run(asked) => run::run(&asked, told)?,
        Request::Demo => demo::demo(told)?,
    }
    Ok(0)
}
