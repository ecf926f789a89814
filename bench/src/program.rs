//! The program around a session: standard input, standard output and the argument.

use crate::session;
use crate::visit::Visits;
use std::env;
use std::io::{self, BufWriter, Read, Write};
use std::process::ExitCode;

pub fn run<S: Visits>() -> ExitCode {
    let mut report_tries = false;
    for argument in env::args_os().skip(1) {
        if argument == "--tries" {
            report_tries = true;
        } else {
            eprintln!("the one argument that may be given is --tries");
            return ExitCode::from(2);
        }
    }
    match answer_input::<S>(report_tries) {
        Ok(()) => ExitCode::SUCCESS,
        Err(error) => {
            eprintln!("{error}");
            ExitCode::FAILURE
        }
    }
}

fn answer_input<S: Visits>(report_tries: bool) -> io::Result<()> {
    let mut text = Vec::new();
    io::stdin().lock().read_to_end(&mut text)?;
    let mut replies = BufWriter::new(io::stdout().lock());
    let effort = session::answer_all::<S>(&text, &mut replies)?;
    replies.flush()?;
    if report_tries {
        eprintln!("{} {:.6}", effort.tries, effort.time.as_secs_f64());
    }
    Ok(())
}
