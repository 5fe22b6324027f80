//! The independent program: says once more what document 01 says, with of document 02,
//! and compares a console with it.

mod builds;
mod calls;
mod catalogue;
#[cfg(test)]
mod cases;
#[cfg(test)]
mod cases_console;
mod compare;
mod console;
mod desk;
mod difference;
mod expect;
mod fit;
mod generate;
mod look;
mod record;
mod run;
mod script;
mod search;
mod set;
mod shrink;
mod tally;
mod words;

use std::process::ExitCode;
use std::time::{SystemTime, UNIX_EPOCH};

const USE: &str = "oracle expect [FILE...]
  writes the transcript of the script on standard input, or of each file
oracle generate [--seed S]
  writes a random script
oracle compare --console \"CMD ARGS\" [--calls N] [--seconds T] [--seed S]
    [--patience T] [--shrink-seconds T]
  plays random scripts on a console and compares; a console may take --patience seconds a script";

fn main() -> ExitCode {
    let arguments: Vec<String> = std::env::args().skip(1).collect();
    let done = match arguments.split_first() {
        Some((word, files)) if word == "expect" => expect::expect(files).map_err(|e| e.to_string()),
        Some((word, rest)) if word == "generate" => wish(rest).and_then(|wish| {
            let script = generate::script(wish.seed);
            let text = generate::text(&script.lines, script.last_line_feed);
            std::io::Write::write_all(&mut std::io::stdout(), &text).map_err(|e| e.to_string())?;
            Ok(true)
        }),
        Some((word, rest)) if word == "compare" => wish(rest).and_then(|wish| {
            if wish.console.is_empty() {
                return Err("--console is missing".to_string());
            }
            Ok(compare::compare(&wish))
        }),
        _ => Err(USE.to_string()),
    };
    match done {
        Ok(true) => ExitCode::SUCCESS,
        Ok(false) => ExitCode::from(1),
        Err(error) => {
            eprintln!("{}", error);
            ExitCode::from(2)
        }
    }
}

/// The arguments of compare; a seed that is not given is taken from the clock.
fn wish(arguments: &[String]) -> Result<compare::Wish, String> {
    let clock = SystemTime::now().duration_since(UNIX_EPOCH).map_or(1, |time| time.as_nanos() as u64);
    let mut wish = compare::Wish {
        console: String::new(),
        seed: clock % 1_000_000_000,
        calls: 200_000,
        seconds: None,
        patience: 600,
        shrink_seconds: 300,
    };
    for pair in arguments.chunks(2) {
        let value = pair.get(1).ok_or_else(|| format!("{} needs a value", pair[0]))?;
        let number = || value.parse::<u64>().map_err(|_| format!("{} is no number", value));
        match &pair[0][..] {
            "--console" => wish.console = value.clone(),
            "--seed" => wish.seed = number()?,
            "--calls" => wish.calls = number()?,
            "--seconds" => wish.seconds = Some(number()?),
            "--patience" => wish.patience = number()?,
            "--shrink-seconds" => wish.shrink_seconds = number()?,
            other => return Err(format!("{} is not known\n{}", other, USE)),
        }
    }
    Ok(wish)
}
