//! `oracle expect`: the transcript of a script, or of several.

use crate::script::Session;
use std::io::{self, Read, Write};

/// The lines of a script: each ends with a line feed, "the last one may lack it".
pub fn lines(script: &[u8]) -> Vec<&[u8]> {
    let mut lines: Vec<&[u8]> = script.split(|&byte| byte == b'\n').collect();
    if lines.last().map_or(false, |last| last.is_empty()) {
        lines.pop();
    }
    lines
}

/// The whole transcript of one script from the start state, and the session after it.
pub fn transcript(script: &[u8]) -> (Vec<u8>, Session) {
    transcript_within(script, u64::MAX)
}

/// The same, given up where one `work` makes more turns than `work_limit`.
pub fn transcript_within(script: &[u8], work_limit: u64) -> (Vec<u8>, Session) {
    let mut session = Session::new();
    session.work_limit = work_limit;
    let mut out = Vec::new();
    for line in lines(script) {
        session.line(line, &mut out);
    }
    session.end(&mut out);
    (out, session)
}

/// True unless a check of a run failed.
pub fn expect(files: &[String]) -> io::Result<bool> {
    let mut good = true;
    let mut answer = |script: &[u8]| -> io::Result<()> {
        let (out, session) = transcript(script);
        for problem in &session.run.problems {
            eprintln!("{}", problem);
            good = false;
        }
        write(&out)
    };
    if files.is_empty() {
        answer(&script_of("-")?)?;
    }
    for name in files {
        match script_of(name) {
            Err(_) => write(format!("script {} can't be read\n", name).as_bytes())?,
            Ok(script) => {
                write(format!("script {}\n", name).as_bytes())?;
                answer(&script)?;
            }
        }
    }
    Ok(good)
}

/// "`-` names standard input".
fn script_of(name: &str) -> io::Result<Vec<u8>> {
    if name != "-" {
        return std::fs::read(name);
    }
    let mut script = Vec::new();
    io::stdin().read_to_end(&mut script)?;
    Ok(script)
}

/// Whoever reads the transcript may stop before its end.
fn write(bytes: &[u8]) -> io::Result<()> {
    match io::stdout().write_all(bytes) {
        Err(error) if error.kind() == io::ErrorKind::BrokenPipe => Ok(()),
        other => other,
    }
}
