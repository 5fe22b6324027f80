//! Runs the console on a script and takes its transcript.

use std::io::{self, Read, Write};
use std::process::{Child, Command, ExitStatus, Stdio};
use std::sync::mpsc;
use std::thread;
use std::time::Duration;

/// What a console did with a script.
pub struct Played {
    pub transcript: Vec<u8>,
    /// How it ended, if not as it should: a status, a signal, or no end at all.
    pub trouble: Option<String>,
}

pub struct Console {
    pub command: String,
    /// A console that answers for longer than this is taken to hang: every call "ends".
    pub patience: Duration,
    /// Shows what the console writes to standard error, a crash's words for one.
    pub loud: bool,
}

impl Console {
    fn start(&self) -> io::Result<Child> {
        Command::new("sh")
            .arg("-c")
            .arg(format!("exec {}", self.command)) // so that `kill` reaches the console itself
            .stdin(Stdio::piped())
            .stdout(Stdio::piped())
            .stderr(if self.loud { Stdio::inherit() } else { Stdio::null() })
            .spawn()
    }

    /// `limit`: a console that prints more bytes than this prints too much.
    pub fn play(&self, script: Vec<u8>, limit: usize) -> Played {
        let mut child = match self.start() {
            Err(error) => return broken(format!("can't be started: {}", error)),
            Ok(child) => child,
        };
        let (input, output) = match (child.stdin.take(), child.stdout.take()) {
            (Some(input), Some(output)) => (input, output),
            _ => return broken("has no pipes".to_string()),
        };
        // Both pipes at once, each in a thread of its own, or a full one would stop all. A console
        // that stops reading (after `quit`, say) makes the write fail; what it wrote decides.
        let writer = thread::spawn(move || {
            let mut input = input;
            let _ = input.write_all(&script);
        });
        let (sender, receiver) = mpsc::channel();
        thread::spawn(move || {
            let mut transcript = Vec::new();
            let _ = output.take(limit as u64).read_to_end(&mut transcript);
            let _ = sender.send(transcript);
        });
        let transcript = match receiver.recv_timeout(self.patience) {
            Ok(transcript) => transcript,
            Err(_) => {
                let _ = child.kill();
                let _ = child.wait();
                return broken(format!("does not end within {:?}", self.patience));
            }
        };
        if transcript.len() >= limit {
            let _ = child.kill();
            let _ = child.wait();
            return Played { transcript, trouble: Some("prints too much".to_string()) };
        }
        let status = child.wait();
        let _ = writer.join();
        Played { transcript, trouble: trouble_of(status) }
    }
}

fn trouble_of(status: io::Result<ExitStatus>) -> Option<String> {
    match status {
        Ok(status) if status.success() => None,
        Ok(status) => Some(format!("ends with {}", status)),
        Err(error) => Some(format!("can't be waited for: {}", error)),
    }
}

fn broken(trouble: String) -> Played {
    Played { transcript: Vec::new(), trouble: Some(trouble) }
}
