//! The first difference between the console's transcript and the oracle's own.

use crate::console::Console;
use crate::expect;
use crate::generate;
use crate::script::Session;

#[derive(Clone, Debug)]
pub struct Difference {
    /// The line of the script (from 0) whose answer differs; past the last one: the end line.
    pub script_line: usize,
    pub expected: String,
    pub answered: String,
}

/// Compares line by line; `trouble` is a difference even under an equal transcript.
pub fn between(
    script: &[Vec<u8>],
    expected: &[u8],
    answered: &[u8],
    trouble: Option<&str>,
    problems: &[String],
) -> Option<Difference> {
    if let Some(problem) = problems.first() {
        return Some(Difference {
            script_line: script.len(),
            expected: format!("(the oracle's own check of a run) {}", problem),
            answered: String::new(),
        });
    }
    if expected == answered {
        let trouble = trouble?;
        return Some(Difference {
            script_line: script.len(),
            expected: "(a console that ends well)".to_string(),
            answered: format!("(the console {})", trouble),
        });
    }
    let ours = expect::lines(expected);
    let theirs = expect::lines(answered);
    let place = ours.iter().zip(&theirs).take_while(|(our, their)| our == their).count();
    let shown = |lines: &[&[u8]]| match lines.get(place) {
        None => match trouble {
            None => "(nothing more)".to_string(),
            Some(trouble) => format!("(nothing more; the console {})", trouble),
        },
        Some(line) => String::from_utf8_lossy(line).into_owned(),
    };
    Some(Difference {
        script_line: line_that_answers(script, place),
        expected: shown(&ours),
        answered: shown(&theirs),
    })
}

/// Which line of the script is answered by line `place` of the transcript.
fn line_that_answers(script: &[Vec<u8>], place: usize) -> usize {
    let mut session = Session::new();
    let mut answered = 0;
    for (number, line) in script.iter().enumerate() {
        let mut out = Vec::new();
        session.line(line, &mut out);
        answered += out.iter().filter(|&&byte| byte == b'\n').count();
        if answered > place {
            return number;
        }
    }
    script.len()
}

/// Turns of one `work` above which a script is not played: one that lost a rule may search for ever.
const WORK_LIMIT: u64 = 500_000;

/// Runs both on a script, unless it would take too long.
pub fn of_script(console: &Console, script: &[Vec<u8>], last_line_feed: bool) -> Option<Difference> {
    let text = generate::text(script, last_line_feed);
    let (expected, session) = expect::transcript_within(&text, WORK_LIMIT);
    if session.given_up {
        return None;
    }
    let played = console.play(text, expected.len() + 1_000_000);
    between(script, &expected, &played.transcript, played.trouble.as_deref(), &session.run.problems)
}

#[cfg(test)]
mod tests {
    use super::between;
    use crate::expect::transcript;
    use crate::generate::text;

    #[test]
    fn the_line_that_differs() {
        let script: Vec<Vec<u8>> =
            ["# remark", "", "enter 0", "desk", "turns 9"].iter().map(|line| line.as_bytes().to_vec()).collect();
        let (good, _) = transcript(&text(&script, true));
        let find = |answered: &[u8], trouble| between(&script, &good, answered, trouble, &[]);
        assert!(find(&good, None).is_none());
        // Good to the end, but for how it ended.
        assert_eq!(find(&good, Some("ends with signal 11")).unwrap().script_line, 5);
        // Ended early, one line too much, one line other.
        let answered = String::from_utf8(good.clone()).unwrap();
        assert_eq!(find(&good[..200], Some("ends with signal 11")).unwrap().script_line, 3);
        assert_eq!(find(format!("{}x\n", answered).as_bytes(), None).unwrap().script_line, 5);
        let other = answered.replace("9 turns", "8 turns");
        let difference = find(other.as_bytes(), None).unwrap();
        assert_eq!(difference.script_line, 4);
        assert_eq!(difference.answered, "8 turns made, a seat is at work");
    }
}
