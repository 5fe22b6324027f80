//! Lines that are not understood, and lines at the edges of being understood.

use super::author::Author;
use super::random::Random;
use crate::desk::SEATS;
use crate::script::MARK;
use crate::words::FORMS;

/// Lines whole as they stand; none of them asks for `help` or ends the script.
const ODD: [&[u8]; 110] = [
    b"", b" ", b"\t, \r", b"\r", b"# a remark, 1 2 3", b"#", b"#open\r", b" # after a space", b"opne",
    b"Open", b"OPEN", b"open 1", b"open x", b"open,", b",\topen\r", b"3 3 2", b"0", b"enter",
    b"enter 1 2", b"enter -1", b"enter +1", b"enter 1.0", b"enter 0x1", b"enter 4294967296",
    b"enter 4294967295", b"enter 99999999999999999999999999", b"enter 0000000000000000000003",
    b"enter,2", b"leave 1,", b"turns 65536", b"turns", b"turns -0", b"enter 1#", b"open\x0c",
    b"\x0bopen", b"\xff\xfe", b"# \xff\x00\x80", b"enter \xd9\xa3", b"open\x00", b"options 1",
    b" #", b"\t# after a tab", b",#,", b"\r#\r", b" \t,\r# after all four", b"  ## two", b"x # none",
    b"\x0b# none", b"\xef\xbb\xbf", b"\xef\xbb\xbf , \t\r", b"\xef\xbb\xbf#", b"\xef\xbb\xbf# marked",
    b"\xef\xbb\xbf \t# marked", b"\xef\xbb\xbfdigest", b"\xef\xbb\xbf digest\r", b"\xef\xbb\xbfopne",
    b"\xef\xbb\xbfenter", b"\xef\xbb\xbf\xef\xbb\xbf", b"\xef\xbb\xbf\xef\xbb\xbf# twice",
    b" \xef\xbb\xbfdigest", b" \xef\xbb\xbf# none", b"\xef\xbbdigest", b"\xef\xbb", b"\xef",
    b"\xbb\xbfdigest", b"\xfe\xffdigest", b"digest\xef\xbb\xbf", b"digest \xef\xbb\xbf", b"exit 0",
    b"exit x", b"Exit", b"exits", b"exi", b"exit\x00", b"exit#", b"quit#", b"work", b"work x",
    b"work 4294967296", b"enter 3 # our clinic", b"digest #", b"digest#", b"digest# #", b"enter # 3",
    b"turns 0,#,1", b"turns 0\t##", b"turns 0\r# 1 # 2", b"turns 0#", b"turns 0# 1", b"turns 0#1 # 2",
    b"turns 0\x0b# none", b"digest \xef\xbb\xbf# none", b"digest # \xff\x00\x80", b"ran-into",
    b"ran-into x", b"ran-into 1 2", b"ran-into 4294967296", b"ran-into,3 # rule", b"ran-into3", b"ran into 3",
    b"ran_into 3", b"Ran-into 3", b"ran-int 3", b"ran-intos 3", b"ran- 3", b"set-rule 0", b"set-rule 0 256",
    b"set-rule 8 255", b"set-rule 0 0 255", b"set-rules 0 255",
];

/// What a remark may hold after its `#`: all that would be something if it were not passed over.
const REMARKED: [&[u8]; 13] = [
    b" ", b",", b"\t", b"\r", b"#", b" #", b"3", b" 0", b" 65536", b" our clinic", b"quit", b"\xef\xbb\xbf",
    b"\xff\x00",
];

pub fn noise(author: &mut Author) {
    for _ in 0..author.random.between(1, 4) {
        if author.random.once_in(2) {
            odd(author);
        } else {
            numbers_at_edge(author);
        }
    }
    author.line("digest");
}

pub fn odd(author: &mut Author) {
    let line = author.random.pick(&ODD);
    author.line(line);
}

/// A command with one number too many, one too few, or numbers around the limits of the tables; now
/// and then a `#` behind it, which is a remark or, with no blank before it, none.
fn numbers_at_edge(author: &mut Author) {
    let form = author.random.pick(&FORMS);
    let mut parts = form.split(' ');
    let word = parts.next().unwrap_or("");
    let mut count = parts.count();
    let mut text = word.to_string();
    match author.random.below(4) {
        0 => count += 1,
        1 => count = count.saturating_sub(1),
        _ => {}
    }
    if matches!(word, "help" | "quit" | "exit") && count == 0 {
        count = 1;
    }
    let seat = author.random.near(SEATS);
    if word == "work" && count == 1 && author.work(seat) {
        return;
    }
    // With one number this would be work on a seat whose search may be long.
    if word == "work" && count == 1 {
        count = 2;
    }
    for _ in 0..count {
        let number = author.random.pick(&[
            0u32, 0, 1, 2, 3, 7, 7, 8, 15, 15, 16, 255, 255, 256, 32_767, 32_768, 40_000, 40_001, 65_535, 65_536,
            u32::MAX,
        ]);
        text.push_str(&format!(" {}", number));
    }
    // Behind what stands already: put between, it could leave `help`, `quit` or long work.
    if author.random.once_in(3) {
        let blank = author.random.pick(&[&b""[..], b" ", b"\t", b",", b"\r"]);
        let remark = remark(&mut author.random);
        return author.line([text.as_bytes(), blank, &remark[..]].concat());
    }
    author.line(text);
}

/// A remark from its `#` on; with no blank before it, it is none.
pub fn remark(random: &mut Random) -> Vec<u8> {
    let mut remark = b"#".to_vec();
    for _ in 0..random.below(6) {
        remark.extend(random.pick(&REMARKED));
    }
    remark
}

/// Lines at the edge of 65,536 bytes and lists at the edges of 64 sizes and 9,000 numbers.
pub fn long(author: &mut Author) {
    let length = author.random.pick(&[65_535, 65_536, 65_537, 70_000]);
    // A byte-order mark counts.
    let begin = author.random.pick(&[&b"digest"[..], b"digest #", b"#", b" ", b" # "]);
    let mut line = [MARK, begin].concat();
    line.resize(length, b' ');
    author.line(line);
    match author.random.below(5) {
        0 => author.line(vec![b'#'; length]),
        1 => author.line(vec![b' '; length]),
        2 => {
            let mut line = b"digest".to_vec();
            line.resize(length, b',');
            author.line(line);
        }
        3 => {
            let count = author.random.pick(&[64, 65]);
            author.line(format!("sizes{}", " 2".repeat(count)));
        }
        _ => {
            let count = author.random.pick(&[8999, 9000, 9001]);
            author.line(format!("rules{}", " 1".repeat(count)));
            author.line("more");
            author.line("more 1");
            author.line("more 1 1");
        }
    }
    author.line("digest");
    author.line("trolley");
}
