//! The console's own lines: marks and remarks, what is said of catalogues, `list`, `work`, `exit`.

use crate::cases::{answers, last};
use crate::expect::transcript;

const OPEN: &str = "seats are still open on the old catalogue; open begins anew";
const MEND: &str = "seats are still open on the old catalogue; mend the fault, then open begins anew";
const ROW: &str = "a row has an option that is not below its feature's size";

/// The whole transcript of bytes, its end line too.
fn whole(script: &[u8]) -> Vec<u8> {
    transcript(script).0
}

fn numbers(count: usize, number: u16) -> String {
    format!(" {}", number).repeat(count)
}

#[test]
fn a_byte_order_mark_is_passed_over() {
    let end = |answered: u32, not: u32| format!("end: {} answered, {} not understood\n", answered, not);
    let no = "not understood; help lists the commands\n";
    // Before a command, a remark, blanks, nothing; the remark comes back without it.
    let script = b"\xef\xbb\xbfturns 0\n\xef\xbb\xbf#a\r\n\xef\xbb\xbf ,# b\n\xef\xbb\xbf \t\r\n\xef\xbb\xbf";
    let expected = format!("0 turns made, no seat is at work\n#a\r\n ,# b\n{}", end(1, 0));
    assert_eq!(whole(script), expected.as_bytes());
    // On any line; with the form of the line after it.
    assert_eq!(
        whole(b"turns 0\n\xef\xbb\xbf enter\n\xef\xbb\xbfopne"),
        format!("0 turns made, no seat is at work\nnot understood; write: enter SEAT\n{}{}", no, end(1, 2)).as_bytes()
    );
    // Not at the start, a second one, a part of one, within a line: part of a word.
    for line in [
        &b" \xef\xbb\xbfdigest"[..], b"\xef\xbb\xbf\xef\xbb\xbfdigest", b"\xef\xbbdigest", b"\xef\xbb\xbf \xef\xbb\xbf",
        b" \xef\xbb\xbf# x", b"digest\xef\xbb\xbf", b"\xfe\xffdigest",
    ] {
        assert_eq!(whole(line), format!("{}{}", no, end(0, 1)).as_bytes());
    }
    assert_eq!(whole(b"digest \xef\xbb\xbf"), format!("not understood; write: digest\n{}", end(0, 1)).as_bytes());
}

#[test]
fn a_byte_order_mark_counts_for_the_length() {
    let line = |length: usize| {
        let mut line = b"\xef\xbb\xbfturns 0".to_vec();
        line.resize(length, b' ');
        String::from_utf8(whole(&line)).unwrap()
    };
    assert!(line(65_536).starts_with("0 turns made, no seat is at work\nend: 1 answered, 0 "));
    let long = "not understood; a line has at most 65536 bytes\nend: 0 answered, 1 not understood\n";
    assert_eq!(line(65_537), long);
    // The line feed is not counted.
    let remark = format!("\u{feff}#{}\n", "x".repeat(65_532));
    assert_eq!(last(&remark).len(), 65_533);
}

#[test]
fn a_remark_may_stand_after_blanks() {
    let remarks = " #\n\t# a \n,#b,\n\r# c\n \t,\r#d\r\n";
    let expected = format!("{}end: 0 answered, 0 not understood\n", remarks);
    assert_eq!(whole(remarks.as_bytes()), expected.as_bytes());
    // Another byte before it that is no blank: not written back.
    assert_eq!(last("x #\n"), "not understood; help lists the commands");
    assert_eq!(last("\u{b}#\n"), "not understood; help lists the commands");
}

#[test]
fn a_remark_may_stand_behind_a_command() {
    // The document's own line; each blank; whatever comes after it, and nothing.
    let entered = "seat 3 has entered and is at work";
    for remark in [
        " # our clinic", " #", "\t#", ",#", "\r#", " ,\t\r#\r", " #4", " # 4 5", " ##", " #,#", " # # x", " #\u{feff}",
        " #\0",
    ] {
        assert_eq!(answers(&format!("enter 3{}\n", remark)), [entered]);
    }
    let expected = format!("{}\nend: 1 answered, 0 not understood\n", entered);
    assert_eq!(whole(b"\xef\xbb\xbf enter 3 #\xff\x80"), expected.as_bytes());
    // Behind the word alone: the numbers are none of the command's.
    assert_eq!(answers("open # 1\nmore #3\n"), ["opened: eight seats, all closed", "24 numbers: 2 rules"]);
    assert_eq!(last("enter # 3\n"), "not understood; write: enter SEAT");
    assert_eq!(last("enter 3 4 # 5\n"), "not understood; write: enter SEAT");
    assert_eq!(last("opne # open\n"), "not understood; help lists the commands");
    // It ends as the word alone does.
    assert_eq!(whole(b"exit # for today\nturns 0\n"), b"end: 1 answered, 0 not understood\n");
}

#[test]
fn a_number_sign_without_a_blank_is_no_remark() {
    // Part of the number, then of the word; a blank after it, or a remark behind, does not help.
    for line in ["enter 3#", "enter 3#4", "enter 3# 4", "enter 3# our clinic", "enter 3# # 4", "enter 3\u{b}#"] {
        assert_eq!(answers(&format!("{}\n", line)), ["not understood; write: enter SEAT"]);
    }
    assert_eq!(last("digest \u{feff}# x\n"), "not understood; write: digest");
    for line in ["open#", "open# x", "open#,#", "quit#", "open\u{b}#", "open\0#"] {
        assert_eq!(answers(&format!("{}\n", line)), ["not understood; help lists the commands"]);
    }
}

#[test]
fn a_remark_behind_a_command_counts_for_the_length() {
    let said = |remark: usize| last(&format!("turns 0 #{}\n", "x".repeat(remark - 1)));
    assert_eq!(said(65_536 - 8), "0 turns made, no seat is at work");
    assert_eq!(said(65_537 - 8), "not understood; a line has at most 65536 bytes");
}

#[test]
fn exit_ends_as_quit_does() {
    for word in ["quit", "exit", " ,exit\r", "\u{feff}exit", "\u{feff} quit"] {
        let script = format!("turns 0\n{}\nturns 0\nopne\n# no\n", word);
        assert_eq!(
            String::from_utf8(whole(script.as_bytes())).unwrap(),
            "0 turns made, no seat is at work\nend: 2 answered, 0 not understood\n"
        );
    }
    // What does not end it, and what is not understood before it.
    let script = "exit 0\nexit x\nexits\nExit\nquit 0\nexit";
    let form = "not understood; write: exit\n";
    let no = "not understood; help lists the commands\n";
    let expected =
        format!("{}{}{}{}not understood; write: quit\nend: 1 answered, 5 not understood\n", form, form, no, no);
    assert_eq!(String::from_utf8(whole(script.as_bytes())).unwrap(), expected);
}

#[test]
fn what_sizes_says() {
    let said = |sizes: &str| last(&format!("sizes{}\n", sizes));
    assert_eq!(said(" 3 3 2"), "3 numbers: 3 features");
    assert_eq!(said(" 1"), "1 number: 1 feature");
    assert_eq!(said(&numbers(16, 16)), "16 numbers: 16 features");
    // 10, before every size.
    assert_eq!(said(""), "0 numbers: fault 10: the catalogue has 0 features, not 1 to 16");
    assert_eq!(said(&numbers(17, 1)), "17 numbers: fault 10: the catalogue has 17 features, not 1 to 16");
    assert_eq!(said(&numbers(64, 0)), "64 numbers: fault 10: the catalogue has 64 features, not 1 to 16");
    // 11, the first of them.
    assert_eq!(said(" 3 0"), "2 numbers: fault 11 in feature 1: a size is 0 or above 16");
    assert_eq!(said(" 17"), "1 number: fault 11 in feature 0: a size is 0 or above 16");
    assert_eq!(said(" 16 1 0 255"), "4 numbers: fault 11 in feature 2: a size is 0 or above 16");
    let last_one = format!("{} 0", numbers(15, 16));
    assert_eq!(said(&last_one), "16 numbers: fault 11 in feature 15: a size is 0 or above 16");
    // The sizes alone: the trolley's list has faults with these, which sizes does not name.
    assert_eq!(said(" 1"), "1 number: 1 feature");
    assert_eq!(answers("rules 9\nsizes 2\n")[1], "1 number: 1 feature");
}

#[test]
fn what_rules_and_more_say() {
    let said = |sizes: &str, list: &str| last(&format!("sizes{}\nrules{}\n", sizes, list));
    assert_eq!(said(" 2", ""), "0 numbers: 0 rules");
    assert_eq!(said(" 2", " 1 0 0"), "3 numbers: 1 rule");
    assert_eq!(said(" 2", " 1 0 0 1 0 0"), "6 numbers: 2 rules");
    // The catalogue as it now stands, sizes first.
    assert_eq!(said("", " 9"), "1 number: fault 10: the catalogue has 0 features, not 1 to 16");
    assert_eq!(said(" 2 17", " 9"), "1 number: fault 11 in feature 1: a size is 0 or above 16");
    let added = answers("rules 1 0 0\nmore 1\nmore\nmore 1 1\nmore 2\nmore 0\n");
    assert_eq!(added[0], "3 numbers: 1 rule");
    assert_eq!(added[1], "4 numbers: fault 14 in rule 1: the rule list ends within a rule");
    assert_eq!(added[2], added[1]);
    assert_eq!(added[3], "6 numbers: fault 14 in rule 1: the rule list ends within a rule");
    // Feature 1 has size 3: its row 2 is good; then a header of one number.
    assert_eq!(added[4], "7 numbers: 2 rules");
    assert_eq!(added[5], "8 numbers: fault 14 in rule 2: the rule list ends within a rule");
    // What is not understood is answered by its form alone.
    assert_eq!(answers("set-ready 0\nrules x\nmore 65536\nsizes 256\n")[1..].concat().matches(OPEN).count(), 0);
}

#[test]
fn faults_of_the_list_and_their_places() {
    let said = |list: &str| last(&format!("sizes 2 2 2 2 2 2 2\nrules{}\n", list));
    let fault = |list: &str| said(list).split_once(": ").unwrap().1.to_string();
    let long = |count: usize| format!(" 1 {} 0{}", count - 3, numbers(count - 3, 1));
    assert_eq!(said(&long(8192)), "8192 numbers: 1 rule");
    assert_eq!(said(&long(8193)), "8193 numbers: fault 12: the rule list has 8193 numbers, above 8192");
    let good = " 1 1 0 0";
    assert_eq!(said(&good.repeat(64)), "256 numbers: 64 rules");
    assert_eq!(said(&format!("{} 7", good.repeat(64))), "257 numbers: fault 13: numbers remain after 64 rules");
    let ends = "the rule list ends within a rule";
    assert_eq!(fault(" 1"), format!("fault 14 in rule 0: {}", ends));
    assert_eq!(fault(&format!("{} 7", good.repeat(63))), format!("fault 14 in rule 63: {}", ends));
    assert_eq!(fault(&format!("{} 2 0 1", good)), format!("fault 14 in rule 1: {}", ends));
    assert_eq!(fault(&format!("{} 2 2 0 1 0 0 0", good)), format!("fault 14 in rule 1: {}", ends));
    assert_eq!(fault(" 6 1 0 1 2 3 4 5 0 0 0 0 0 0"), "1 rule");
    let arity = "the arity of a rule is 0 or above 6";
    assert_eq!(fault(&format!("{} 7 0", good)), format!("fault 15 in rule 1: {}", arity));
    assert_eq!(fault(" 0 0"), format!("fault 15 in rule 0: {}", arity));
    let unknown = "a rule names a feature that is not in the catalogue";
    assert_eq!(fault(" 1 0 6"), "1 rule");
    assert_eq!(fault(&format!("{}{} 1 0 7", good, good)), format!("fault 16 in rule 2: {}", unknown));
    assert_eq!(fault(" 3 0 0 0 7"), "fault 17 in rule 0: a rule names a feature twice");
    assert_eq!(fault(&format!("{} 2 0 3 3", good)), "fault 17 in rule 1: a rule names a feature twice");
    // 18: rows counted within their rule.
    assert_eq!(fault(" 1 2 0 1 2"), format!("fault 18 in rule 0, row 1: {}", ROW));
    assert_eq!(fault(&format!("{} 2 3 1 0 0 1 1 2 2 0", good)), format!("fault 18 in rule 1, row 1: {}", ROW));
    assert_eq!(fault(" 1 1 0 2"), format!("fault 18 in rule 0, row 0: {}", ROW));
    // The document's own line: the trolley with an option 3 of feature 1 in its second rule's third row.
    let trolley = last("rules 2 4 0 1 0 1 1 0 1 2 2 1 2 4 1 2 0 0 1 1 3 0 2 1\n");
    assert_eq!(trolley, format!("24 numbers: fault 18 in rule 1, row 2: {}", ROW));
}

#[test]
fn seats_still_open() {
    // None, one, many; ready or at work; whether or not the line changes anything.
    let after = |before: &str, line: &str| {
        let lines = answers(&format!("{}{}\n", before, line));
        let from = lines.iter().position(|line| line.contains("number")).unwrap();
        lines[from..].to_vec()
    };
    assert_eq!(after("", "sizes 3 3 2"), ["3 numbers: 3 features"]);
    assert_eq!(after("", "more"), ["24 numbers: 2 rules"]);
    assert_eq!(after("enter 3\nleave 3\n", "rules"), ["0 numbers: 0 rules"]);
    assert_eq!(after("set-choice 0 0 0\nset-mask 0 0 1\nset-next 9\n", "more"), ["24 numbers: 2 rules"]);
    for before in ["enter 7\n", "set-ready 0\n", "enter 0\nenter 1\nturns 39\n", "set-work 4 255 255 255 255\n"] {
        assert_eq!(after(before, "sizes 3 3 2"), ["3 numbers: 3 features", OPEN]);
        assert_eq!(after(before, "more"), ["24 numbers: 2 rules", OPEN]);
        assert_eq!(after(before, "rules"), ["0 numbers: 0 rules", OPEN]);
        let fault = "1 number: fault 14 in rule 0: the rule list ends within a rule";
        assert_eq!(after(before, "rules 1"), [fault, MEND]);
        let none = "0 numbers: fault 10: the catalogue has 0 features, not 1 to 16";
        assert_eq!(after(before, "sizes"), [none, MEND]);
        let in_third = "25 numbers: fault 14 in rule 2: the rule list ends within a rule";
        assert_eq!(after(before, "more 1"), [in_third, MEND]);
        // The trolley's list has a fault with this size, which sizes does not name.
        assert_eq!(after(before, "sizes 1"), ["1 number: 1 feature", OPEN]);
    }
    // Named again, though the line is not the one that made it; gone with the line that mends it.
    let mended = after("enter 7\n", "rules 1\nmore\nsizes 3 3 2\nmore 0 0");
    let mended: Vec<&String> = mended.iter().skip(1).step_by(2).collect();
    assert_eq!(mended, [MEND, MEND, OPEN, OPEN]);
    // A fault, but no seat open: no second line.
    assert_eq!(after("", "sizes 17"), ["1 number: fault 11 in feature 0: a size is 0 or above 16"]);
    assert_eq!(last("enter 7\nset-closed 7\nmore\n"), "24 numbers: 2 rules");
    assert_eq!(last("enter 7\nopen\nmore\n"), "24 numbers: 2 rules");
}

#[test]
fn the_catalogue_in_columns() {
    assert_eq!(
        answers("catalogue\n"),
        [
            "3 features, 2 rules", "feature    0   1   2", "options    3   3   2", "rule 0: 4 rows", "feature    0   1",
            "row 0      0   1", "row 1      1   0", "row 2      1   2", "row 3      2   1", "rule 1: 4 rows",
            "feature    1   2", "row 0      0   0", "row 1      1   1", "row 2      2   0", "row 3      2   1",
        ]
    );
    let shown = |sizes: &str, list: &str| answers(&format!("sizes{}\nrules{}\ncatalogue\n", sizes, list))[2..].to_vec();
    assert_eq!(shown(" 16", ""), ["1 feature, 0 rules", "feature    0", "options   16"]);
    // In its own order; no rows, one row.
    assert_eq!(
        shown(" 2 11", " 2 1 1 0 10 1 1 0 0"),
        [
            "2 features, 2 rules", "feature    0   1", "options    2  11", "rule 0: 1 row", "feature    1   0",
            "row 0     10   1", "rule 1: 0 rows", "feature    0",
        ]
    );
    // Up to the fault: the rule before it, not the good rows of its own.
    assert_eq!(
        shown(" 2", " 1 1 0 1 1 3 0 0 1 2 9"),
        [
            "1 feature, 1 rule", "feature    0", "options    2", "rule 0: 1 row", "feature    0", "row 0      1",
            &format!("fault 18 in rule 1, row 2: {}", ROW),
        ]
    );
    let wide = shown(" 255 3", " 1 0 0");
    let size = "fault 11 in feature 0: a size is 0 or above 16";
    assert_eq!(wide, ["2 features, 0 rules", "feature    0   1", "options  255   3", size]);
    let none = "fault 10: the catalogue has 0 features, not 1 to 16";
    assert_eq!(shown("", " 1 0 0"), ["0 features, 0 rules", "feature ", "options ", none]);
}

#[test]
fn the_catalogue_before_12_and_13() {
    let many = answers(&format!("sizes 1\nrules{} 9\ncatalogue\n", " 1 1 0 0".repeat(64)));
    assert_eq!(many[2], "1 feature, 64 rules");
    assert_eq!(many.len(), 2 + 3 + 64 * 3 + 1);
    assert_eq!(many[2 + 3 + 63 * 3], "rule 63: 1 row");
    assert_eq!(many.last().unwrap(), "fault 13: numbers remain after 64 rules");
    let long = |rows: usize| answers(&format!("sizes 1\nrules 1 {} 0{}\ncatalogue\n", rows, numbers(rows, 0)));
    let above = "fault 12: the rule list has 8193 numbers, above 8192";
    assert_eq!(long(8190)[2..], ["1 feature, 0 rules", "feature    0", "options    1", above]);
    // Row 999 leaves one space of the 8 bytes, row 1000 none.
    let rows = long(8189);
    assert_eq!(rows[5], "rule 0: 8189 rows");
    assert_eq!((&rows[7 + 999][..], &rows[7 + 1000][..]), ("row 999    0", "row 1000   0"));
    assert_eq!(rows.last().unwrap(), "row 8188   0");
}

#[test]
fn numbers_can_be_given_back() {
    assert_eq!(
        answers("numbers\n"),
        ["sizes 3 3 2", "rules 2 4 0 1 0 1 1 0 1 2 2 1 2 4 1 2 0 0 1 1 2 0 2 1"]
    );
    for catalogue in ["sizes\nrules\n", "sizes 0 255\nrules 65535\n", "sizes 7\nrules 1 1 0 0\nmore 9 9\n"] {
        let lines = answers(&format!("{}numbers\n", catalogue));
        let back = lines[lines.len() - 2..].to_vec();
        assert_eq!(answers(&format!("{}\nnumbers\n", back.join("\n")))[2..], back);
    }
    assert_eq!(answers("sizes\nrules\nnumbers\n")[2..], ["sizes", "rules"]);
}

#[test]
fn list_of_a_seat_at_work_and_without_a_product() {
    // The trolley has 8 pairs; the first takes 5 steps, the last 4 of 39.
    let at = |turns: u32| answers(&format!("enter 3\nenter 5\nleave 5\nturns {}\nlist 3\n", turns))[4..].to_vec();
    assert_eq!(at(0), ["seat 3 is at work: pair 1 of 8", "seat 3 has run into no rule", "at work: 3"]);
    assert_eq!(at(2), ["seat 3 is at work: pair 1 of 8", "seat 3 last ran into rule 0", "at work: 3"]);
    assert_eq!(at(4), ["seat 3 is at work: pair 1 of 8", "seat 3 last ran into rule 1", "at work: 3"]);
    assert_eq!(at(5), ["seat 3 is at work: pair 2 of 8", "seat 3 last ran into rule 1", "at work: 3"]);
    // Pairs 4 to 6 are those of feature 1: 5 + 3 + 5 steps before.
    assert_eq!(at(12)[0], "seat 3 is at work: pair 3 of 8");
    assert_eq!(at(13)[0], "seat 3 is at work: pair 4 of 8");
    assert_eq!(at(38)[0], "seat 3 is at work: pair 8 of 8");
    assert_eq!(at(39)[0], "seat 3 is ready");
    // Another refusal comes before, and stays as it is.
    let unfit = "refused 20: the desk does not fit the catalogue";
    assert_eq!(answers("enter 3\nset-next 8\nlist 3\n")[2..], [unfit, "at work: 3"]);
    assert_eq!(answers("enter 3\nlist 4\n")[1..], ["refused 31: seat 4 is closed", "at work: 3"]);
    // 16 × 16 pairs, the last but one.
    let large = format!("sizes{}\nrules\nset-work 0 15 14 0 0\nlist 0\n", numbers(16, 16));
    assert_eq!(answers(&large)[3], "seat 0 is at work: pair 255 of 256");
    // No row: no product. One option anywhere, also at the last feature alone: no such line.
    let none = "set-ready 0\nset-choice 0 1 2\nset-alternatives 0 1 4\n";
    assert_eq!(
        answers(&format!("{}list 0\n", none))[3..],
        [
            "seat 0 is ready", "no product satisfies these rules", "feature 0: 0 left",
            "feature 1: 0 left; chosen; alternatives: 2", "feature 2: 0 left", "at work: none",
        ]
    );
    assert_eq!(answers(&format!("{}set-mask 0 2 2\nlist 0\n", none))[5], "feature 0: 0 left");
}

/// "At the end the rule that the seat last ran into": in `seat`, and so in each line of `desk`.
#[test]
fn the_rule_at_the_end_of_a_seats_line() {
    let none = " -".repeat(16);
    let zeros = numbers(16, 0);
    let closed = format!("closed; choices{}; masks{}; alternatives{}; trial{}", none, zeros, zeros, none);
    assert_eq!(last("seat 3\n"), format!("seat 3: {}; rule -", closed));
    // Set on any desk; what it says is not checked here.
    for (rule, shown) in [(0, "0"), (1, "1"), (63, "63"), (254, "254"), (255, "-")] {
        let lines = answers(&format!("set-rule 3 {}\nseat 3\ndesk\n", rule));
        assert_eq!(lines[0], "set");
        assert_eq!(lines[1], format!("seat 3: {}; rule {}", closed, shown));
        assert_eq!((&lines[2][..], &lines[6]), ("next 0", &lines[1]));
        assert_eq!(lines[5], format!("seat 2: {}; rule -", closed));
    }
    // After four steps of the trolley's job: 01 placed, 010 broke rule 1.
    let trial = format!("0 1{}", " -".repeat(14));
    assert_eq!(
        last("enter 3\nturns 4\nseat 3\n"),
        format!(
            "seat 3: at work at feature 0 option 0 depth 2 next 1; choices{}; masks{}; alternatives{}; trial {}; rule 1",
            none, zeros, zeros, trial
        )
    );
    // The state alone is set; the rule stays, and so does the digest's byte.
    assert!(last("enter 3\nturns 4\nset-ready 3\nseat 3\n").ends_with("; rule 1"));
    assert_ne!(last("set-rule 0 0\ndigest\n"), last("set-rule 1 0\ndigest\n"));
    assert_eq!(last("set-rule 0 0\nset-rule 0 255\ndigest\n"), last("digest\n"));
}

/// The rule's line stands in `list` only where the seat is at work.
#[test]
fn the_rule_in_list() {
    let at = |set: &str| answers(&format!("set-work 5 0 0 0 0\n{}list 5\n", set));
    let pair = "seat 5 is at work: pair 1 of 8";
    assert_eq!(at("")[1..], [pair, "seat 5 has run into no rule", "at work: 5"]);
    assert_eq!(at("set-rule 5 1\n")[2..], [pair, "seat 5 last ran into rule 1", "at work: 5"]);
    let unfit = "refused 20: the desk does not fit the catalogue";
    assert_eq!(at("set-rule 5 2\n")[2..], [unfit, "at work: 5"]);
    assert_eq!(answers("set-ready 5\nlist 5\n")[1..3], ["seat 5 is ready", "no product satisfies these rules"]);
    // Counts as no call of its own: the end line counts lines.
    let end = "end: 2 answered, 0 not understood\n";
    assert!(String::from_utf8(whole(b"enter 5\nlist 5\n")).unwrap().ends_with(end));
}

#[test]
fn work_until_ready() {
    // K is 39, alone; 0 where it is ready already; after 38 turns one is left.
    assert_eq!(last("enter 3\nwork 3\n"), "seat 3 is ready after 39 turns");
    assert_eq!(last("enter 3\nturns 38\nwork 3\n"), "seat 3 is ready after 1 turn");
    assert_eq!(last("enter 3\nturns 39\nwork 3\n"), "seat 3 is ready after 0 turns");
    assert_eq!(last("enter 3\nwork 3\nchoose 3 2 0\nwork 3\n"), "seat 3 is ready after 43 turns");
    // One call of turns 65535 gives the other seats all that they need: 8 × 39.
    let all: String = (0..8).map(|seat| format!("enter {}\n", seat)).collect();
    let lines = answers(&format!("{}work 3\nwork 0\ndesk\n", all));
    assert_eq!(lines[8..11], ["seat 3 is ready after 312 turns", "seat 0 is ready after 0 turns", "next 0"]);
    // A seat that is ready gives no turn to those that are at work.
    let script = "enter 0\nturns 39\nenter 1\nwork 0\nlist 1\n";
    assert_eq!(answers(script)[3..5], ["seat 0 is ready after 0 turns", "seat 1 is at work: pair 1 of 8"]);
    assert_eq!(last("sizes 1\nrules\nopen\nenter 0\nwork 0\n"), "seat 0 is ready after 1 turn");
}

#[test]
fn work_refused_and_without_a_product() {
    assert_eq!(answers("work 3\n"), ["refused 31: seat 3 is closed"]);
    assert_eq!(last("work 8\n"), "refused 30: there is no seat 8");
    assert_eq!(last("work 4294967295\n"), "refused 30: there is no seat 4294967295");
    assert_eq!(last("enter 3\nset-next 8\nwork 3\n"), "refused 20: the desk does not fit the catalogue");
    assert_eq!(last("enter 3\nboard 7 0\nrules 1\nwork 3\n"), "refused 1: the board has 7 bytes, not 32768");
    assert_eq!(last("enter 3\nrules 1\nwork 3\n"), "refused 14: the rule list ends within a rule");
    assert_eq!(last("work\n"), "not understood; write: work SEAT");
    assert_eq!(last("work 4294967296\n"), "not understood; write: work SEAT");
    // P9, nothing fits; f for failed. Feature 0: 0, 0f 1, 0f 1f; 1, 0, 0f 1f, 1f: 5 and 5. Feature 1:
    // 0, 0f, 1, 0, 0f 1f; 0, 1, 0f 1f, 1, 1f: 6 and 6. Feature 2: 0, 0f 1, 0f, 1, 0, 0f, 1f: 8, and 8.
    let unequal = "sizes 2 2 2\nrules 2 2 0 1 0 1 1 0 2 2 0 2 0 1 1 0 2 2 1 2 0 1 1 0\nopen\nenter 0\n";
    let lines = answers(&format!("{}work 0\n", unequal));
    assert_eq!(lines.last().unwrap(), "no product satisfies these rules");
    assert_eq!(lines[lines.len() - 2], "seat 0 is ready after 38 turns");
    // A made-up seat, ready with nothing left: two lines; one option left anywhere: one.
    let nothing = "no product satisfies these rules";
    assert_eq!(answers("set-ready 0\nwork 0\n")[1..], ["seat 0 is ready after 0 turns", nothing]);
    assert_eq!(answers("set-ready 0\nset-mask 0 2 1\nwork 0\n")[2..], ["seat 0 is ready after 0 turns"]);
}

#[test]
fn work_of_more_than_one_call() {
    // Eight features of size 3, the last of which fits nothing: each pair goes through all. With
    // option a alone at depth t there are 3 + … + 3^t steps before it and 3^t + … + 3^7 from it on:
    // 3280, 3282, 3288, 3306, 3360, 3522, 4008, 5466, in all 29,512, three times each.
    let job = "sizes 3 3 3 3 3 3 3 3\nrules 1 0 7\nopen\nenter 0\n";
    let ready = |turns: u32| answers(&format!("{}turns {}\nwork 0\n", job, turns))[5..].to_vec();
    let nothing = "no product satisfies these rules";
    assert_eq!(ready(0), ["seat 0 is ready after 88536 turns", nothing]);
    assert_eq!(ready(23_000), ["seat 0 is ready after 65536 turns", nothing]);
    assert_eq!(ready(23_001), ["seat 0 is ready after 65535 turns", nothing]);
    // Seat 1 enters after seat 0: while seat 0 works both get 88,536 each but for seat 1's last one;
    // the third call goes on until no seat is at work.
    let both = answers(&format!("{}enter 1\nwork 0\ndesk\n", job));
    assert_eq!(both[5..8], ["seat 0 is ready after 177072 turns", nothing, "next 2"]);
    // Seat 1 entered 65,535 turns later: seat 0 needs 23,001 more and is ready at turn 46,002. The call
    // ends after 65,535; seat 1 got 42,534 of them, and the first twelve pairs take 39,468.
    let later = answers(&format!("{}turns 65535\nenter 1\nwork 0\nlist 1\n", job));
    let other = "seat 1 is at work: pair 13 of 24";
    assert_eq!(later[6..9], ["seat 0 is ready after 65535 turns", nothing, other]);
}

#[test]
fn a_script_that_works_too_long_is_given_up() {
    let job = b"sizes 3 3 3 3 3 3 3 3\nrules 1 0 7\nopen\nenter 0\nwork 0\ndigest\n";
    let (_, session) = crate::expect::transcript_within(job, 65_535);
    assert!(session.given_up && session.over);
    let (_, session) = crate::expect::transcript_within(job, 65_536);
    assert!(!session.given_up && !session.over);
}
