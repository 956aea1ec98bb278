//! What a sheet of `calc` is, a sentence a test. The expected answers are written out by hand.

use second::sheet::{follow, LONGEST};

/// A sheet that is read to its end, with these answers.
fn answered(input: impl AsRef<[u8]>, answers: &[&str]) {
    let input = input.as_ref();
    let followed = follow(input);
    let text = String::from_utf8_lossy(&input[..input.len().min(200)]);
    let found: Vec<&str> = followed.answers.lines().collect();
    assert_eq!(found, answers, "{text:?}");
    assert_eq!(followed.unreadable, None, "{text:?}");
}

/// A sheet whose line of this number can't be read, after these answers.
fn stopped(input: impl AsRef<[u8]>, line: usize, answers: &[&str]) {
    let input = input.as_ref();
    let followed = follow(input);
    let text = String::from_utf8_lossy(&input[..input.len().min(200)]);
    let mut expected: Vec<String> = answers.iter().map(|a| a.to_string()).collect();
    expected.push(format!("? line {line}"));
    let found: Vec<&str> = followed.answers.lines().collect();
    assert_eq!(found, expected, "{text:?}");
    assert_eq!(followed.unreadable, Some(line), "{text:?}");
}

#[test]
fn five_words_of_two_digits_are_a_number() {
    answered("84 70 00 00 01\n", &["0 1 84 70 00 00 01"]);
    answered("fF 7f Ff fF FF\n", &["0 1 FF 7F FF FF FF"]);
    answered("\t 84\t70  00 \t 00 00 \t\n", &["0 1 84 70 00 00 00"]);
    // Bytes that are no number are read, and refused.
    answered("00 01 00 00 00\n", &["3 0 -"]);
    for line in [
        "84 70 00 00",
        "84 70 00 00 00 00",
        "8470000000",
        "8470 00 00 00",
        "84 70 00 0000",
        "84 70 00 00 0",
        "84 70 00 00 000",
        "84 70 00 00 0G",
        "84 70 00 00 O0",
        "84,70,00,00,00",
        "-4 70 00 00 00",
        "+4 70 00 00 00",
        "0x 70 00 00 00",
    ] {
        stopped(line, 1, &[]);
    }
}

#[test]
fn push_takes_a_number_from_minus_65535_to_65535() {
    for (line, bytes) in [
        ("push 0", "00 00 00 00 00"),
        ("push -0", "00 00 00 00 00"),
        ("push 1", "00 00 01 00 00"),
        ("push -1", "00 FF FF FF 00"),
        ("push 255", "00 00 FF 00 00"),
        ("push 256", "00 00 00 01 00"),
        ("push -256", "00 FF 00 FF 00"),
        ("push 65535", "00 00 FF FF 00"),
        ("push -65535", "00 FF 01 00 00"),
        ("push 000000000000000000000000065535", "00 00 FF FF 00"),
        ("push -000000000000000000000000065535", "00 FF 01 00 00"),
        ("push \t \t007", "00 00 07 00 00"),
    ] {
        answered(line, &[&format!("0 1 {bytes}")]);
    }
    for line in [
        "push",
        "push ",
        "push -",
        "push --5",
        "push +5",
        "push - 5",
        "push 5 5",
        "push 65536",
        "push -65536",
        "push 4294967296",
        "push 18446744073709551616",
        "push 99999999999999999999999999999999999999999",
        "push 1.0",
        "push 1O",
        "push 0x10",
        "push FF",
        "Push 5",
        "PUSH 5",
        "push5",
        "push-5",
        "push_5",
    ] {
        stopped(line, 1, &[]);
    }
}

#[test]
fn literal_takes_a_number_to_255() {
    answered(
        "push 7\nliteral 49",
        &["0 1 00 00 07 00 00", "0 2 00 00 07 00 00"],
    );
    answered("literal 000049", &["2 0 -"]);
    for line in ["literal 0", "literal 6", "literal 62", "literal 255"] {
        answered(line, &["5 0 -"]);
    }
    for line in [
        "literal",
        "literal 256",
        "literal 305",
        "literal 18446744073709551665",
        "literal -1",
        "literal -0",
        "literal +5",
        "literal add",
        "literal 5 5",
        "literal5",
        "Literal 5",
    ] {
        stopped(line, 1, &[]);
    }
}

#[test]
fn a_name_is_a_literal() {
    let two = "push 6\npush 4\n";
    for (name, literal, last) in [
        ("exchange", 1, "0 2 00 00 06 00 00"),
        ("delete", 2, "0 1 00 00 06 00 00"),
        ("subtract", 3, "0 1 00 00 02 00 00"),
        ("multiply", 4, "0 1 00 00 18 00 00"),
        ("divide", 5, "0 1 81 40 00 00 00"),
        ("add", 15, "0 1 00 00 0A 00 00"),
        ("negate", 27, "0 2 00 FF FC FF 00"),
        ("int", 39, "0 2 00 00 04 00 00"),
        ("duplicate", 49, "0 3 00 00 04 00 00"),
        ("truncate", 58, "0 2 00 00 04 00 00"),
        ("re-stack", 61, "0 2 83 00 00 00 00"),
    ] {
        let pushed = ["0 1 00 00 06 00 00", "0 2 00 00 04 00 00", last];
        answered(format!("{two}{name}\n"), &pushed);
        answered(format!("{two} \t{name} \t\n"), &pushed);
        answered(format!("{two}literal {literal}\n"), &pushed);
        let capital = name.to_uppercase();
        for line in [
            capital,
            format!("{name} 1"),
            format!("{name}d"),
            format!("{name}."),
        ] {
            stopped(format!("{two}{line}\n"), 3, &pushed[..2]);
        }
    }
    for line in [
        "hello", "restack", "re stack", "re_stack", "ad", "d", "=", "-",
    ] {
        stopped(line, 1, &[]);
    }
}

#[test]
fn a_bare_decimal_is_nothing() {
    for line in ["0", "2", "5", "15", "65535", "-1", "4 9", "1.5"] {
        stopped(line, 1, &[]);
    }
}

#[test]
fn a_comment_goes_to_the_end_of_its_line() {
    answered(
        "# push 1\npush 2#push 3\n  \t# x\nadd # y # z\n",
        &["0 1 00 00 02 00 00", "2 1 00 00 02 00 00"],
    );
    answered(b"#\n##\n # \xFF\x00\n", &[]);
    stopped("// push 1\n", 1, &[]);
    let long = format!("push 2 #{}\npush 3", "-".repeat(200_000));
    answered(long, &["0 1 00 00 02 00 00", "0 2 00 00 03 00 00"]);
}

#[test]
fn a_line_ends_in_any_of_three_ways() {
    let one_two = ["0 1 00 00 01 00 00", "0 2 00 00 02 00 00"];
    for end in ["\n", "\r", "\r\n"] {
        answered(format!("push 1{end}push 2{end}"), &one_two);
        answered(format!("push 1{end}push 2"), &one_two);
        answered(format!("push 1 # x{end}push 2 # y{end}"), &one_two);
        stopped(format!("push 1{end}{end}x{end}push 2"), 3, &one_two[..1]);
    }
    // A line feed and a carriage return are two ends; so are two carriage returns before a line feed.
    stopped("\n\rx", 3, &[]);
    stopped("\r\r\nx", 3, &[]);
    stopped("x", 1, &[]);
    answered("", &[]);
    answered("\n", &[]);
    answered(" ", &[]);
}

#[test]
fn a_byte_order_mark_is_dropped_at_the_start_alone() {
    answered("\u{FEFF}push 1", &["0 1 00 00 01 00 00"]);
    answered("\u{FEFF}\npush 1", &["0 1 00 00 01 00 00"]);
    answered("\u{FEFF}", &[]);
    stopped("\u{FEFF}\u{FEFF}push 1", 1, &[]);
    stopped("\n\u{FEFF}push 1", 2, &[]);
    stopped(" \u{FEFF}push 1", 1, &[]);
    stopped(b"\xEF\xBBpush 1", 1, &[]);
    stopped(b"\xEF\xBB", 1, &[]);
}

#[test]
fn what_stands_before_the_comment_has_65535_bytes_at_most() {
    let one = ["0 1 00 00 01 00 00"];
    for (before, after) in [("push 1", " "), ("push 1", "\t"), ("", " ")] {
        let fill = after.repeat(LONGEST - before.len());
        let answers = if before.is_empty() { &[][..] } else { &one[..] };
        for end in ["", "\n", "#", "# and so on\r\n"] {
            answered(format!("{before}{fill}{end}"), answers);
            answered(format!("\u{FEFF}{before}{fill}{end}"), answers);
            stopped(format!("{before}{fill}{after}{end}"), 1, &[]);
        }
    }
    answered(format!("push {}1", "0".repeat(LONGEST - 6)), &one);
    stopped(format!("push {}1", "0".repeat(LONGEST - 5)), 1, &[]);
}

#[test]
fn other_bytes_are_no_blanks() {
    for line in [
        "push\u{A0}1",
        "push\x0B1",
        "push\x0C1",
        "push 1\0",
        "\0",
        "\x1B[0m",
        "é",
    ] {
        stopped(line, 1, &[]);
    }
}

#[test]
fn an_edition_holds_from_its_line_on_and_has_no_answer() {
    let (shipped, mended) = ("0 1 7D 4C CC CC CC", "0 1 7D 4C CC CC CD");
    let tenth = "push 1\npush 10\ndivide\ndelete\n";
    let answers = |tenth| ["0 1 00 00 01 00 00", "0 2 00 00 0A 00 00", tenth, "0 0 -"];
    answered(tenth, &answers(shipped));
    answered(format!("edition shipped\n{tenth}"), &answers(shipped));
    answered(format!("edition mended\n{tenth}"), &answers(mended));
    let both = [answers(shipped), answers(mended)].concat();
    answered(format!("{tenth}edition mended\n{tenth}"), &both);
    let again = [answers(mended), answers(shipped), answers(shipped)].concat();
    answered(
        format!("edition mended\n{tenth}edition shipped\n{tenth}{tenth}"),
        &again,
    );
    // The last that is named holds, and naming it once more changes nothing.
    answered(
        format!("edition mended\nedition shipped\nedition mended\nedition mended\n{tenth}"),
        &answers(mended),
    );
    // Blanks, comments and ends of a line are as of any other.
    for line in [
        "edition  mended",
        " \tedition \t mended\t ",
        "edition mended# so",
        "edition mended # edition shipped",
        "# x\r\redition mended\r",
        "\u{FEFF}edition mended",
    ] {
        answered(format!("{line}\n{tenth}"), &answers(mended));
    }
    answered("edition mended", &[]);
    // The stack and its depth stay as they are.
    answered(
        "push 1\nedition mended\npush 2\nedition shipped\nadd",
        &[
            "0 1 00 00 01 00 00",
            "0 2 00 00 02 00 00",
            "0 1 00 00 03 00 00",
        ],
    );
}

#[test]
fn only_literals_go_by_the_edition() {
    // -65,536 is made, copied and used in the one, then made in the other.
    answered(
        "00 FF 18 02 5A\n00 FF E8 FD 00\nadd\nedition mended\nduplicate\nnegate\nexchange\n\
         delete\n00 FF 00 00 07\nint\ndelete\nedition shipped\nint",
        &[
            "0 1 00 FF 18 02 5A",
            "0 2 00 FF E8 FD 00",
            "0 1 00 FF 00 00 5A",
            "0 2 00 FF 00 00 5A",
            "3 2 00 FF 00 00 5A",
            "0 2 00 FF 00 00 5A",
            "0 1 00 FF 00 00 5A",
            "0 2 00 FF 00 00 07",
            "3 2 00 FF 00 00 07",
            "0 1 00 FF 00 00 5A",
            "0 1 81 80 00 00 00",
        ],
    );
    answered(
        "edition mended\n00 FF 18 02 5A\n00 FF E8 FD 00\nadd\ntruncate\nint\nnegate",
        &[
            "0 1 00 FF 18 02 5A",
            "0 2 00 FF E8 FD 00",
            "0 1 91 80 00 00 00",
            "0 1 91 80 00 00 00",
            "0 1 91 80 00 00 00",
            "0 1 91 00 00 00 00",
        ],
    );
}

#[test]
fn an_edition_is_shipped_or_mended() {
    for line in [
        "edition",
        "edition ",
        "edition # mended",
        "edition 0",
        "edition 1",
        "edition new",
        "edition Mended",
        "edition MENDED",
        "edition mende",
        "edition mendedd",
        "edition mended.",
        "edition mended mended",
        "edition mended shipped",
        "edition mended 1",
        "edition a b c d",
        "edition ship",
        "edition shipped,",
        "edition shippedd",
        "edition -mended",
        "Edition mended",
        "EDITION mended",
        "editionmended",
        "edition-mended",
        "edition=mended",
        "editions mended",
        "editio mended",
        "mended",
        "shipped",
        "mended edition",
    ] {
        stopped(line, 1, &[]);
        stopped(format!("edition mended\n{line}\npush 1"), 2, &[]);
    }
}

#[test]
fn a_refused_step_is_an_answer_and_the_steps_go_on() {
    answered(
        "add\npush 1\npush 0\ndivide\nliteral 6\ndelete\n",
        &[
            "2 0 -",
            "0 1 00 00 01 00 00",
            "0 2 00 00 00 00 00",
            "6 2 00 00 00 00 00",
            "5 2 00 00 00 00 00",
            "0 1 00 00 01 00 00",
        ],
    );
    let full = follow("push 1\n".repeat(3_201).as_bytes()).answers;
    let last: Vec<&str> = full.lines().skip(3_199).collect();
    assert_eq!(last, ["0 3200 00 00 01 00 00", "4 3200 00 00 01 00 00"]);
}

#[test]
fn nothing_is_done_after_a_line_that_cannot_be_read() {
    stopped(
        "push 1\n\n# x\npush\npush 2\nadd\nx\n",
        4,
        &["0 1 00 00 01 00 00"],
    );
}
