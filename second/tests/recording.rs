//! What `record`, `replay` and `show` write, a sentence a test. The expected texts are written out
//! by hand.

use second::recording::{record, replay, show};

/// Records of which the first nine bytes are given.
fn recording(records: &[[u8; 9]]) -> Vec<u8> {
    records
        .iter()
        .flat_map(|record| [record.as_slice(), &[0; 7]].concat())
        .collect()
}

fn recorded(sheet: impl AsRef<[u8]>, records: &[[u8; 9]]) {
    let sheet = sheet.as_ref();
    let text = String::from_utf8_lossy(sheet);
    assert_eq!(record(sheet), Ok(recording(records)), "{text:?}");
}

const PUSH_10: [u8; 9] = [0, 0, 1, 0, 0, 0, 10, 0, 0];
const PUSH_4: [u8; 9] = [0, 0, 2, 0, 0, 0, 4, 0, 0];
const DIVIDE: [u8; 9] = [5, 0, 1, 0, 0x82, 0x20, 0, 0, 0];
const DELETE: [u8; 9] = [2, 0, 0, 0, 0, 0, 0, 0, 0];

#[test]
fn record_writes_a_record_a_step() {
    recorded("", &[]);
    recorded("# nothing\n\n", &[]);
    recorded("push 10\npush 4\ndivide\n", &[PUSH_10, PUSH_4, DIVIDE]);
    recorded(
        "\u{FEFF}push 10 # ten\r\n\r\npush 4\rliteral 5",
        &[PUSH_10, PUSH_4, DIVIDE],
    );
    recorded("00 00 0A 00 00\ndelete", &[PUSH_10, DELETE]);
}

#[test]
fn record_has_refusals_with_the_depth_and_the_top_as_they_stay() {
    recorded(
        "add\nliteral 6\n",
        &[[15, 2, 0, 0, 0, 0, 0, 0, 0], [6, 5, 0, 0, 0, 0, 0, 0, 0]],
    );
    let too_few = [15, 2, 1, 0, 0, 0, 10, 0, 0];
    recorded("push 10\nadd\n", &[PUSH_10, too_few]);
    // A refused push with what was to be pushed.
    let malformed = [0, 3, 1, 0, 0, 1, 2, 3, 4];
    recorded(
        "push 10\n00 01 02 03 04\ndelete",
        &[PUSH_10, malformed, DELETE],
    );
    let full = record("push 1\n".repeat(3_201).as_bytes()).unwrap();
    assert_eq!(full[3_199 * 16..][..9], [0, 0, 0x80, 0x0C, 0, 0, 1, 0, 0]);
    assert_eq!(full[3_200 * 16..][..9], [0, 4, 0x80, 0x0C, 0, 0, 1, 0, 0]);
    assert_eq!(replay(&full), "agree 3201\n");
}

#[test]
fn record_is_of_the_shipped_edition() {
    let tenth = [5, 0, 1, 0, 0x7D, 0x4C, 0xCC, 0xCC, 0xCC];
    let one = [0, 0, 1, 0, 0, 0, 1, 0, 0];
    let ten = [0, 0, 2, 0, 0, 0, 10, 0, 0];
    recorded(
        "edition shipped\npush 1\npush 10\n edition\tshipped # so\ndivide\nedition shipped",
        &[one, ten, tenth],
    );
    recorded("edition shipped", &[]);
    assert_eq!(record(b"edition mended\n"), Err(1));
    assert_eq!(record(b"push 1\n\nedition mended # x\npush"), Err(3));
    assert_eq!(record(b"edition shipped\n\tedition  mended"), Err(2));
    assert_eq!(record(b"edition shipped\nedition"), Err(2));
    assert_eq!(record(b"literal 0\nedition mended"), Err(1));
    // It is no step: 4,000 of those still fit.
    let most = "push 1\ndelete\n".repeat(2_000) + "edition shipped\n";
    assert_eq!(record(most.as_bytes()).map(|bytes| bytes.len()), Ok(64_000));
    let mended = most.clone() + "edition mended";
    assert_eq!(record(mended.as_bytes()), Err(4_002));
    assert_eq!(record((most + "delete").as_bytes()), Err(4_002));
}

#[test]
fn record_stops_at_a_line() {
    assert_eq!(record(b"push 1\n\n# x\npush\n"), Err(4));
    assert_eq!(record(b"push 1\nliteral 0\nx\n"), Err(2));
    assert_eq!(record(b"\n literal\t000 # push\n"), Err(2));
    assert_eq!(record(b"x\nliteral 0\n"), Err(1));
    let most = "push 1\ndelete\n".repeat(2_000);
    assert_eq!(record(most.as_bytes()).map(|bytes| bytes.len()), Ok(64_000));
    for (more, line) in [("delete", 4_001), ("\n# x\nliteral 0", 4_003), ("y", 4_001)] {
        assert_eq!(record(format!("{most}{more}").as_bytes()), Err(line));
    }
    let only_comments = format!("{most}# x\n\n \n");
    assert_eq!(
        record(only_comments.as_bytes()).map(|bytes| bytes.len()),
        Ok(64_000)
    );
}

#[test]
fn replay_prints_one_line() {
    assert_eq!(replay(&[]), "agree 0\n");
    assert_eq!(
        replay(&recording(&[PUSH_10, DELETE].repeat(6))),
        "agree 12\n"
    );
    let mut differs = recording(&[PUSH_10, DELETE, PUSH_10, DELETE]);
    differs[3 * 16 + 2] = 1;
    assert_eq!(replay(&differs), "differ 3 depth\n");
    differs[16 + 4] = 1;
    assert_eq!(replay(&differs), "differ 1 top\n");
    differs[1] = 1;
    assert_eq!(replay(&differs), "differ 0 report\n");
    differs[15] = 1;
    assert_eq!(replay(&differs), "refused 8\n");
    assert_eq!(replay(&[0; 15]), "refused 8\n");
}

#[test]
fn show_stops_after_the_first_that_differs() {
    let mut divide = DIVIDE;
    divide[8] = 1;
    let given = recording(&[PUSH_10, PUSH_4, divide, DELETE]);
    let expected = "\
0 push 0 1 00 00 0A 00 00
1 push 0 2 00 00 04 00 00
2 divide 0 1 82 20 00 00 01
  this machine: 0 1 82 20 00 00 00
differ 2 top
";
    assert_eq!(show(&given), expected);
}

#[test]
fn show_says_what_the_record_says() {
    let given = recording(&[
        [15, 2, 0, 0, 0, 0, 0, 0, 0],
        [62, 5, 0, 0, 0, 0, 0, 0, 0],
        [0, 3, 0, 0, 0, 1, 0, 0, 0],
        [0, 0, 1, 0, 0, 0, 0, 0, 0],
        [61, 0, 1, 0, 0, 0, 0, 0, 0],
        [2, 7, 0x2C, 1, 0, 0, 0, 0, 0],
    ]);
    let expected = "\
0 add 2 0 -
1 literal 62 5 0 -
2 push 3 0 00 01 00 00 00
3 push 0 1 00 00 00 00 00
4 re-stack 0 1 00 00 00 00 00
5 delete 7 300 00 00 00 00 00
  this machine: 0 0 -
differ 5 report
";
    assert_eq!(show(&given), expected);
    // At depth 0 a top that is not zeros is told; of a push what is pushed always is.
    let given = recording(&[[0, 0, 0, 0, 0, 0, 0, 0, 0]]);
    let expected =
        "0 push 0 0 00 00 00 00 00\n  this machine: 0 1 00 00 00 00 00\ndiffer 0 depth\n";
    assert_eq!(show(&given), expected);
    let given = recording(&[[2, 2, 0, 0, 0, 0, 0, 0, 9]]);
    let expected = "0 delete 2 0 00 00 00 00 09\n  this machine: 2 0 -\ndiffer 0 top\n";
    assert_eq!(show(&given), expected);
}

#[test]
fn show_of_what_is_refused_is_that_line_alone() {
    let mut given = recording(&[PUSH_10, DELETE]);
    given[31] = 1;
    assert_eq!(show(&given), "refused 8\n");
    assert_eq!(show(&given[..17]), "refused 8\n");
    assert_eq!(show(&[]), "agree 0\n");
}
