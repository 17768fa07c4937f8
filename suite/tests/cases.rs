//! docs/WHAT-IF.md: every case holds on both nodes, the page is what they make, and a line that is not so is found.
use std::path::{Path, PathBuf};
use suite::boards::board_a;
use suite::cases::{boards, examples, made, misquoted, parse, proved, read, run, run_all, same};
use suite::cases::{second, Boards, DOCS};
use suite::whatif::{board_file, quotes};

fn docs() -> &'static Path {
    Path::new(DOCS)
}

fn all_boards() -> Boards {
    boards(&docs().join("boards")).expect("boards that can be read")
}

#[test]
fn every_case_holds_and_the_page_is_what_they_make() {
    let document = std::env::var_os("DOCUMENT_01").map(PathBuf::from);
    let (made, _) =
        made(docs(), document.as_deref()).unwrap_or_else(|lines| panic!("{}", lines.join("\n")));
    let page = read(&docs().join("WHAT-IF.md")).expect("the page");
    assert_eq!(same(&page, &made), Ok(()));
}

#[test]
fn every_case_holds_on_the_second_node() {
    let text = read(&docs().join("what-if.cases")).expect("the cases");
    let cases = parse(&text).expect("cases that can be read");
    let ran = run_all(&cases, &all_boards(), second);
    ran.unwrap_or_else(|lines| panic!("{}", lines.join("\n")));
}

#[test]
fn board_a_of_the_files_is_board_a_of_the_tests() {
    let setting = board_file::read(&docs().join("boards/a.board")).expect("a board");
    assert_eq!((setting.lent, setting.busy), (board_a(), 0));
}

const CASE: &str = "\
question What is written?
answer This.
board a
busy 2
packet F8 20 00 02 01 66 7F
silence
variable 1 66
packet 05 22 00 04 02 01 02 03 CD
reply 00 E8 00 00 18
step 9
unchanged
store 0 00 00 00 07
done
reads 0 7
write signed 0 -1 into 4
bytes FF*4
result 0 due failed 09
reply 00 53 00 01 09 A3
packet 05 30 00 02 00 02 C7
reply 00 E0 00 00 20
group 3 0 2
group 4 none
block 0 1 00 00 00 00
length 0 1 4
fresh
done
sum 0 7D EA 36 2B 3F AC 8E 00 95 6A 49 52 A3 D4 F4 74
says The long road";

fn wrong(text: &str) -> Vec<String> {
    let cases = parse(text).expect("a case that can be read");
    run(&cases[0], &all_boards(), proved)
        .err()
        .unwrap_or_default()
}

const CHANGES: &[(&str, &str, &str)] = &[
    (
        "silence",
        "refused 6",
        "line 6: it says \"refused 6\", and it is \"silence\"",
    ),
    (
        "variable 1 66",
        "variable 1 67",
        "line 7: it says \"variable 1 67\", and it is \"variable 1 66\"",
    ),
    (
        "variable 1 66",
        "unchanged",
        "line 7: it says \"unchanged\", and it is \"variable 1: 5A -> 66\"",
    ),
    (
        "variable 1 66",
        "variable 3 66",
        "line 7: \"variable 3 66\" can't be found out",
    ),
    (
        "variable 1 66",
        "step 9",
        "line 7: it says \"step 9\", and it is \"no step\"",
    ),
    (
        "00 E8 00 00 18",
        "00 E6 00 00 1A",
        "line 9: it says \"reply 00 E6 00 00 1A\", and it is \"reply 00 E8 00 00 18\"",
    ),
    (
        "step 9",
        "step 8",
        "line 10: it says \"step 8\", and it is \"step 9\"",
    ),
    (
        "done\nreads",
        "refused 9\nreads",
        "line 13: it says \"refused 9\", and it is \"done\"",
    ),
    (
        "reads 0 7",
        "reads 0 -3",
        "line 14: it says \"reads 0 -3\", and it is \"reads 0 7\"",
    ),
    (
        "FF*4",
        "FF*3",
        "line 16: it says \"bytes FF*3\", and it is \"bytes FF FF FF FF\"",
    ),
    (
        "01 09 A3",
        "01 08 A4",
        "line 18: it says \"reply 00 53 00 01 08 A4\", and it is \"reply 00 53 00 01 09 A3\"",
    ),
    (
        "group 3 0 2",
        "group 3 0",
        "line 21: it says \"group 3 0\", and it is \"group 3 0 2\"",
    ),
    (
        "group 4 none",
        "group 4 0",
        "line 22: it says \"group 4 0\", and it is \"group 4 none\"",
    ),
    (
        "1 00 00 00 00",
        "1 00 00 00 01",
        "line 23: it says \"block 0 1 00 00 00 01\", and it is \"block 0 1 00 00 00 00\"",
    ),
    (
        "block 0 1 00",
        "block 0 2 00",
        "line 23: \"block 0 2 00 00 00 00\" can't be found out",
    ),
    (
        "length 0 1 4",
        "length 0 1 3",
        "line 24: it says \"length 0 1 3\", and it is \"length 0 1 4\"",
    ),
    (
        "length 0 1 4",
        "length 0 2 4",
        "line 24: \"length 0 2 4\" can't be found out",
    ),
    (
        "sum 0 7D",
        "sum 0 7E",
        "line 27: it says \"sum 0 7E EA 36 2B 3F AC 8E 00 95 6A 49 52 A3 D4 F4 74\", and it is \"sum 0 7D EA 36 2B 3F AC 8E 00 95 6A 49 52 A3 D4 F4 74\"",
    ),
    (
        "sum 0 7D",
        "sum 1 7D",
        "line 27: \"sum 1 7D EA 36 2B 3F AC 8E 00 95 6A 49 52 A3 D4 F4 74\" can't be found out",
    ),
];

const CASE_OF_ASKING: &str = "\
question What is heard?
answer This.
board a
ask 5 make-group 2 0
sends 05 30 00 02 00 02 C7
known group 3 none
hear 00 E0 00 00 20
heard done
known group 3 0 2
known variables read-only 4, writable 1, writable 2
ask 5 read 0
sends 05 10 00 01 00 EA
hear 00 11 00 04 FF*3 FD F1
heard values 0 FF*3 FD is -3
unchanged
forget
done
known curves none
says So.";

const CHANGES_IN_ASKING: &[(&str, &str, &str)] = &[
    (
        "sends 05 30 00 02 00 02 C7",
        "sends 05 30 00 02 02 00 C7",
        "line 5: it says \"sends 05 30 00 02 02 00 C7\", and it is \"sends 05 30 00 02 00 02 C7\"",
    ),
    (
        "known group 3 none",
        "known group 3 0 2",
        "line 6: it says \"known group 3 0 2\", and it is \"known group 3 none\"",
    ),
    (
        "heard done",
        "heard error E4",
        "line 8: it says \"heard error E4\", and it is \"heard done\"",
    ),
    (
        "known group 3 0 2",
        "unchanged",
        "line 9: it says \"unchanged\", and it is \"known group 3: none -> variables 0 2\"",
    ),
    (
        "4, writable 1",
        "4, read-only 1",
        "line 10: it says \"known variables read-only 4, read-only 1, writable 2\", and it is \"known variables read-only 4, writable 1, writable 2\"",
    ),
    (
        "FD is -3",
        "FD is 4294967293",
        "line 14: it says \"heard values 0 FF*3 FD is 4294967293\", and it is \"heard values 0 FF FF FF FD is -3\"",
    ),
    (
        "FD is -3",
        "FD",
        "line 14: it says \"heard values 0 FF*3 FD\", and it is \"heard values 0 FF FF FF FD is -3\"",
    ),
    (
        "known curves none",
        "known curves writable 4 2",
        "line 18: it says \"known curves writable 4 2\", and it is \"known curves none\"",
    ),
    (
        "known curves none",
        "known curve none",
        "line 18: \"known curve none\" can't be found out",
    ),
];

#[test]
fn a_line_that_is_not_so_is_found() {
    assert_eq!(wrong(CASE), [""; 0]);
    for (old, new, message) in CHANGES {
        assert_eq!(wrong(&CASE.replace(old, new)), [*message]);
    }
    assert_eq!(wrong(CASE_OF_ASKING), [""; 0]);
    for (old, new, message) in CHANGES_IN_ASKING {
        assert_eq!(wrong(&CASE_OF_ASKING.replace(old, new)), [*message]);
    }
}

#[test]
fn busy_marks_of_a_case_stand_in_place_of_the_board_s() {
    let case = "\
question Is it busy?
answer At first.
board a
with busy 1
packet 05 20 00 02 01 66 72
reply 00 E8 00 00 18
busy 2
packet 05 20 00 02 01 66 72
reply 00 E0 00 00 20
says It.";
    assert_eq!(wrong(case), [""; 0]);
}

#[test]
fn a_case_that_says_too_little_is_found() {
    let lines = "question What?\nanswer So.\nboard a\npacket 05 FB\nsays It.";
    assert_eq!(
        wrong(lines),
        ["line 4: the call has no outcome; it ends in: reply 00 E1 00 00 1F"]
    );
    assert_eq!(
        wrong(&lines.replace("board a", "board z")),
        ["line 1: there is no board z"]
    );
    assert_eq!(
        wrong(&lines.replace("board a", "board a\nwith busy x"))[0],
        "line 1: board a: line 9: a variable is a number from 0 to 63, and not \"x\""
    );
    for (line, lacks) in [
        ("board a", "board"),
        ("packet 05 FB", "call"),
        ("says It.", "sentence of 01"),
        ("answer So.", "answer"),
    ] {
        let message = parse(&lines.replace(line, "")).expect_err(line);
        assert_eq!(message, format!("line 1: the question has no {}", lacks));
    }
}

const MISTAKES: &[(&str, &str)] = &[
    ("board a", "line 1: no question stands before this line"),
    (
        "question What?\nsilence",
        "line 2: no call stands before this line",
    ),
    (
        "question What?\nanser So.",
        "line 2: \"anser\" is no keyword",
    ),
    (
        "question What?\npacket 05 FB\nstep 1",
        "line 3: a call has one outcome, in the line after it",
    ),
    (
        "question What?\npacket 05 FB\nsilence\nsilence",
        "line 4: a call has one outcome, in the line after it",
    ),
    (
        "question What?\npacket 05 F",
        "line 2: a byte has two digits, and at place 4 stands one",
    ),
    (
        "question What?\npacket 00*x",
        "line 2: \"x\" is no number that can stand here",
    ),
    (
        "question What?\nread 0 FF",
        "line 2: a read is written so: read signed|unsigned VARIABLE BYTES",
    ),
    (
        "question What?\nwrite unsigned 0 -1 into 1",
        "line 2: \"-1\" is no number that can stand here",
    ),
    (
        "question What?\nresult 0 due failed",
        "line 2: a function fails with one error byte",
    ),
    (
        "question What?\nask 5 read 0\nquestion And?\nhear 00 E0 00 00 20",
        "line 4: a reply is heard to what was asked before it, and nothing was",
    ),
    (
        "question What?\nbusy 64",
        "line 2: a variable is a number from 0 to 63, and not \"64\"",
    ),
    ("example", "line 1: \"example\" is no keyword"),
];

const MISTAKES_IN_EXAMPLES: &[(&str, &str)] = &[
    ("# none\n", "there is no example"),
    ("packet 05 FB", "line 1: no example stands before this line"),
    (
        "example Q\npacket 05 FB",
        "line 1: an example is marked P or not, and not \"Q\"",
    ),
    (
        "example\n\nexample P\npacket 05 FB",
        "line 1: the example has no call",
    ),
    (
        "example\nquestion What?",
        "line 2: \"question\" is no keyword",
    ),
];

#[test]
fn mistakes_in_a_file_of_cases_are_told_with_their_line() {
    for (lines, message) in MISTAKES {
        assert_eq!(parse(lines).expect_err(lines), *message);
    }
    for (lines, message) in MISTAKES_IN_EXAMPLES {
        assert_eq!(examples(lines).expect_err(lines), *message);
    }
}

#[test]
fn a_sentence_that_01_does_not_have_is_found() {
    let cases = parse(CASE).expect("a case that can be read");
    let whatif = quotes().join("\n");
    let document = format!("before. The\nlong  road leads\n{}", whatif);
    assert_eq!(misquoted(&cases, &document), [""; 0]);
    let document = document.replace("long  road", "short road");
    assert_eq!(
        misquoted(&cases, &document),
        ["line 28: 01 doesn't say: The long road"]
    );
    let step = "E2: command not above.";
    let document = whatif.replace(step, "");
    assert_eq!(
        misquoted(&[], &document),
        [format!("whatif quotes what 01 doesn't say: {}", step)]
    );
}

#[test]
fn a_page_that_went_stale_is_found() {
    let stale = "WHAT-IF.md: line 2 is not what the cases make; run cases write";
    assert_eq!(same("one\ntwo\n", "one\ntwo\n"), Ok(()));
    assert_eq!(same("one\ntwo\n", "one\n2\n"), Err(stale.to_string()));
    assert_eq!(same("one\n", "one\ntwo\n"), Err(stale.to_string()));
}
