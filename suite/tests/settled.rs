//! docs/settled.examples, 01's settled examples, on both nodes. Each starts afresh on board A, and what no line names stays as it was.
use std::path::Path;
use suite::cases::{boards, examples, proved, read, run_all, second, Act, Node, DOCS};

// Everything that is not so on this node.
fn wrong(text: &str, node: Node) -> Vec<String> {
    let examples = examples(text).expect("examples that can be read");
    let boards = boards(&Path::new(DOCS).join("boards")).expect("boards that can be read");
    let ran = match run_all(&examples, &boards, node) {
        Ok(ran) => ran,
        Err(lines) => return lines,
    };
    let acts = examples.iter().flat_map(|example| &example.acts);
    acts.zip(ran.iter().flatten())
        .flat_map(|(act, ran)| unnamed(act, &ran.changes))
        .collect()
}

// How lines start that name a change: "variable 1: 5A -> 55" is named by "variable 1 55".
fn naming(change: &str) -> Vec<String> {
    let thing = change.split_once(':').map_or(change, |(thing, _)| thing);
    let words: Vec<&str> = thing.split([' ', ',']).filter(|w| !w.is_empty()).collect();
    match words[..] {
        ["sum", "of", "curve", curve] => vec![format!("sum {} ", curve)],
        // A block's line has all that it holds, and so its length too.
        ["curve", curve, "block", block, "length"] => vec![
            format!("length {} {} ", curve, block),
            format!("block {} {} ", curve, block),
        ],
        ["curve", curve, "block", block, ..] => vec![format!("block {} {} ", curve, block)],
        _ => vec![format!("{} ", thing)],
    }
}

fn unnamed(act: &Act, changes: &[String]) -> Vec<String> {
    let named = |change: &str| {
        let lines = naming(change);
        let names = |said: &str| lines.iter().any(|line| said.starts_with(line));
        act.expected.iter().any(|(_, said)| names(said))
    };
    let line = |change: &String| format!("line {}: no line names {}", act.line, change);
    let unnamed = changes.iter().filter(|change| !named(change));
    unnamed.map(line).collect()
}

fn every_example_holds(node: Node) {
    let text = read(&Path::new(DOCS).join("settled.examples")).expect("the examples");
    assert_eq!(wrong(&text, node), [""; 0]);
}

#[test]
fn every_example_holds_on_the_proved_node() {
    every_example_holds(proved);
}

#[test]
fn every_example_holds_on_the_second_node() {
    every_example_holds(second);
}

const EXAMPLE: &str = "\
example
packet 05 22 00 04 02 01 02 03 CD
reply 00 E0 00 00 20
variable 1 01
variable 2 02 03
reads 2 770
packet 05 41 00 04 00 00 01 66 4F
reply 00 E0 00 00 20
block 0 1 66
packet 05 42 00 01 00 B8
reply 00 E0 00 00 20
sum 0 72 B7 E8 0C BE FC 76 CB 19 21 C0 9E 66 20 A3 C1
packet 05 41 00 06 00 00 01 66 00 00 4D
reply 00 E0 00 00 20
length 0 1 3";

const CHANGES: &[(&str, &str, &str)] = &[
    (
        "E0 00 00 20\nvariable",
        "E6 00 00 1A\nvariable",
        "line 3: it says \"reply 00 E6 00 00 1A\", and it is \"reply 00 E0 00 00 20\"",
    ),
    (
        "reads 2 770",
        "reads 2 515",
        "line 6: it says \"reads 2 515\", and it is \"reads 2 770\"",
    ),
    (
        "variable 1 01\n",
        "",
        "line 2: no line names variable 1: 5A -> 01",
    ),
    (
        "block 0 1 66\n",
        "length 0 1 1\n",
        "line 7: no line names curve 0, block 1, from byte 0: 00 -> 66",
    ),
    (
        "block 0 1 66\n",
        "block 0 1 66 00 00 00\n",
        "line 9: it says \"block 0 1 66 00 00 00\", and it is \"block 0 1 66\"",
    ),
    (
        "\nlength 0 1 3",
        "",
        "line 13: no line names curve 0, block 1, length: 1 -> 3",
    ),
    (
        "sum 0 72 B7",
        "sum 0 72 B8",
        "line 12: it says \"sum 0 72 B8 E8 0C BE FC 76 CB 19 21 C0 9E 66 20 A3 C1\", and it is \"sum 0 72 B7 E8 0C BE FC 76 CB 19 21 C0 9E 66 20 A3 C1\"",
    ),
    (
        "\nsum 0 72 B7 E8 0C BE FC 76 CB 19 21 C0 9E 66 20 A3 C1",
        "",
        "line 10: no line names sum of curve 0: 7D EA 36 2B 3F AC 8E 00 95 6A 49 52 A3 D4 F4 74 -> 72 B7 E8 0C BE FC 76 CB 19 21 C0 9E 66 20 A3 C1",
    ),
];

#[test]
fn what_is_not_so_is_found_on_either_node() {
    for node in [proved as Node, second] {
        assert_eq!(wrong(EXAMPLE, node), [""; 0]);
        for (old, new, message) in CHANGES {
            assert_eq!(wrong(&EXAMPLE.replace(old, new), node), [*message]);
        }
    }
}
