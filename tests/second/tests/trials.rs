//! The trial language: docs/TRIALS.md's example, lines outside it, and that the generators stay within it.

use second::lines::LINE;
use second::trial::{trial, NUMBERS};
use second::trials::{script, KINDS};

const DOCUMENT: &str = include_str!("../../../docs/TRIALS.md");

fn tried(input: &[u8]) -> String {
    let mut output = vec![];
    trial(input, &mut output).unwrap();
    String::from_utf8(output).unwrap()
}

#[test]
fn the_documents_example() {
    let blocks: Vec<&str> = DOCUMENT.split("```\n").collect();
    assert_eq!(blocks.len(), 5);
    assert_eq!(tried(blocks[1].as_bytes()), blocks[3]);
}

/// Lines outside the language, each for one cause.
const WRONG: [&str; 84] = [
    "",
    "d 1",
    "e",
    "Z",
    "f",
    "f 1 2",
    "f 18446744073709551616",
    "q 1 0 0 0 0 0 0",
    "q 1 0 0 0 0 0 0 0 0",
    "q 65536 0 0 0 0 0 0 0",
    "j 0",
    "j 64 1",
    "j 63 1 1",
    "j 0 4294967296",
    "t 0",
    "t 8 1",
    "t 7 1 1",
    "t 18446744073709551615 1",
    "t 0 18446744073709551616",
    "n 0",
    "n 8 1",
    "n 7 1 1",
    "n 0 18446744073709551616",
    "r 1",
    "r 1 0 65536 0 0 0 0 0 0 0 0",
    "p 1 0 0 0 0 0 0",
    "p 1 0 0 0 0 0 0 0 0",
    "p 65536 0 0 0 0 0 0 0",
    "k 64 1",
    "k 63 1 1",
    "k 18446744073709551615 1",
    "k 0",
    "k 0 4294967296",
    "b 8 0",
    "b 0",
    "b 0 18446744073709551616",
    "a 0 0",
    "a 0 32 1",
    "a 0 31 1 1",
    "a 8 0 1",
    "a 0 0 4294967296",
    "l 1101 0",
    "l 5 4294967296",
    "l 5",
    "w 1024 1",
    "w 1023 1 1",
    "w 18446744073709551615 1",
    "w 0",
    "o 7101 0",
    "o 5 256",
    "m 1",
    "m 1 256",
    "m 7095 1",
    "m 3548 1 1",
    "x 6 0",
    "x 0 256",
    "x 0 1 1",
    "c 7",
    "c",
    "g 11",
    "F 1 0 1 0 0 0 0 0 0",
    "F 1 0 65536 0 0 0 0 0 0 0",
    "I 0",
    "I 4294967296 0",
    "I 0 4294967296",
    "P 0",
    "V",
    "V 4294967296",
    "A 1",
    "U 1",
    "E 0",
    "D 0",
    "S 0",
    "T 0",
    "H 0",
    "W 0",
    "C 0",
    "B 1 1 1 1 1 1 1 1 1 1 1 1 1 1 1",
    "B 1 1 1 1 1 1 1 1 1 1 1 1 1 1 1 65536",
    "Q",
    "Q 0 5",
    "I  0 0",
    "I 00 0",
    "m 1 1 1 1 1 1 1 1 1 1 1 1 1 1 1 1 1 1 1 1 1 1 1 1 1",
];

#[test]
fn lines_outside_the_language_change_nothing() {
    let before = "l 1024 0\nF 1 0 1 0 0 0 0 0 0 0\no 10 7\nm 2 1 2 3\n";
    let after = tried(format!("{before}S\nT\nU\n").as_bytes());
    for line in WRONG {
        let answers = tried(format!("{before}{line}\nS\nT\nU\n").as_bytes());
        let expected = after.replacen('\n', "\n?\n", 1);
        assert_eq!(answers, expected, "{line}");
    }
}

#[test]
fn generated_scripts_are_well_formed() {
    for kind in KINDS {
        let text = script(kind, 9, 30).unwrap();
        assert_eq!(text, script(kind, 9, 30).unwrap());
        for line in text.split(|&byte| byte == b'\n') {
            let spaces = line.iter().filter(|&&byte| byte == b' ').count();
            assert!(line.len() <= LINE && spaces <= NUMBERS);
        }
        assert!(!tried(&text).contains('?'), "{kind}");
    }
    assert_eq!(script("nothing", 1, 1), None);
}

/// Whether the answers of these kinds hold the line's beginning.
fn shown(answers: &str, beginning: &str) -> bool {
    answers.lines().any(|line| line.starts_with(beginning))
}

#[test]
fn every_number_of_the_further_calls_is_shown() {
    for (kind, beginnings) in [
        ("sheets", &["H 0 0 0 ", "H 0 64 ", "H 1 0 0 ", "H 12 0 0 "][..]),
        ("earlier", &["Q 0 0 ", "Q 0 1 ", "Q 0 64 ", "Q 0 1024 ", "Q 1 0 ", "Q 3 0 ", "Q 13 0 "]),
        ("vectors", &["W 0 16 ", "W 0 576 ", "W 1 0 ", "W 6 0 ", "C 0 ", "C 1 ", "C 14 "]),
        ("forecasts", &["B 0 0 ", "B 0 327801 ", "B 1 0 ", "B 15 0 "]),
        ("folds", &["D 0 0 ", "D 0 1 ", "D 0 1024 ", "D 1 0 ", "T 16 0 ", "T 17 0 ", "T 10 1 ", "T 10 2 ", "T 0 5 "]),
        ("folds", &["I 5 ", "I 11 ", "Q 13 0 ", "Q 0 0 ", "Q 0 3 ", "W 0 96 ", "C 0 ", "B 0 327801 ", "H 0 "]),
    ] {
        let answers = tried(&script(kind, 1, 100).unwrap());
        for beginning in beginnings {
            assert!(shown(&answers, beginning), "{beginning}");
        }
    }
}

#[test]
fn every_number_is_shown() {
    let answers = tried(&script("boundaries", 0, 0).unwrap());
    for beginning in [
        "F 0 ",
        "F 1 ",
        "F 2 ",
        "I 0 ",
        "I 1 ",
        "I 3 ",
        "I 5 ",
        "I 11 ",
        "P 0 ",
        "P 1 ",
        "V 0 ",
        "V 1 ",
        "V 3 ",
        "A 0 ",
        "A 1 ",
        "U 0 ",
        "U 1 ",
        "E 0 0 ",
        "E 0 1 ",
        "E 0 2 ",
        "E 0 32 ",
        "E 1 0 ",
        "S 0 ",
        "S 1 0 ",
        "S 6 0 ",
        "S 0 7046 ",
        "T 0 0 ",
        "T 0 1 ",
        "T 0 1024 ",
        "T 1 0 ",
        "T 7 0 ",
        "T 8 0 ",
        "T 9 0 ",
        "T 10 1 ",
        "T 10 2 ",
        "T 10 1024 ",
    ] {
        assert!(shown(&answers, beginning), "{beginning}");
    }
}
