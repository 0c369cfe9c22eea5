//! Every small ballot sheet: document 02's request (xiii), worked by hand.

use second::tables::{elected, print_tables, tables, tails};

fn printed(input: &str) -> String {
    let mut output = vec![];
    print_tables(input.as_bytes(), &mut output).unwrap();
    String::from_utf8(output).unwrap()
}

#[test]
fn every_tail_and_every_table_once_and_in_order() {
    let (tails, tables) = (tails(), tables());
    assert_eq!((tails.len(), tables.len()), (13, 2197));
    let key = |tail: &Vec<u32>| (tail.len(), tail.clone());
    assert!(tails.windows(2).all(|pair| key(&pair[0]) < key(&pair[1])));
    assert!(tables.windows(2).all(|pair| pair[0].each_ref().map(key) < pair[1].each_ref().map(key)));
    for table in &tables {
        for tail in table {
            assert!(tail.len() <= 2 && tail.iter().all(|&word| [0, 1 << 24, 2 << 24].contains(&word)));
        }
    }
}

#[test]
fn the_papers_line() {
    let text = printed("1 0 0");
    assert_eq!(text.lines().count(), 2197);
    assert!(text.lines().any(|line| line == "0 01 - 0"));
    assert!(text.starts_with("- - - -\n- - 0 -\n- - 1 -\n- - 2 -\n- - 00 -\n"));
    assert!(text.ends_with("22 22 21 22\n22 22 22 22\n"));
    assert_eq!(text, printed("1 0 0\n"));
}

#[test]
fn elections() {
    let (a, b, c) = (0, 1 << 24, 2 << 24);
    for (weights, table, settled) in [
        // Cases A to D of document 01, by office alone.
        ([40, 35, 25], [vec![a], vec![], vec![]], vec![]),
        ([40, 35, 25], [vec![a], vec![], vec![a]], vec![a]),
        ([40, 35, 25], [vec![a], vec![b], vec![]], vec![]),
        ([40, 35, 25], [vec![a], vec![b], vec![c]], vec![a]),
        // A tie goes to the lower value, then to the quieter office.
        ([50, 50, 0], [vec![b], vec![a], vec![]], vec![a]),
        ([50, 50, 0], [vec![a, b], vec![a, a], vec![]], vec![a, b]),
        // G and H.
        ([40, 35, 25], [vec![a, a], vec![], vec![a, a]], vec![a, a]),
        ([40, 30, 30], [vec![a, b], vec![a], vec![c]], vec![a]),
    ] {
        assert_eq!(elected(weights, &table), Ok(settled), "{weights:?} {table:?}");
    }
}

#[test]
fn other_input() {
    for (input, answer) in [
        ("0 0 0", "2\n"),
        ("0 0 0\n", "2\n"),
        ("", "?\n"),
        ("\n", "?\n"),
        ("1 0 0\n\n", "?\n"),
        ("1 0 0\n1 0 0", "?\n"),
        ("0 0 0\n\n", "?\n"),
        ("1 0", "?\n"),
        ("1 0 0 0", "?\n"),
        ("1 0 00", "?\n"),
        ("01 0 0", "?\n"),
        ("1 0 65536", "?\n"),
        (" 1 0 0", "?\n"),
        ("1 0 0 ", "?\n"),
        ("1  0 0", "?\n"),
        ("1 0 0\r\n", "?\n"),
        ("1 0 x", "?\n"),
        ("f 1 0 0", "?\n"),
    ] {
        assert_eq!(printed(input), answer, "{input:?}");
    }
    assert_eq!(printed("65535 65535 65535\n").lines().count(), 2197);
    assert_eq!(printed(&"1".repeat(200)), "?\n");
}
