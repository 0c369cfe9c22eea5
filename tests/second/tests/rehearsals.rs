//! The rehearsal program: document 01's example, every form of line, and demand 3 over generated histories.

use second::generate::{script, KINDS};
use second::lines::each_line;
use second::record::{entry, DONE};
use second::rehearsal::{rehearse, Command, World};
use second::survey::survey;

fn rehearsed(input: &[u8]) -> String {
    let mut output = vec![];
    rehearse(input, &mut output).unwrap();
    String::from_utf8(output).unwrap()
}

#[test]
fn the_papers_example() {
    let input = b"f 3 40 35 25\ni 0 5 120\ni 1 5 130\ns 0 0\nt 2 0\ne 2\nv 2 5\n";
    let output = "f 0\ni 0\ni 0\ns 0 36\nt 0\ne 0 1\nv 0 120 120\n";
    assert_eq!(rehearsed(input), output);
    assert_eq!(rehearsed(&input[..input.len() - 1]), output);
}

#[test]
fn lines_and_their_ends() {
    assert_eq!(rehearsed(b""), "");
    assert_eq!(rehearsed(b"\n"), "?\n");
    assert_eq!(rehearsed(b"\n\n"), "?\n?\n");
    assert_eq!(rehearsed(b"f 1 1\n\ne 0"), "f 0\n?\ne 0 0\n");
    assert_eq!(rehearsed(b"f 1 1\r\ne 0\r\n"), "?\n?\n");
    for length in [127, 128, 129, 300, 65_535, 65_536, 65_537, 200_000] {
        let long = vec![b'7'; length];
        assert_eq!(rehearsed(&long), "?\n");
        let input = [b"f 1 1\n", &long[..], b"\ne 0\n", &long[..]].concat();
        assert_eq!(rehearsed(&input), "f 0\n?\ne 0 0\n?\n", "{length}");
    }
}

#[test]
fn foundings() {
    for (line, answer) in [
        ("f 3 40 35 25", "f 0"),
        ("f 3 40 35 25 0 0 0 0 0", "f 0"),
        ("f 8 65535 65535 65535 65535 65535 65535 65535 65535", "f 0"),
        ("f 8 1", "f 0"),
        ("f 0", "f 2"),
        ("f 9 1", "f 2"),
        ("f 65535 1", "f 2"),
        ("f 3", "f 2"),
        ("f 3 0 0 0", "f 2"),
        ("f 2 1 1 1", "f 2"),
        ("f 3 40 35 25 0 0 0 0 1", "f 2"),
        ("f", "?"),
        ("f 3 40 35 25 0 0 0 0 0 0", "?"),
        ("f 3 40 35 65536", "?"),
        ("f 3 40 35 025", "?"),
        ("f 03 40 35 25", "?"),
    ] {
        assert_eq!(rehearsed(line.as_bytes()), format!("{answer}\n"), "{line}");
    }
}

#[test]
fn places_and_slots() {
    let before = "i 0 1 1\ns 0 0\nt 0 0\ne 0\nv 0 0\nf 3\ne 0\n";
    assert_eq!(rehearsed(before.as_bytes()), "?\n?\n?\n?\n?\nf 2\n?\n");
    let input =
        "f 2 1 1\nt 0 0\nt 0 3\nt 0 4\nt 2 0\ni 2 1 1\ni 1 66 1\ni 1 1 10000\ns 1 3\nt 0 3\nt 1 3\nv 1 64\nv 1 9\n";
    let output = "f 0\nt 7\nt 7\n?\n?\n?\ni 3\ni 3\ns 0 26\nt 0\nt 9\nv 3 - -\nv 0 - -\n";
    assert_eq!(rehearsed(input.as_bytes()), output);
    // A refused founding keeps offices and slots; a done one empties the slots.
    let input = "f 2 1 1\ni 0 1 7\ns 0 0\nf 2\nv 0 1\nt 1 0\nf 2 1 1\nv 0 1\nt 1 0\n";
    assert_eq!(rehearsed(input.as_bytes()), "f 0\ni 0\ns 0 34\nf 2\nv 0 - 7\nt 0\nf 0\nv 0 - -\nt 7\n");
}

/// The entries of an office's own path.
fn own_path(world: &World, office: usize) -> Vec<u32> {
    let held = &world.offices[office];
    let mut path = held.log[..held.record.held()].to_vec();
    path.extend(held.record.ballots[office].tail());
    path
}

/// What demand 3 speaks of: settled logs that offices had, and done issues with the path in view.
#[derive(Default)]
struct History {
    world: World,
    logs: Vec<Vec<u32>>,
    issues: Vec<(Vec<u32>, u32)>,
}

impl History {
    fn line(&mut self, line: &[u8]) {
        let Some(command) = Command::parse(line) else { return };
        let view = match command {
            Command::Issue(k, line, code) if k < self.world.offices.len() && line < 72 && code < 10_000 => {
                Some((own_path(&self.world, k), entry(k, line, code)))
            }
            _ => None,
        };
        let Some(answer) = self.world.run(command) else { return };
        assert!(answer.number != 10 && answer.number != 8 && answer.number != 1);
        if answer.number != DONE {
            return;
        }
        if let Command::Found(..) = command {
            self.check();
        }
        self.issues.extend(view);
        if let Command::Take(k, _) | Command::Elect(k) = command {
            let held = &self.world.offices[k];
            let log = held.log[..held.record.held()].to_vec();
            if self.logs.last() != Some(&log) {
                self.logs.push(log);
            }
        }
    }

    /// Checks demand 3 over the list so far, and begins a new one.
    fn check(&mut self) {
        let order = self.logs.iter().max_by_key(|log| log.len()).cloned().unwrap_or_default();
        for log in &self.logs {
            assert!(order.starts_with(log));
        }
        for (place, &value) in order.iter().enumerate() {
            assert!(self.issues.iter().any(|(view, issued)| *issued == value && view[..] == order[..place]));
        }
        self.logs.clear();
        self.issues.clear();
    }
}

#[test]
fn demand_3_holds_over_generated_histories() {
    for kind in KINDS {
        for seed in 0..6 {
            let mut history = History::default();
            each_line(&script(kind, seed, 1200).unwrap()[..], |line| {
                history.line(line);
                Ok(())
            })
            .unwrap();
            history.check();
        }
    }
}

#[test]
fn a_script_is_answered_line_by_line() {
    for kind in KINDS {
        let text = script(kind, 3, 500).unwrap();
        let newlines = text.iter().filter(|&&byte| byte == b'\n').count();
        let lines = newlines + usize::from(text.last().is_some_and(|&byte| byte != b'\n'));
        assert_eq!(rehearsed(&text).lines().count(), lines);
        assert_eq!(text, script(kind, 3, 500).unwrap());
    }
    assert_eq!(script("nothing", 1, 1), None);
}

#[test]
fn fixed_seeds_show_all_that_a_rehearsal_can() {
    let mut shown = vec![];
    for kind in KINDS {
        survey(&script(kind, 3, 5000).unwrap()[..], &mut shown).unwrap();
    }
    let shown = String::from_utf8(shown).unwrap();
    for sight in [
        "answer ?",
        "answer f 0",
        "answer f 2",
        "answer i 0",
        "answer i 3",
        "answer i 5",
        "answer i 11",
        "answer s 0",
        "answer t 0",
        "answer t 7",
        "answer t 9",
        "answer e 0",
        "answer v 0",
        "answer v 3",
        "code that is 0 viewed",
        "line with no edit yet viewed",
        "issue at a full log with a full part",
        "issue behind another office's full part",
        "every part full among 1",
        "every part full among 2",
        "every part full among 3",
        "every part full among 5",
        "every part full among 7",
        "every part full among 8",
        "election of two or more entries",
        "tie won",
        "tie won by fewer entries, the value being higher",
        "tie won by entries settled in the same election",
        "win with offices unheard",
        "win that the founding weights do not give",
        "win by weight moved in the same election",
        "move settled by an election",
        "move without effect",
        "weight moved by a take",
        "ballot reset by an election",
        "ballot reset by a grown log",
        "ballot kept by a grown log",
        "path adopted from a shorter log",
        "own path adopted",
        "message lost",
        "message taken again",
        "message taken late",
        "take that changed nothing",
    ] {
        assert!(shown.lines().any(|line| line.ends_with(sight)), "{sight}");
    }
    for most in ["    1024 longest log", "      32 longest tail"] {
        assert!(shown.lines().any(|line| line == most), "{most}");
    }
}
