//! Many lines as of an earlier place: document 02's request (x), worked by hand and against its sentences.

mod common;

use common::*;
use second::calls::settled_frame;
use second::earlier::earlier;
use second::random::Random;
use second::record::*;
use second::samples::{Family, Sample};

/// Words read and codes of the lines named as of p, at office 1 with this settled log.
fn asked(settled: &[u32], p: u64, lines: &[u32]) -> (usize, Vec<Option<u32>>) {
    let (number, words, codes) = earlier(&record(1, &WEIGHTS, settled, &[(1, &[B])]), &log(settled), p, lines);
    assert_eq!(number, DONE);
    assert!(codes[lines.len()..].iter().all(|&code| code == 0));
    (words, codes[..lines.len()].iter().map(|&code| coded(code)).collect())
}

#[test]
fn the_shortest_run_that_has_them_all() {
    let path = [A, D, B, entry(0, 64, 1), entry(2, 63, 0), C];
    assert_eq!(asked(&path, 6, &[]), (0, vec![]));
    assert_eq!(asked(&path, 6, &[5]), (1, vec![Some(140)]));
    assert_eq!(asked(&path, 5, &[5]), (3, vec![Some(130)]));
    assert_eq!(asked(&path, 2, &[5]), (2, vec![Some(120)]));
    assert_eq!(asked(&path, 1, &[5]), (1, vec![Some(120)]));
    assert_eq!(asked(&path, 0, &[5]), (0, vec![None]));
    // Several, in their order, one of them twice.
    assert_eq!(asked(&path, 6, &[6, 5]), (5, vec![Some(7), Some(140)]));
    assert_eq!(asked(&path, 6, &[5, 63, 5]), (2, vec![Some(140), Some(0), Some(140)]));
    // No run has an edit of line 7: all are read, and the others answered.
    assert_eq!(asked(&path, 6, &[7, 5]), (6, vec![None, Some(140)]));
    assert_eq!(asked(&path, 3, &[63]), (3, vec![None]));
    // Moves are read like other entries, and have no line of the frame.
    assert_eq!(asked(&path, 4, &[5]), (2, vec![Some(130)]));
    assert_eq!(asked(&[entry(0, 64, 1)], 1, &[0]), (1, vec![None]));
}

#[test]
fn one_line_64_times_and_64_lines() {
    let all: Vec<u32> = (0..64).map(|line| entry(1, line, line)).collect();
    let lines: Vec<u32> = (0..64).collect();
    assert_eq!(asked(&all, 64, &lines), (64, lines.iter().map(|&line| Some(line)).collect()));
    assert_eq!(asked(&all, 64, &[0; 64]), (64, vec![Some(0); 64]));
    assert_eq!(asked(&all, 64, &[63; 64]), (1, vec![Some(63); 64]));
    assert_eq!(asked(&all, 63, &lines[..63]).0, 63);
}

#[test]
fn what_is_refused() {
    let nothing = [0; 64];
    let (office, lent) = (record(1, &WEIGHTS, &[A, B], &[]), log(&[A, B]));
    let given = |p, lines: &[u32]| earlier(&office, &lent, p, lines);
    assert_eq!(given(2, &[5]).0, DONE);
    assert_eq!(given(3, &[5]), (NO_PLACE, 0, nothing));
    assert_eq!(given(u64::MAX, &[]), (NO_PLACE, 0, nothing));
    assert_eq!(given(2, &[5; 64]).0, DONE);
    assert_eq!(given(2, &[5; 65]), (NO_PLACE, 0, nothing));
    // A line above 63 comes first, also among more than 64.
    assert_eq!(given(3, &[5, 64]), (NO_ENTRY, 0, nothing));
    assert_eq!(given(3, &[vec![5; 64], vec![u32::MAX]].concat()), (NO_ENTRY, 0, nothing));
    assert_eq!(earlier(&office, &lent[..1023], 0, &[64]), (UNSOUND, 0, nothing));
    assert_eq!(earlier(&Record { own: 3, ..office }, &lent, 9, &[5]), (UNSOUND, 0, nothing));
}

#[test]
fn earlier_frames_are_what_the_request_says() {
    let mut random = Random::new(1);
    for _ in 0..20_000 {
        let family = Family::new(&mut random);
        let own = family.office(&mut random);
        let Sample { record, log } = family.sample(&mut random, own);
        let held = record.held();
        let read = if random.percent(50) { held } else { random.below(held + 1) };
        let p = record.kept.dropped + read as u64;
        let count = random.below(5);
        let lines: Vec<u32> = (0..count).map(|_| random.pick(&[0, 1, 5, 62, 63, 7])).collect();
        let (number, words, codes) = earlier(&record, &log, p, &lines);
        let first = &log[..read];
        let has = |run: &[u32], line: u32| run.iter().any(|&word| word / 65536 % 256 == line);
        let shortest = (0..=read).find(|&length| lines.iter().all(|&line| has(&first[read - length..], line)));
        assert_eq!((number, words), (DONE, shortest.unwrap_or(read)));
        for (at, &code) in codes.iter().enumerate() {
            let last = |line: &u32| first.iter().rfind(|&&word| word / 65536 % 256 == *line).map(|word| word % 65536);
            let kept = |line: &u32| coded(record.kept.codes[*line as usize]);
            assert_eq!(coded(code), lines.get(at).and_then(|line| last(line).or(kept(line))));
            if let Some(&line) = lines.get(at).filter(|_| p == record.settled) {
                assert_eq!(settled_frame(&record, &log, line), (DONE, coded(code)));
            }
        }
    }
}
