//! Version vectors by the sentences of request (xi): what is written, how versions stand to a vector, bytes that
//! are no vector, and that counts decide within an office.

#[path = "../examples/service/dice.rs"]
mod dice;

use std::cmp::Ordering;

use dice::Dice;
use joukerpan::{Entry, Office, Refused, Standing, Standings, COUNT, VECTORS_MAX};

/// The settled log, then the path of each office.
fn versions(office: &Office) -> Vec<Vec<u32>> {
    let log = office.settled().to_vec();
    let ballots = &office.record().ballots[..office.offices()];
    let paths = ballots.iter().map(|ballot| [&log, &ballot.cells[..ballot.len]].concat());
    [log.clone()].into_iter().chain(paths).collect()
}

/// "A count of entries per office."
fn counts(version: &[u32], offices: usize) -> Vec<u64> {
    (0..offices as u32).map(|office| version.iter().filter(|&&word| word >> 24 == office).count() as u64).collect()
}

fn bytes(counts: &[u64]) -> Vec<u8> {
    counts.iter().flat_map(|count| count.to_be_bytes()).collect()
}

/// "Whether by counts it comes before, equals, comes after or stands beside that vector."
fn standing(counts: &[u64], vector: &[u64]) -> Standing {
    let orders: Vec<Ordering> = counts.iter().zip(vector).map(|(count, other)| count.cmp(other)).collect();
    match (orders.contains(&Ordering::Less), orders.contains(&Ordering::Greater)) {
        (true, false) => Standing::Before,
        (false, false) => Standing::Equal,
        (false, true) => Standing::After,
        (true, true) => Standing::Beside,
    }
}

fn all(standings: &Standings) -> Vec<Standing> {
    [standings.log].into_iter().chain(standings.paths.iter().copied()).collect()
}

/// Some offices after some calls.
fn world(dice: &mut Dice) -> Vec<Office> {
    let weights: Vec<u16> = (0..1 + dice.below(8)).map(|_| 1 + dice.below(50) as u16).collect();
    let mut offices: Vec<Office> = (0..weights.len()).map(|own| Office::found(own, &weights).unwrap()).collect();
    for _ in 0..dice.below(120) {
        let (at, from) = (dice.below(offices.len()), dice.below(offices.len()));
        match dice.below(5) {
            0 | 1 => drop(offices[at].issue(dice.below(64) as u32, dice.below(10_000) as u32)),
            2 => drop(offices[at].elect()),
            _ if at == from => {}
            _ => {
                let message = offices[from].message();
                offices[at].take(&message).unwrap();
            }
        }
    }
    offices
}

#[test]
fn vectors_and_standings() {
    let mut dice = Dice(26);
    for _ in 0..400 {
        for office in world(&mut dice) {
            let n = office.offices();
            let versions = versions(&office);
            let vectors: Vec<Vec<u64>> = versions.iter().map(|version| counts(version, n)).collect();
            assert_eq!(office.vectors(), vectors.iter().flat_map(|vector| bytes(vector)).collect::<Vec<u8>>());
            for (at, written) in office.vectors().chunks(COUNT * n).enumerate() {
                let answers = all(&office.compare(written).unwrap());
                assert_eq!(answers, vectors.iter().map(|vector| standing(vector, &vectors[at])).collect::<Vec<_>>());
                assert_eq!(answers[at], Standing::Equal);
                for (version, answer) in versions.iter().zip(answers) {
                    let begins = versions[at].starts_with(version);
                    assert_eq!(begins, matches!(answer, Standing::Before | Standing::Equal), "counts decide");
                }
            }
            let most = [4, 1025, usize::MAX][dice.below(3)];
            let other: Vec<u64> = (0..n).map(|_| dice.below(most) as u64).collect();
            let answers = all(&office.compare(&bytes(&other)).unwrap());
            assert_eq!(answers, vectors.iter().map(|vector| standing(vector, &other)).collect::<Vec<_>>());
        }
    }
}

#[test]
fn a_short_output_keeps_its_contents() {
    let mut dice = Dice(27);
    for office in world(&mut dice) {
        let vectors = office.vectors();
        assert_eq!(vectors.len(), COUNT * office.offices() * (office.offices() + 1));
        for length in 0..VECTORS_MAX + 1 {
            let mut output = vec![0xA5; length];
            let written = office.write_vectors(&mut output).map(<[u8]>::to_vec);
            if length < vectors.len() {
                assert_eq!(written, Err(Refused::OutputShort));
                assert!(output.iter().all(|&byte| byte == 0xA5));
            } else {
                assert_eq!(written.as_ref(), Ok(&vectors));
                assert_eq!(output[..vectors.len()], vectors);
                assert!(output[vectors.len()..].iter().all(|&byte| byte == 0xA5));
            }
        }
    }
}

#[test]
fn other_bytes_are_no_vector() {
    for n in 1..=8 {
        let office = Office::found(0, &vec![1; n]).unwrap();
        let longest = bytes(&vec![u64::MAX; n + 2]);
        for length in 0..longest.len() {
            assert_eq!(office.compare(&longest[..length]).is_ok(), length == COUNT * n);
        }
        for at in 0..COUNT * n {
            for value in 0..=255 {
                let mut other = bytes(&vec![0; n]); // any counts do, and each byte is looked at
                other[at] = value;
                let wanted = if value == 0 { Standing::Equal } else { Standing::Before };
                assert_eq!(office.compare(&other).unwrap().log, wanted);
            }
        }
    }
}

/// "Across two offices that may be false."
#[test]
fn across_two_offices_counts_do_not_decide() {
    let [mut zero, mut one, mut two] = [0, 1, 2].map(|own| Office::found(own, &[40, 35, 25]).unwrap());
    one.issue(5, 130).unwrap();
    let first = one.message();
    zero.issue(5, 120).unwrap();
    two.take(&zero.message()).unwrap();
    assert_eq!(two.elect().grown, 1);
    one.take(&two.message()).unwrap(); // its ballot lost
    one.issue(5, 131).unwrap();
    zero.take(&first).unwrap();

    let of_one = &one.vectors()[2 * 3 * COUNT..][..3 * COUNT];
    assert_eq!(zero.compare(of_one).unwrap().paths[1], Standing::Before);
    let [here, there] = [&versions(&zero)[2], &versions(&one)[2]];
    assert_eq!(Entry::from(here[0]), Entry { office: 1, line: 5, code: 130 });
    assert!(!there.starts_with(here));
}
