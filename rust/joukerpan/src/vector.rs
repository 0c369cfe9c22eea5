//! How versions stand to a version vector.

/// How a version, the settled log or an office's path, stands to a version vector by its counts of entries.
#[derive(Clone, Copy, Debug, PartialEq, Eq, Hash)]
pub enum Standing {
    /// Each of its counts is at most the vector's, and one is less.
    Before,
    /// Its counts are the vector's.
    Equal,
    /// Each of its counts is at least the vector's, and one is more.
    After,
    /// One of its counts is less and one is more.
    Beside,
}

impl Standing {
    fn of(answer: u32) -> Standing {
        match answer {
            0 => Standing::Before,
            1 => Standing::Equal,
            2 => Standing::After,
            _ => Standing::Beside,
        }
    }
}

/// How an office's versions stand to a version vector. Made by [`Office::compare`](crate::Office::compare).
#[derive(Clone, Debug, PartialEq, Eq)]
pub struct Standings {
    /// The settled log.
    pub log: Standing,
    /// The path of each office, offices rising.
    pub paths: Vec<Standing>,
}

impl Standings {
    /// From the answers for the log and for each path.
    pub(crate) fn of(answers: &[u32]) -> Standings {
        Standings {
            log: Standing::of(answers[0]),
            paths: answers[1..].iter().map(|&answer| Standing::of(answer)).collect(),
        }
    }
}
