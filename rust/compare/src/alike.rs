//! Whether two values or two lent buffers are alike, and where they part.

use std::fmt::Debug;

/// Elements on both sides of a lent buffer that no call may touch.
const GUARD: usize = 16;

/// A buffer that is lent, between guards.
#[derive(Clone, PartialEq)]
pub struct Lent<T>(Vec<T>);

impl<T: Copy + Default> Lent<T> {
    pub fn new(contents: &[T]) -> Lent<T> {
        let guard = [T::default(); GUARD];
        Lent([&guard, contents, &guard].concat())
    }

    pub fn part(&self) -> &[T] {
        &self.0[GUARD..self.0.len() - GUARD]
    }

    pub fn part_mut(&mut self) -> &mut [T] {
        let end = self.0.len() - GUARD;
        &mut self.0[GUARD..end]
    }
}

/// Says where two values part, if they do.
pub fn same<T: PartialEq + Debug>(what: &str, engine: T, second: T) -> Result<(), String> {
    if engine == second {
        return Ok(());
    }
    Err(format!("{what}\n  engine: {engine:?}\n  second: {second:?}"))
}

/// Says where two buffers part, if they do; guards count as places below 0 and past the end.
pub fn same_lent<T: PartialEq + Debug>(what: &str, engine: &Lent<T>, second: &Lent<T>) -> Result<(), String> {
    let pairs = engine.0.iter().zip(&second.0);
    match pairs.enumerate().find(|(_, (engine, second))| engine != second) {
        None => Ok(()),
        Some((at, (engine, second))) => {
            Err(format!("{what} at {}\n  engine: {engine:?}\n  second: {second:?}", at as isize - GUARD as isize))
        }
    }
}
