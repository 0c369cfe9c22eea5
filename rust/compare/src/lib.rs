//! The engine's calls with the second implementation's types, and whether two answers are alike: for whoever compares
//! the two.

pub mod alike;
pub mod engine;
