//! Makers of test input. Everything is fixed by the seed.

pub mod damage;
pub mod draft;
pub mod numbers;
pub mod rng;
pub mod scenes;
pub mod world;
