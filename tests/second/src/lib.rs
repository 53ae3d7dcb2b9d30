// The second, independent implementation of the rules paper: written from the paper alone, simple rather than fast.
// It makes the stored cases, answers them, and holds other answers to its own.

pub mod answer;
pub mod between;
pub mod blocks;
pub mod build;
pub mod capture;
pub mod cases;
pub mod cover;
pub mod draft;
pub mod edit;
pub mod fragments;
pub mod judge;
pub mod mend;
pub mod mistakes;
pub mod packet;
pub mod pieces;
pub mod prefix;
pub mod random;
pub mod sums;
pub mod updates;
pub mod verdict;
pub mod walk;
