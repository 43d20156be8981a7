//! Generators of meaningful inputs from a seed: one file for each replay, and what they share
//! (page tables, system registers, runs under construction); then whole scripts, their damage,
//! the cases that are fixed, states that no script makes, and the count of what came of scripts.

pub mod cache;
pub mod cases;
pub mod damage;
pub mod irqc;
pub mod mmu;
pub mod outcomes;
pub mod privilege;
pub mod run;
pub mod scripts;
pub mod states;
pub mod system;
pub mod tables;
pub mod tally;
