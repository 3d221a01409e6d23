//! Seeded samples of layouts and calls.

pub mod edges;
pub mod erased;
pub mod fragments;
pub mod layouts;
pub mod marks;
pub mod pages;
pub mod pieces;
pub mod remainders;
pub mod ruined;
pub mod sector_calls;
pub mod sector_edges;
pub mod sectors;
