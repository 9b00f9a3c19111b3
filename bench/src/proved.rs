//! The workloads through the proved library, by the functions that crates/workload exports.

use crate::tally::Tally;

unsafe extern "C" {
    pub safe fn play_ring(shift: u32, scattered: bool, seed: u32, times: u32) -> Tally;

    pub safe fn play_tree(shift: u32, scattered: bool, seed: u32, times: u32) -> Tally;

    pub safe fn play_echo(shift: u32, scattered: bool, seed: u32, times: u32) -> Tally;
}
