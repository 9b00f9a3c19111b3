//! Elections by the proved library and by plain Rust, side by side.
//!
//! Both play the same workloads: elections of 32 nodes on a network, all of which start, until no message is left.
//! Both follow the same rules over the same interface, by which the caller keeps the messages and the holdings, and
//! both make the same checks at each delivery: that holdings are one a node, that the place is below the count, the
//! ends are neighbours, the starter was accepted and the kind is 1 or 2, and that there are places enough for what is
//! sent. The time of an election is that of its making, its starts and its deliveries. Both sides are compiled with
//! full optimization for any x86-64 processor.
//!
//! First all results are compared, and a difference ends the program with an error. Then each workload is timed in
//! rounds, the two sides in turn, and the best round of each counts.

mod election;
mod network;
mod node_set;
mod plain;
mod proved;
mod refusal;
mod tally;
mod wave;

use std::process::ExitCode;
use std::time::{Duration, Instant};

use tally::Tally;

/// Plays an election of a workload: how far its keys are shifted, whether deliveries are at scattered places and by
/// which seed, and how many times over.
type Play = fn(u32, bool, u32, u32) -> Tally;

struct Workload {
    name: &'static str,
    proved: Play,
    plain: Play,
    scattered: bool,
}

const WORKLOADS: [Workload; 6] = [
    Workload::new(
        "echo, 96 links, place 0",
        proved_echo,
        plain::play_echo,
        false,
    ),
    Workload::new(
        "echo, 96 links, scattered",
        proved_echo,
        plain::play_echo,
        true,
    ),
    Workload::new("tree, place 0", proved_tree, plain::play_tree, false),
    Workload::new("tree, scattered", proved_tree, plain::play_tree, true),
    Workload::new("ring, place 0", proved_ring, plain::play_ring, false),
    Workload::new("ring, scattered", proved_ring, plain::play_ring, true),
];

fn proved_ring(shift: u32, scattered: bool, seed: u32, times: u32) -> Tally {
    proved::play_ring(shift, scattered, seed, times)
}

fn proved_tree(shift: u32, scattered: bool, seed: u32, times: u32) -> Tally {
    proved::play_tree(shift, scattered, seed, times)
}

fn proved_echo(shift: u32, scattered: bool, seed: u32, times: u32) -> Tally {
    proved::play_echo(shift, scattered, seed, times)
}

/// The shift of the keys and the seed of the timed elections.
const SHIFT: u32 = 5;
const SEED: u32 = 1;

/// How long one side plays in a round, and how many rounds there are.
const ROUND: Duration = Duration::from_millis(10);
const ROUNDS: u32 = 100;

fn main() -> ExitCode {
    for workload in &WORKLOADS {
        if let Err(difference) = workload.compare() {
            eprintln!("{}: {difference}", workload.name);
            return ExitCode::FAILURE;
        }
    }
    println!(
        "{:<26} {:>16} {:>16} {:>6}",
        "deliveries per second", "proved", "plain Rust", "ratio"
    );
    let mut least = f64::INFINITY;
    for workload in &WORKLOADS {
        let (proved, plain) = workload.measure();
        let ratio = proved / plain;
        println!(
            "{:<26} {proved:>16.0} {plain:>16.0} {ratio:>6.2}",
            workload.name
        );
        least = least.min(ratio);
    }
    println!("least ratio {least:.2}");
    ExitCode::SUCCESS
}

impl Workload {
    const fn new(name: &'static str, proved: Play, plain: Play, scattered: bool) -> Workload {
        Workload {
            name,
            proved,
            plain,
            scattered,
        }
    }

    /// Every shift of the keys, with one seed and more where the seed makes a difference.
    fn compare(&self) -> Result<(), String> {
        let seeds = if self.scattered { 100 } else { 1 };
        for shift in 0..32 {
            for seed in 0..seeds {
                self.compare_on(shift, seed, 1)?;
            }
        }
        self.compare_on(SHIFT, SEED, 10)
    }

    fn compare_on(&self, shift: u32, seed: u32, times: u32) -> Result<(), String> {
        let proved = (self.proved)(shift, self.scattered, seed, times);
        let plain = (self.plain)(shift, self.scattered, seed, times);
        if proved != plain {
            return Err(format!(
                "with shift {shift} and seed {seed} proved {proved:?}, but plain {plain:?}"
            ));
        }
        Ok(())
    }

    /// The deliveries per second of the proved library and of plain Rust, each in its best round.
    fn measure(&self) -> (f64, f64) {
        let times = self.times_in_a_round();
        let mut proved: f64 = 0.0;
        let mut plain: f64 = 0.0;
        for _ in 0..ROUNDS {
            proved = proved.max(self.rate(self.proved, times));
            plain = plain.max(self.rate(self.plain, times));
        }
        (proved, plain)
    }

    /// How many elections plain Rust plays in about the time of a round.
    fn times_in_a_round(&self) -> u32 {
        let mut times = 1;
        loop {
            let start = Instant::now();
            (self.plain)(SHIFT, self.scattered, SEED, times);
            if start.elapsed() >= ROUND / 2 {
                return times;
            }
            times *= 2;
        }
    }

    /// The deliveries per second of so many elections.
    fn rate(&self, play: Play, times: u32) -> f64 {
        let start = Instant::now();
        let tally = play(SHIFT, self.scattered, SEED, times);
        tally.deliveries as f64 / start.elapsed().as_secs_f64()
    }
}
