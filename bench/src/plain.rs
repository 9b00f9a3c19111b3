//! The workloads through plain Rust, the same as crates/workload plays them through the proved library.

use crate::election::{Least, Message, Run};
use crate::network::{MOST_NODES, Network};
use crate::refusal::Refusal;
use crate::tally::{Tally, ending};
use crate::wave::{Wave, echo::Echo, ring::Ring, tree::Tree};

const NODES: u8 = MOST_NODES as u8;

pub fn play_ring(shift: u32, scattered: bool, seed: u32, times: u32) -> Tally {
    let mut links: Vec<(u8, u8)> = (1..NODES).map(|node| (node - 1, node)).collect();
    links.push((0, NODES - 1));
    play::<Ring>(&links, shift, Order::new(scattered, seed), times)
}

pub fn play_tree(shift: u32, scattered: bool, seed: u32, times: u32) -> Tally {
    let links: Vec<(u8, u8)> = (1..NODES).map(|node| ((node - 1) / 2, node)).collect();
    play::<Tree>(&links, shift, Order::new(scattered, seed), times)
}

/// Each of the nodes 0 to 23 is joined to those 1, 2, 4 and 8 above it: 96 links, the most that there can be.
pub fn play_echo(shift: u32, scattered: bool, seed: u32, times: u32) -> Tally {
    let links: Vec<(u8, u8)> = (0..24)
        .flat_map(|node| [1, 2, 4, 8].map(|above| (node, node + above)))
        .collect();
    play::<Echo>(&links, shift, Order::new(scattered, seed), times)
}

fn play<W: Wave>(links: &[(u8, u8)], shift: u32, order: Order, times: u32) -> Tally {
    try_play::<W>(links, shift, order, times).expect("the workload is lawful")
}

/// Plays the election so many times. The generator of an order goes on from one election to the next.
fn try_play<W: Wave>(
    links: &[(u8, u8)],
    shift: u32,
    mut order: Order,
    times: u32,
) -> Result<Tally, Refusal> {
    let network = Network::new(NODES, links)?;
    let nodes = 0..u32::from(NODES);
    // keys that are not in node order, so that waves put each other out
    let keys: Vec<u32> = nodes
        .clone()
        .map(|node| (node * 13).wrapping_add(shift) % 32)
        .collect();
    let own: Vec<Least> = nodes
        .map(|node| Least((node * 7).wrapping_add(shift) % 101))
        .collect();
    let mut running = own.clone();
    // all that an election ever sends has a place
    let places = usize::from(NODES) * W::bound(&network) as usize;
    let mut transit: Vec<Message<Least>> = Vec::with_capacity(places);
    let mut tally = Tally::default();
    for turn in 1..=times {
        let mut run = Run::<W>::new(&network, &keys, &own, &mut running, &mut transit)?;
        for node in 0..NODES {
            let answer = run.start(&own, &mut running, &mut transit, node)?;
            tally.note_start(&answer);
        }
        while !transit.is_empty() {
            let place = order.place(transit.len());
            let answer = run.deliver(&own, &mut running, &mut transit, place)?;
            tally.note_delivery(&answer);
        }
        if turn == times {
            tally.state = ending(&run, &running);
        }
    }
    Ok(tally)
}

/// Which of the messages in transit is delivered next.
enum Order {
    /// the one at place 0
    First,
    /// one that a generator picks, from this state on
    Scattered(u32),
}

impl Order {
    fn new(scattered: bool, seed: u32) -> Order {
        if scattered {
            Order::Scattered(seed)
        } else {
            Order::First
        }
    }

    /// A place below the count, if there is one.
    fn place(&mut self, count: usize) -> usize {
        match self {
            Order::First => 0,
            Order::Scattered(state) => {
                *state = state.wrapping_mul(1_664_525).wrapping_add(1_013_904_223);
                (u64::from(*state) * count as u64 >> 32) as usize
            }
        }
    }
}
