//! A network: its nodes, numbered from 0, and the neighbours of each.

use crate::node_set::NodeSet;
use crate::refusal::Refusal;

pub const MOST_NODES: usize = 32;

const MOST_LINKS: usize = 96;

#[derive(Clone)]
pub struct Network {
    nodes: u8,
    links: u8,
    neighbours: [NodeSet; MOST_NODES],
}

impl Network {
    /// The network of these nodes and links, or the first rule that they break.
    pub fn new(nodes: u8, links: &[(u8, u8)]) -> Result<Network, Refusal> {
        if !(1..=MOST_NODES).contains(&usize::from(nodes)) || links.len() > MOST_LINKS {
            return Err(Refusal::CountOutOfRange);
        }
        let mut network = Network {
            nodes,
            links: links.len() as u8,
            neighbours: [NodeSet::EMPTY; MOST_NODES],
        };
        for &(first, second) in links {
            network.join(first, second)?;
        }
        if network.reached_from(0) != NodeSet::below(nodes) {
            return Err(Refusal::NoPath);
        }
        Ok(network)
    }

    fn join(&mut self, first: u8, second: u8) -> Result<(), Refusal> {
        if first >= second || second >= self.nodes {
            return Err(Refusal::EndsOutOfOrder);
        }
        if self.are_neighbours(first, second) {
            return Err(Refusal::LinkRepeated);
        }
        let [a, b] = [usize::from(first), usize::from(second)];
        self.neighbours[a] = self.neighbours[a].with(second);
        self.neighbours[b] = self.neighbours[b].with(first);
        Ok(())
    }

    fn reached_from(&self, node: u8) -> NodeSet {
        let mut seen = NodeSet::only(node);
        let mut waiting = vec![node];
        while let Some(node) = waiting.pop() {
            let fresh = self.neighbours(node).minus(seen);
            seen = seen.union(fresh);
            waiting.extend(fresh);
        }
        seen
    }

    pub fn nodes(&self) -> u8 {
        self.nodes
    }

    pub fn links(&self) -> u8 {
        self.links
    }

    /// A number that is no node has no neighbours.
    pub fn neighbours(&self, node: u8) -> NodeSet {
        self.neighbours
            .get(usize::from(node))
            .copied()
            .unwrap_or(NodeSet::EMPTY)
    }

    pub fn are_neighbours(&self, a: u8, b: u8) -> bool {
        self.neighbours(a).contains(b)
    }
}
