//! The ring wave: one message goes round.

use super::{Record, Standing, Step, Wave};
use crate::network::Network;
use crate::node_set::NodeSet;

pub struct Ring;

impl Wave for Ring {
    fn admits(network: &Network) -> bool {
        network.nodes() <= 2 || (0..network.nodes()).all(|node| network.neighbours(node).len() == 2)
    }

    fn bound(network: &Network) -> u32 {
        u32::from(network.nodes())
    }

    fn open(network: &Network, node: u8) -> Step {
        let around = network.neighbours(node);
        Step {
            record: Record::joined_as(Standing::Starter),
            first_kind: around.lowest(),
            second_kind: NodeSet::EMPTY,
            decides: around.is_empty(),
        }
    }

    fn arrive(network: &Network, node: u8, record: Option<Record>, sender: u8, _kind: u8) -> Step {
        let record = record.unwrap_or(Record::joined_as(Standing::Follower(sender)));
        let decides = record.standing == Standing::Starter;
        Step {
            record,
            first_kind: if decides {
                NodeSet::EMPTY
            } else {
                onward(network.neighbours(node), sender)
            },
            second_kind: NodeSet::EMPTY,
            decides,
        }
    }
}

/// The other neighbour, or the sender where there is no other.
fn onward(around: NodeSet, sender: u8) -> NodeSet {
    let others = around.minus(NodeSet::only(sender));
    if others.is_empty() {
        around.common(NodeSet::only(sender))
    } else {
        others.lowest()
    }
}
