//! The echo wave: out over all links, and back to the starter.

use super::{Record, Standing, Step, Wave};
use crate::network::Network;
use crate::node_set::NodeSet;

pub struct Echo;

impl Wave for Echo {
    fn admits(_network: &Network) -> bool {
        true
    }

    fn bound(network: &Network) -> u32 {
        2 * u32::from(network.links())
    }

    fn open(network: &Network, node: u8) -> Step {
        let around = network.neighbours(node);
        Step {
            record: Record::joined_as(Standing::Starter),
            first_kind: around,
            second_kind: NodeSet::EMPTY,
            decides: around.is_empty(),
        }
    }

    fn arrive(network: &Network, node: u8, record: Option<Record>, sender: u8, _kind: u8) -> Step {
        let around = network.neighbours(node);
        let (mut record, mut receivers) = match record {
            Some(record) => (record, NodeSet::EMPTY),
            None => (
                Record::joined_as(Standing::Follower(sender)),
                around.minus(NodeSet::only(sender)),
            ),
        };
        let fresh = around.contains(sender) && !record.marked.contains(sender);
        if fresh {
            record.marked = record.marked.with(sender);
        }
        let mut decides = false;
        if fresh && around.minus(record.marked).is_empty() {
            match record.standing {
                Standing::Starter => decides = true,
                Standing::Follower(parent) => {
                    receivers = receivers.union(around.common(NodeSet::only(parent)));
                }
            }
        }
        Step {
            record,
            first_kind: receivers,
            second_kind: NodeSet::EMPTY,
            decides,
        }
    }
}
