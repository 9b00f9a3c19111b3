//! The tree wave: tokens from the leaves meet, once wakes have reached them.

use super::{Record, Standing, Step, Wave};
use crate::network::Network;
use crate::node_set::NodeSet;

/// The kind of a token; any other message is a wake.
const TOKEN: u8 = 2;

pub struct Tree;

impl Wave for Tree {
    fn admits(network: &Network) -> bool {
        network.links() + 1 == network.nodes()
    }

    fn bound(network: &Network) -> u32 {
        2 * u32::from(network.nodes()) - 1
    }

    fn open(network: &Network, node: u8) -> Step {
        let around = network.neighbours(node);
        join(
            around,
            Standing::Starter,
            NodeSet::EMPTY,
            around,
            around.is_empty(),
        )
    }

    fn arrive(network: &Network, node: u8, record: Option<Record>, sender: u8, kind: u8) -> Step {
        let around = network.neighbours(node);
        let before = match record {
            Some(record) => record.marked,
            None => around,
        };
        let noted = kind == TOKEN && before.contains(sender);
        let silent = if noted {
            before.minus(NodeSet::only(sender))
        } else {
            before
        };
        let decides = noted && silent.is_empty();
        match record {
            Some(record) => go_on(around, record, silent, decides),
            None => {
                let reached = around.common(NodeSet::only(sender));
                join(around, Standing::Follower(sender), reached, silent, decides)
            }
        }
    }
}

/// A first event: the token, if there is one to send, and wakes to all others but the sender.
fn join(
    around: NodeSet,
    standing: Standing,
    reached: NodeSet,
    silent: NodeSet,
    decides: bool,
) -> Step {
    let token = match silent.len() {
        0 => reached,
        1 => silent,
        _ => NodeSet::EMPTY,
    };
    Step {
        record: Record {
            standing,
            marked: silent,
            token_sent: !token.is_empty(),
        },
        first_kind: around.minus(reached).minus(token),
        second_kind: token,
        decides,
    }
}

/// A later event: an unsent token goes to the last silent neighbour.
fn go_on(around: NodeSet, record: Record, silent: NodeSet, decides: bool) -> Step {
    let token = if !record.token_sent && silent.len() == 1 {
        around.common(silent)
    } else {
        NodeSet::EMPTY
    };
    Step {
        record: Record {
            standing: record.standing,
            marked: silent,
            token_sent: record.token_sent || !token.is_empty(),
        },
        first_kind: NodeSet::EMPTY,
        second_kind: token,
        decides,
    }
}
