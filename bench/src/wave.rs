//! What a wave is, and the three waves.

use crate::network::Network;
use crate::node_set::NodeSet;

pub mod echo;
pub mod ring;
pub mod tree;

/// A node stands in a wave as its starter, or as a follower of the neighbour that first reached it.
#[derive(Clone, Copy, PartialEq, Eq)]
pub enum Standing {
    Starter,
    Follower(u8),
}

#[derive(Clone, Copy)]
pub struct Record {
    pub standing: Standing,
    /// the neighbours noted, or those silent, or none
    pub marked: NodeSet,
    pub token_sent: bool,
}

impl Record {
    /// What a node keeps when it joins a wave.
    pub fn joined_as(standing: Standing) -> Record {
        Record {
            standing,
            marked: NodeSet::EMPTY,
            token_sent: false,
        }
    }
}

/// What a node does at an event: its new record, who gets a message of either kind, and whether it decides.
#[derive(Clone, Copy)]
pub struct Step {
    pub record: Record,
    pub first_kind: NodeSet,
    pub second_kind: NodeSet,
    pub decides: bool,
}

impl Step {
    /// How many messages the node sends.
    pub fn sent(&self) -> u32 {
        self.first_kind.len() + self.second_kind.len()
    }
}

pub trait Wave {
    /// Whether the wave runs on this network.
    fn admits(network: &Network) -> bool;

    /// The most messages that one wave sends on this network.
    fn bound(network: &Network) -> u32;

    /// The step of a node that starts.
    fn open(network: &Network, node: u8) -> Step;

    /// The step of a node that a message reaches, with its record in this wave if it has one.
    fn arrive(network: &Network, node: u8, record: Option<Record>, sender: u8, kind: u8) -> Step;
}
