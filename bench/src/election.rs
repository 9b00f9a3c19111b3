//! The run of an election by extinction: every node may start a wave, and a better wave puts out a worse.
//! Messages and holdings are the caller's, and are handed to every call, so a delivery trusts nothing of them:
//! it checks all that the proved library checks.

use std::marker::PhantomData;

use crate::network::{MOST_NODES, Network};
use crate::node_set::NodeSet;
use crate::refusal::Refusal;
use crate::wave::{Record, Wave};

/// What the nodes bring together.
pub trait Holding: Copy {
    fn infimum(self, other: Self) -> Self;
}

/// A holding of which the smallest is wanted.
#[derive(Clone, Copy)]
pub struct Least(pub u32);

impl Holding for Least {
    fn infimum(self, other: Least) -> Least {
        Least(self.0.min(other.0))
    }
}

/// A message: which wave it belongs to, its way, its kind, and the holding that it carries.
#[derive(Clone, Copy)]
pub struct Message<T> {
    pub starter: u8,
    pub sender: u8,
    pub receiver: u8,
    pub kind: u8,
    pub holding: T,
}

/// The wave that a node stands in, by its starter, and the node's record there.
#[derive(Clone, Copy)]
pub struct Joined {
    pub wave: u8,
    pub record: Record,
}

/// What the ledger has of one starter.
#[derive(Clone, Copy, Default)]
pub struct Account {
    pub accepted: bool,
    pub sent: u32,
    pub handled: u32,
    pub put_out: u32,
}

/// A decision: who made it, whom it names and what it shows.
#[derive(Clone, Copy)]
pub struct Verdict<T> {
    pub node: u8,
    pub named: u8,
    pub holding: T,
}

#[derive(Clone, Copy)]
pub struct Started<T> {
    pub sent: u32,
    pub verdict: Option<Verdict<T>>,
}

#[derive(Clone, Copy, PartialEq, Eq)]
pub enum Outcome {
    Handled,
    PutOut,
}

#[derive(Clone, Copy)]
pub struct Delivered<T> {
    pub outcome: Outcome,
    pub sent: u32,
    pub verdict: Option<Verdict<T>>,
}

pub struct Run<W> {
    network: Network,
    ranks: [u8; MOST_NODES],
    rows: [Option<Joined>; MOST_NODES],
    ledger: [Account; MOST_NODES],
    wave: PhantomData<W>,
}

impl<W: Wave> Run<W> {
    /// Every node is asleep, running holdings are the own ones, and nothing is in transit.
    pub fn new<K: Ord, T: Holding>(
        network: &Network,
        keys: &[K],
        own: &[T],
        running: &mut [T],
        transit: &mut Vec<Message<T>>,
    ) -> Result<Run<W>, Refusal> {
        let nodes = usize::from(network.nodes());
        if keys.len() != nodes || own.len() != nodes || running.len() != nodes {
            return Err(Refusal::NotOneEach);
        }
        if !W::admits(network) {
            return Err(Refusal::NotAdmitted);
        }
        if (1..keys.len()).any(|i| keys[..i].contains(&keys[i])) {
            return Err(Refusal::EqualKeys);
        }
        let mut ranks = [0; MOST_NODES];
        for (rank, key) in ranks.iter_mut().zip(keys) {
            *rank = keys.iter().filter(|other| *other < key).count() as u8;
        }
        running.copy_from_slice(own);
        transit.clear();
        Ok(Run {
            network: network.clone(),
            ranks,
            rows: [None; MOST_NODES],
            ledger: [Account::default(); MOST_NODES],
            wave: PhantomData,
        })
    }

    /// Starts a node that is asleep: it joins its own wave by the opening.
    pub fn start<T: Holding>(
        &mut self,
        own: &[T],
        running: &mut [T],
        transit: &mut Vec<Message<T>>,
        node: u8,
    ) -> Result<Started<T>, Refusal> {
        self.check_one_each(own, running)?;
        if node >= self.network.nodes() {
            return Err(Refusal::NoSuchNode);
        }
        if self.rows[usize::from(node)].is_some() {
            return Err(Refusal::NotAsleep);
        }
        let step = W::open(&self.network, node);
        let sent = step.sent();
        if sent as usize > free_places(transit) {
            return Err(Refusal::NoFreePlace);
        }
        let account = &mut self.ledger[usize::from(node)];
        account.accepted = true;
        account.sent = account.sent.saturating_add(sent);
        let holding = own[usize::from(node)];
        self.rows[usize::from(node)] = Some(Joined {
            wave: node,
            record: step.record,
        });
        running[usize::from(node)] = holding;
        send(transit, node, node, step.first_kind, 1, holding);
        send(transit, node, node, step.second_kind, 2, holding);
        let verdict = step.decides.then_some(Verdict {
            node,
            named: node,
            holding,
        });
        Ok(Started { sent, verdict })
    }

    /// Delivers the message at a place: its receiver handles it, or it is put out.
    pub fn deliver<T: Holding>(
        &mut self,
        own: &[T],
        running: &mut [T],
        transit: &mut Vec<Message<T>>,
        place: usize,
    ) -> Result<Delivered<T>, Refusal> {
        self.check_one_each(own, running)?;
        let message = *transit.get(place).ok_or(Refusal::NoSuchPlace)?;
        if !self.is_ours(&message) {
            return Err(Refusal::ForeignMessage);
        }
        let Message {
            starter,
            sender,
            receiver,
            kind,
            ..
        } = message;
        let (record, before) = match self.rows[usize::from(receiver)] {
            Some(joined) if joined.wave == starter => {
                (Some(joined.record), running[usize::from(receiver)])
            }
            Some(joined) if self.rank(joined.wave) < self.rank(starter) => {
                transit.swap_remove(place);
                let account = &mut self.ledger[usize::from(starter)];
                account.put_out = account.put_out.saturating_add(1);
                return Ok(Delivered {
                    outcome: Outcome::PutOut,
                    sent: 0,
                    verdict: None,
                });
            }
            _ => (None, own[usize::from(receiver)]),
        };
        let step = W::arrive(&self.network, receiver, record, sender, kind);
        let sent = step.sent();
        if sent as usize > free_places(transit) + 1 {
            return Err(Refusal::NoFreePlace);
        }
        transit.swap_remove(place);
        let account = &mut self.ledger[usize::from(starter)];
        account.handled = account.handled.saturating_add(1);
        account.sent = account.sent.saturating_add(sent);
        let holding = before.infimum(message.holding);
        self.rows[usize::from(receiver)] = Some(Joined {
            wave: starter,
            record: step.record,
        });
        running[usize::from(receiver)] = holding;
        send(transit, starter, receiver, step.first_kind, 1, holding);
        send(transit, starter, receiver, step.second_kind, 2, holding);
        let verdict = step.decides.then_some(Verdict {
            node: receiver,
            named: starter,
            holding,
        });
        Ok(Delivered {
            outcome: Outcome::Handled,
            sent,
            verdict,
        })
    }

    fn check_one_each<T>(&self, own: &[T], running: &[T]) -> Result<(), Refusal> {
        let nodes = usize::from(self.network.nodes());
        if own.len() != nodes || running.len() != nodes {
            return Err(Refusal::NotOneEach);
        }
        Ok(())
    }

    /// Whether a message can be one of this run.
    fn is_ours<T>(&self, message: &Message<T>) -> bool {
        self.network
            .are_neighbours(message.sender, message.receiver)
            && self
                .ledger
                .get(usize::from(message.starter))
                .is_some_and(|account| account.accepted)
            && matches!(message.kind, 1 | 2)
    }

    /// How many nodes have a key before this node's.
    pub fn rank(&self, node: u8) -> u8 {
        self.ranks[usize::from(node)]
    }

    pub fn row(&self, node: u8) -> Option<Joined> {
        self.rows[usize::from(node)]
    }

    pub fn account(&self, node: u8) -> Account {
        self.ledger[usize::from(node)]
    }
}

/// One message of a kind for each of the receivers. Starts and deliveries share no more than this: a longer function
/// of both is not inlined, and makes plain Rust a quarter slower than it need be.
fn send<T: Holding>(
    transit: &mut Vec<Message<T>>,
    starter: u8,
    sender: u8,
    receivers: NodeSet,
    kind: u8,
    holding: T,
) {
    for receiver in receivers {
        transit.push(Message {
            starter,
            sender,
            receiver,
            kind,
            holding,
        });
    }
}

/// The transit keeps the places that it was made with.
fn free_places<T>(transit: &Vec<Message<T>>) -> usize {
    transit.capacity() - transit.len()
}
