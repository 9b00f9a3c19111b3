//! What the elections that were played came to. The layout is that of `Tally` in crates/workload.

use crate::election::{Delivered, Least, Outcome, Run, Started, Verdict};
use crate::wave::{Standing, Wave};

/// Sums over all elections that were played, but for the last field.
#[repr(C)]
#[derive(Clone, Copy, PartialEq, Eq, Debug, Default)]
pub struct Tally {
    pub deliveries: u64,
    pub sent: u64,
    pub put_out: u64,
    pub decisions: u64,
    /// every decision in its turn, mixed
    pub verdicts: u64,
    /// where the nodes stand, what they hold and what the ledger has after the last election, mixed
    pub state: u64,
}

impl Tally {
    pub fn note_start(&mut self, answer: &Started<Least>) {
        self.sent += u64::from(answer.sent);
        self.note_verdict(answer.verdict);
    }

    pub fn note_delivery(&mut self, answer: &Delivered<Least>) {
        self.deliveries += 1;
        self.sent += u64::from(answer.sent);
        self.put_out += u64::from(answer.outcome == Outcome::PutOut);
        self.note_verdict(answer.verdict);
    }

    fn note_verdict(&mut self, verdict: Option<Verdict<Least>>) {
        let Some(verdict) = verdict else {
            return;
        };
        self.decisions += 1;
        let mut mixture = Mixture(self.verdicts);
        mixture.add(verdict.node);
        mixture.add(verdict.named);
        mixture.add(verdict.holding.0);
        self.verdicts = mixture.0;
    }
}

/// Numbers mixed into one, to see whether two lists of numbers are the same.
struct Mixture(u64);

/// The factor of the FNV hash of 64 bits.
const FACTOR: u64 = 1_099_511_628_211;

impl Mixture {
    fn add(&mut self, number: impl Into<u64>) {
        self.0 = (self.0 ^ number.into()).wrapping_mul(FACTOR);
    }
}

/// How an election stands at its end, mixed into one number.
pub fn ending<W: Wave>(run: &Run<W>, running: &[Least]) -> u64 {
    let mut mixture = Mixture(0);
    for (node, holding) in (0..).zip(running) {
        mixture.add(run.rank(node));
        mixture.add(holding.0);
        let account = run.account(node);
        mixture.add(account.accepted);
        mixture.add(account.sent);
        mixture.add(account.handled);
        mixture.add(account.put_out);
        let Some(joined) = run.row(node) else {
            continue;
        };
        mixture.add(joined.wave);
        mixture.add(match joined.record.standing {
            Standing::Starter => 0u32,
            Standing::Follower(parent) => u32::from(parent) + 1,
        });
        mixture.add(joined.record.token_sent);
        for neighbour in joined.record.marked {
            mixture.add(neighbour);
        }
    }
    mixture.0
}
