//! Why a call is refused.

#[derive(Clone, Copy, PartialEq, Eq, Debug)]
pub enum Refusal {
    CountOutOfRange,
    EndsOutOfOrder,
    LinkRepeated,
    NoPath,
    NotAdmitted,
    EqualKeys,
    NotOneEach,
    NoSuchNode,
    NotAsleep,
    NoSuchPlace,
    ForeignMessage,
    NoFreePlace,
}
