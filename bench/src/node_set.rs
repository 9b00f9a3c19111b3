//! A set of nodes in one word: bit i says that node i is in.

#[derive(Clone, Copy, PartialEq, Eq)]
pub struct NodeSet(u32);

impl NodeSet {
    pub const EMPTY: NodeSet = NodeSet(0);

    pub fn below(nodes: u8) -> NodeSet {
        NodeSet(
            1u32.checked_shl(u32::from(nodes))
                .unwrap_or(0)
                .wrapping_sub(1),
        )
    }

    pub fn only(node: u8) -> NodeSet {
        NodeSet::EMPTY.with(node)
    }

    pub fn contains(self, node: u8) -> bool {
        node < 32 && self.0 >> node & 1 == 1
    }

    pub fn is_empty(self) -> bool {
        self.0 == 0
    }

    pub fn len(self) -> u32 {
        self.0.count_ones()
    }

    /// A number that is no node, 32 or more, is never a member.
    pub fn with(self, node: u8) -> NodeSet {
        NodeSet(self.0 | 1u32.checked_shl(u32::from(node)).unwrap_or(0))
    }

    pub fn union(self, other: NodeSet) -> NodeSet {
        NodeSet(self.0 | other.0)
    }

    pub fn minus(self, other: NodeSet) -> NodeSet {
        NodeSet(self.0 & !other.0)
    }

    pub fn common(self, other: NodeSet) -> NodeSet {
        NodeSet(self.0 & other.0)
    }

    /// The lowest member alone.
    pub fn lowest(self) -> NodeSet {
        NodeSet(self.0 & self.0.wrapping_neg())
    }
}

/// The members one after another, ascending.
pub struct Members(u32);

impl IntoIterator for NodeSet {
    type Item = u8;
    type IntoIter = Members;

    fn into_iter(self) -> Members {
        Members(self.0)
    }
}

impl Iterator for Members {
    type Item = u8;

    fn next(&mut self) -> Option<u8> {
        if self.0 == 0 {
            return None;
        }
        let node = self.0.trailing_zeros() as u8;
        self.0 &= self.0 - 1;
        Some(node)
    }
}
