//! Labels, and the order they stand in.

use crate::table::Table;

/// What the flow test answers where it fails by secrecy, or by integrity. It answers
/// their sum where it fails by both.
pub const SECRECY: u32 = 1;
pub const INTEGRITY: u32 = 2;

/// A secrecy and an integrity formula.
#[derive(Clone, Copy, Debug, PartialEq, Eq)]
pub struct Label {
    pub secrecy: Table,
    pub integrity: Table,
}

impl Label {
    /// Open to everyone and vouched for by no one.
    pub const PUBLIC: Label = Label { secrecy: Table::TRUE, integrity: Table::TRUE };

    /// The flow test: 0 if this label flows to the other one, else what failed.
    #[inline]
    pub fn flow_test(self, to: Label) -> u32 {
        let secrecy_fails = !to.secrecy.implies(self.secrecy);
        let integrity_fails = !self.integrity.implies(to.integrity);
        SECRECY * u32::from(secrecy_fails) + INTEGRITY * u32::from(integrity_fails)
    }

    #[inline]
    pub fn flows_to(self, to: Label) -> bool {
        self.flow_test(to) == 0
    }

    #[inline]
    pub fn join(self, other: Label) -> Label {
        Label { secrecy: self.secrecy & other.secrecy, integrity: self.integrity | other.integrity }
    }

    #[inline]
    pub fn meet(self, other: Label) -> Label {
        Label { secrecy: self.secrecy | other.secrecy, integrity: self.integrity & other.integrity }
    }
}
