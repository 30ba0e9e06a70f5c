//! The walk a descriptor at a time, as both sides make it.

use crate::boundary::{Access, Answer, Regime};

/// A walk that names the address of the next descriptor and is offered what
/// stands there, until it ends.
pub trait Steps: Copy {
    fn start(regime: &Regime, access: &Access) -> Self;

    /// Offers the descriptor that is wanted. Gives 0, or 12 after the end.
    fn value(&mut self, value: u64) -> u8;

    /// The same, where it can't be read.
    fn unreachable(&mut self) -> u8;

    /// The address of the descriptor that is wanted, until the end.
    fn wanted(&self) -> Option<u64>;

    /// The answer, and the update that is due, once it has ended.
    fn end(&self) -> (Answer, Option<Update>);
}

/// Of the leaf's descriptor.
#[derive(Clone, Copy, Debug, PartialEq)]
pub struct Update {
    pub address: u64,
    pub expected: u64,
    pub value: u64,
}
