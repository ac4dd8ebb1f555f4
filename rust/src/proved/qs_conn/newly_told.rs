// Made from crates/qs_conn/src/newly_told.rt by rust/erase; not edited by hand.
//! Who is told which packets a payload newly acknowledges.

pub trait Told {
    fn tell(&mut self, number: u64);
}

/// For calls that name no packet, so that there is one way to receive.
pub(crate) struct Silent;

impl Told for Silent {
    fn tell(&mut self, _number: u64) {}
}
