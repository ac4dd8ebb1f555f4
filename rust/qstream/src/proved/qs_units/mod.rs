// Made from tests/units/qs_units/src/lib.rattle by rust/erase; not edited by hand.
//! Tests of what no clause says, through the public calls of the parts of an endpoint: frames, sets of numbers and the halves of streams. They
//! stand on those alone.

#[cfg(test)]
mod lost;
#[cfg(test)]
mod ranges;
#[cfg(test)]
mod records;
#[cfg(test)]
mod recv;
#[cfg(test)]
mod replay;
#[cfg(test)]
mod send;
#[cfg(test)]
mod wire;
