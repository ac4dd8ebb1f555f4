// Made from tests/units/qs_ends/src/lib.rattle by rust/erase; not edited by hand.
//! Tests of what no clause says of an endpoint, through its public calls.

#[cfg(test)]
mod anew;
#[cfg(test)]
mod counts;
#[cfg(test)]
mod ends;
#[cfg(test)]
mod every_payload;
#[cfg(test)]
mod fragments;
#[cfg(test)]
mod many_packets;
#[cfg(test)]
mod owners;
#[cfg(test)]
mod packets;
#[cfg(test)]
mod payloads;
#[cfg(test)]
mod rows;
#[cfg(test)]
mod settings;
