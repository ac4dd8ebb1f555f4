// Made from tests/units/qs_tests/src/lib.rattle by rust/erase; not edited by hand.
//! Tests of what no clause says, through the public calls of worlds.

#[cfg(test)]
mod texts;
#[cfg(test)]
mod world;
