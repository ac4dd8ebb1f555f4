// Made from crates/qs_cli/src/report_text.rt by rust/erase; not edited by hand.
//! What came of a run, as text.

use crate::shim::String;

use crate::proved::qs_text::{push_closing, push_log, side_name, yes_no};
use crate::proved::qs_world::{Closing, EndTotals, LaneTotals, Report, Side};
use crate::shim::alloc::{AllocError, Global};

/// The text of a report: a line for each event with its answer, for each lane and for each end.
pub fn play_text(alloc: Global, report: &Report) -> Result<String, AllocError> {
    let mut text = String::new(alloc);
    push_log(alloc, &mut text, &report.log)?;
    push_lanes(&mut text, &report.lanes)?;
    push_ends(&mut text, &report.ends)?;
    Ok(text)
}

fn push_lanes(text: &mut String, lanes: &[LaneTotals]) -> Result<(), AllocError> {
    for lane in lanes {
        push_lane(text, lane)?;
        text.push_str("\n")?;
    }
    Ok(())
}

fn push_number(text: &mut String, number: Option<u64>) -> Result<(), AllocError> {
    match number {
        Some(number) => write!(text, "{number}"),
        None => text.push_str("none"),
    }
}

fn push_lane(text: &mut String, lane: &LaneTotals) -> Result<(), AllocError> {
    let (side, id) = (side_name(lane.sender), lane.id.value());
    let (written, read, received) = (lane.written, lane.read, yes_no(lane.received));
    write!(
        text,
        "lane {side} {id} written {written} read {read} received {received}"
    )?;
    push_sizes(text, lane.declared, lane.known)
}

fn push_sizes(
    text: &mut String,
    declared: Option<u64>,
    known: Option<u64>,
) -> Result<(), AllocError> {
    text.push_str(" declared ")?;
    push_number(text, declared)?;
    text.push_str(" known ")?;
    push_number(text, known)
}

fn push_ends(text: &mut String, ends: &[EndTotals; 2]) -> Result<(), AllocError> {
    let [client, server] = ends;
    push_end(text, Side::A, client)?;
    text.push_str("\n")?;
    push_end(text, Side::B, server)?;
    text.push_str("\n")
}

fn push_end(text: &mut String, side: Side, end: &EndTotals) -> Result<(), AllocError> {
    let (side, spent, granted, stored) = (side_name(side), end.spent, end.granted, end.stored);
    write!(
        text,
        "end {side} spent {spent} granted {granted} stored {stored}"
    )?;
    push_own_closing(text, end.closing)
}

fn push_own_closing(text: &mut String, closing: Option<Closing>) -> Result<(), AllocError> {
    match closing {
        Some(closing) => {
            text.push_str(" ")?;
            push_closing(text, closing)
        }
        None => Ok(()),
    }
}
