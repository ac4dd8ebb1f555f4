//! Two stacks that own their packets, over a link that drops every fifth one. Packet numbers, ACKs and PINGs are theirs; their ends see
//! frames and tokens alone.
//!
//!     cargo run --example stack

use gotsavena::{
    AckRanges, Dir, Endpoint, Fill, Frame, Read, Role, SendState, Settings, StreamId, Taken, Token,
    frames, put, put_ack,
};
use std::collections::{BTreeMap, BTreeSet};
use std::error::Error;

/// How many later packets are acknowledged before one counts as lost (RFC 9002, section 6.1.1).
const REORDERED: u64 = 3;

/// How many ranges an ACK has at most.
const RANGES: usize = 32;

struct Stack {
    end: Endpoint,
    /// The number of the next packet.
    next: u64,
    /// The tokens of packets in flight, by packet number.
    sent: BTreeMap<u64, Token>,
    /// The packets that came.
    came: BTreeSet<u64>,
    owes_ack: bool,
}

impl Stack {
    fn new(role: Role, settings: Settings) -> Result<Stack, Box<dyn Error>> {
        Ok(Stack {
            end: Endpoint::new(role, settings, settings.limits())?,
            next: 0,
            sent: BTreeMap::new(),
            came: BTreeSet::new(),
            owes_ack: false,
        })
    }

    /// The next packet, its number first: an ACK, and what the end has to send, or a PING where all of that is under way. `None` where
    /// there is nothing to say.
    fn packet(&mut self) -> Result<Option<Vec<u8>>, Box<dyn Error>> {
        let mut out = [0; 1200];
        out[..8].copy_from_slice(&self.next.to_be_bytes());
        let mut len = 8;
        if self.owes_ack {
            len += put_ack(&runs(&self.came), 0, &mut out[len..])?.1;
        }
        if let Some(filled) = self.end.fill(&mut out[len..], &Fill::all())? {
            len += filled.len;
            self.sent.insert(self.next, filled.token);
        } else if !self.sent.is_empty() {
            len += put(&Frame::Ping, &mut out[len..])?;
        }
        if len == 8 {
            return Ok(None);
        }
        self.owes_ack = false;
        self.next += 1;
        Ok(Some(out[..len].to_vec()))
    }

    /// Takes a packet in. It counts as one that came, and so is acknowledged, only once the end took each of its frames.
    fn take(&mut self, packet: &[u8]) -> Result<(), Box<dyn Error>> {
        let (number, payload) = packet.split_first_chunk().ok_or("no number")?;
        let number = u64::from_be_bytes(*number);
        let mut asks = false;
        for placed in frames(payload) {
            let frame = placed?.frame;
            if let Frame::Ack {
                largest, ranges, ..
            } = frame
            {
                self.acknowledged(largest, ranges)?;
            } else {
                asks = true;
                if self.end.take_frame(&frame)? == Taken::NotOurs {
                    assert_eq!(frame, Frame::Ping, "a frame that this stack has no use for");
                }
            }
        }
        self.came.insert(number);
        self.owes_ack |= asks;
        Ok(())
    }

    /// The peer acknowledged packets. Those that lie well below the largest one are lost.
    fn acknowledged(&mut self, largest: u64, ranges: &[u8]) -> Result<(), Box<dyn Error>> {
        for (least, most) in AckRanges::new(largest, ranges).ok_or("no such number")? {
            for number in least..=most {
                if let Some(token) = self.sent.remove(&number) {
                    self.end.acked(token)?;
                }
            }
        }
        let later = self
            .sent
            .split_off(&(largest + 1).saturating_sub(REORDERED));
        for token in std::mem::replace(&mut self.sent, later).into_values() {
            self.end.lost(token)?;
        }
        Ok(())
    }
}

/// The runs of some numbers, each by its lowest and its highest, the highest first.
fn runs(numbers: &BTreeSet<u64>) -> Vec<(u64, u64)> {
    let mut runs: Vec<(u64, u64)> = Vec::new();
    for &number in numbers.iter().rev() {
        let more = runs.len() < RANGES;
        match runs.last_mut() {
            Some((lowest, _)) if *lowest == number + 1 => *lowest = number,
            _ if more => runs.push((number, number)),
            _ => break,
        }
    }
    runs
}

/// Reads what there is, and answers whether the stream is at its end.
fn read(end: &mut Endpoint, stream: StreamId, into: &mut Vec<u8>) -> Result<bool, Box<dyn Error>> {
    let mut bytes = [0; 4096];
    loop {
        match end.read(stream, &mut bytes)? {
            Read::Bytes(count) => into.extend_from_slice(&bytes[..count]),
            Read::End => return Ok(true),
            Read::Wait => return Ok(false),
            Read::Reset(code) => return Err(format!("the peer broke it off: {code}").into()),
        }
    }
}

/// Whether all of a stream that this end sent is acknowledged, and its end.
fn is_received(end: &Endpoint, stream: StreamId) -> bool {
    let sending = end.report(stream).and_then(|report| report.send);
    sending.is_some_and(|half| half.state == SendState::DataRecvd)
}

pub fn main() -> Result<(), Box<dyn Error>> {
    let settings = Settings::default();
    let mut client = Stack::new(Role::Client, settings)?;
    let mut server = Stack::new(Role::Server, settings)?;
    let bytes: Vec<u8> = (0..1 << 20).map(|i: u32| (i >> 4) as u8).collect();
    let stream = client.end.open(Dir::Uni)?;
    let (mut written, mut came, mut at_end) = (0, Vec::new(), false);
    let (mut sent, mut dropped) = (0, 0);
    while !(at_end && is_received(&client.end, stream)) {
        if written < bytes.len() {
            written += client.end.write(stream, &bytes[written..])?;
            if written == bytes.len() {
                client.end.finish(stream)?;
            }
        }
        // The link drops each fifth packet, and four go before a reply, so that ACKs have gaps.
        for _turn in 0..4 {
            let Some(packet) = client.packet()? else {
                break;
            };
            sent += 1;
            if sent % 5 == 0 {
                dropped += 1;
            } else {
                server.take(&packet)?;
            }
        }
        if let Some(packet) = server.packet()? {
            client.take(&packet)?;
        }
        if !at_end && server.end.report(stream).is_some() {
            at_end = read(&mut server.end, stream, &mut came)?;
        }
    }
    assert_eq!(came, bytes);
    println!(
        "{} bytes came, in {sent} packets, of which {dropped} were dropped",
        came.len()
    );
    Ok(())
}
