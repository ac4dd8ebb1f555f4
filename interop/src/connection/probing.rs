//! What a prober needs: the payloads of the 1-RTT packets that come, and packets with any payload under any number. What it sends
//! so is noted nowhere here: from then on it is the prober's to acknowledge, and to send again.

use super::Connection;
use crate::packet::{Kind, Level, read_packet};
use crate::parameters::Parameters;

/// The payloads that came, each under its packet's number.
#[derive(Default)]
pub struct Heard {
    pub payloads: Vec<(u64, Vec<u8>)>,
    /// Datagrams of which nothing could be opened.
    pub unopened: u64,
}

impl Connection {
    /// From now on the payloads of 1-RTT packets are kept for [`Connection::heard`].
    pub fn hear(&mut self) {
        self.heard = Some(Heard::default());
    }

    /// What came since the last call.
    pub fn heard(&mut self) -> Heard {
        self.heard.as_mut().map(std::mem::take).unwrap_or_default()
    }

    pub fn is_confirmed(&self) -> bool {
        self.known.is_confirmed
    }

    pub fn peer_parameters(&self) -> &Parameters {
        &self.peer
    }

    /// The number of the next 1-RTT packet, if none goes but by [`Connection::seal`].
    pub fn next_number(&self) -> u64 {
        self.end.as_ref().map_or(0, |end| end.next_number())
    }

    /// A datagram with one 1-RTT packet of this number and payload.
    pub fn seal(&self, number: u64, payload: &[u8]) -> Vec<u8> {
        let mut out = Vec::new();
        let mut draft = self.header(Level::Data, number).write(&mut out);
        out.extend_from_slice(payload);
        draft.finish(&mut out);
        if let Some(keys) = &self.data_keys {
            keys.seal(&mut out, &draft);
        }
        out
    }

    /// Opens a datagram's 1-RTT packets for [`Connection::heard`], and does nothing else with them.
    pub fn overhear(&mut self, datagram: &mut [u8]) {
        let mut at = 0;
        let mut has_opened = false;
        while let Some(packet) = read_packet(&datagram[at..]) {
            let end = at + packet.end;
            let bytes = &mut datagram[at..end];
            let is_data = packet.kind == Kind::Protected(Level::Data);
            let keys = self.data_keys.as_mut().filter(|_| is_data);
            let opened = keys.and_then(|keys| keys.open(bytes, &packet, self.expected));
            if let Some(opened) = opened {
                self.expected = self.expected.max(opened.number + 1);
                note(&mut self.heard, opened.number, &bytes[opened.payload]);
                has_opened = true;
            }
            at = end;
            if at >= datagram.len() {
                break;
            }
        }
        if let (false, Some(heard)) = (has_opened, &mut self.heard) {
            heard.unopened += 1;
        }
    }
}

pub(super) fn note(heard: &mut Option<Heard>, number: u64, payload: &[u8]) {
    if let Some(heard) = heard {
        heard.payloads.push((number, payload.to_vec()));
    }
}
