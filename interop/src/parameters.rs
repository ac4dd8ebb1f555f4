//! Transport parameters (RFC 9000, section 18).

use crate::bytes::{Reader, push_varint};
use crate::fault::{Fault, TRANSPORT_PARAMETER_ERROR};
use crate::packet::ConnectionId;
use gotsavena::{PeerLimits, Role};
use std::collections::BTreeSet;
use std::time::Duration;

#[derive(Clone, Debug)]
pub struct Parameters {
    pub limits: PeerLimits,
    pub idle: Duration,
    pub max_datagram: u64,
    pub ack_delay_exponent: u64,
    pub max_ack_delay: Duration,
    pub active_ids: u64,
    pub stays: bool,
    pub initial_source: Option<ConnectionId>,
    pub original_destination: Option<ConnectionId>,
    pub retry_source: Option<ConnectionId>,
    pub reset_token: Option<[u8; 16]>,
}

const ORIGINAL_DESTINATION: u64 = 0x00;
const IDLE_TIMEOUT: u64 = 0x01;
const RESET_TOKEN: u64 = 0x02;
const MAX_UDP_PAYLOAD: u64 = 0x03;
const MAX_DATA: u64 = 0x04;
const MAX_STREAM_DATA_BIDI_LOCAL: u64 = 0x05;
const MAX_STREAM_DATA_BIDI_REMOTE: u64 = 0x06;
const MAX_STREAM_DATA_UNI: u64 = 0x07;
const MAX_STREAMS_BIDI: u64 = 0x08;
const MAX_STREAMS_UNI: u64 = 0x09;
const ACK_DELAY_EXPONENT: u64 = 0x0a;
const MAX_ACK_DELAY: u64 = 0x0b;
const DISABLE_MIGRATION: u64 = 0x0c;
const PREFERRED_ADDRESS: u64 = 0x0d;
const ACTIVE_ID_LIMIT: u64 = 0x0e;
const INITIAL_SOURCE: u64 = 0x0f;
const RETRY_SOURCE: u64 = 0x10;

const MOST_STREAMS: u64 = 1 << 60;

impl Default for Parameters {
    /// What holds where a parameter isn't told (RFC 9000, section 18.2).
    fn default() -> Parameters {
        Parameters {
            limits: PeerLimits::default(),
            idle: Duration::ZERO,
            max_datagram: 65_527,
            ack_delay_exponent: 3,
            max_ack_delay: Duration::from_millis(25),
            active_ids: 2,
            stays: false,
            initial_source: None,
            original_destination: None,
            retry_source: None,
            reset_token: None,
        }
    }
}

fn push_number(out: &mut Vec<u8>, name: u64, value: u64) {
    let mut text = Vec::new();
    push_varint(&mut text, value);
    push_bytes(out, name, &text);
}

fn push_bytes(out: &mut Vec<u8>, name: u64, value: &[u8]) {
    push_varint(out, name);
    push_varint(out, value.len() as u64);
    out.extend_from_slice(value);
}

fn wrong(reason: &str) -> Fault {
    Fault::new(TRANSPORT_PARAMETER_ERROR, 0, reason)
}

impl Parameters {
    pub fn write(&self) -> Vec<u8> {
        let mut out = Vec::new();
        let numbers = [
            (IDLE_TIMEOUT, self.idle.as_millis() as u64),
            (MAX_UDP_PAYLOAD, self.max_datagram),
            (MAX_DATA, self.limits.max_data),
            (MAX_STREAM_DATA_BIDI_LOCAL, self.limits.bidi_local),
            (MAX_STREAM_DATA_BIDI_REMOTE, self.limits.bidi_remote),
            (MAX_STREAM_DATA_UNI, self.limits.uni),
            (MAX_STREAMS_BIDI, self.limits.streams_bidi),
            (MAX_STREAMS_UNI, self.limits.streams_uni),
            (MAX_ACK_DELAY, self.max_ack_delay.as_millis() as u64),
            (ACTIVE_ID_LIMIT, self.active_ids),
        ];
        for (name, value) in numbers {
            push_number(&mut out, name, value);
        }
        if self.stays {
            push_bytes(&mut out, DISABLE_MIGRATION, &[]);
        }
        let ids = [
            (INITIAL_SOURCE, &self.initial_source),
            (ORIGINAL_DESTINATION, &self.original_destination),
            (RETRY_SOURCE, &self.retry_source),
        ];
        for (name, id) in ids {
            if let Some(id) = id {
                push_bytes(&mut out, name, id.as_slice());
            }
        }
        out
    }

    pub fn read(text: &[u8], from: Role) -> Result<Parameters, Fault> {
        let mut told = Parameters::default();
        let mut names = BTreeSet::new();
        let mut rest = Reader::new(text);
        while !rest.is_empty() {
            let name = rest
                .varint()
                .ok_or_else(|| wrong("a parameter is cut off"))?;
            let value = rest
                .counted()
                .ok_or_else(|| wrong("a parameter is cut off"))?;
            if !names.insert(name) {
                return Err(wrong("a parameter stands there twice"));
            }
            told.take(name, value, from)
                .ok_or_else(|| wrong(&format!("parameter {name:#x} is wrong")))?;
        }
        Ok(told)
    }

    fn take(&mut self, name: u64, value: &[u8], from: Role) -> Option<()> {
        match name {
            ORIGINAL_DESTINATION | RESET_TOKEN | PREFERRED_ADDRESS | RETRY_SOURCE => {
                self.take_of_server(name, value, from)
            }
            INITIAL_SOURCE => {
                self.initial_source = Some(ConnectionId::new(value)?);
                Some(())
            }
            DISABLE_MIGRATION => {
                self.stays = true;
                value.is_empty().then_some(())
            }
            IDLE_TIMEOUT..=MAX_ACK_DELAY | ACTIVE_ID_LIMIT => {
                let mut rest = Reader::new(value);
                let number = rest.varint()?;
                (rest.is_empty() && self.take_number(name, number)).then_some(())
            }
            _ => Some(()),
        }
    }

    fn take_of_server(&mut self, name: u64, value: &[u8], from: Role) -> Option<()> {
        if from != Role::Server {
            return None;
        }
        match name {
            ORIGINAL_DESTINATION => self.original_destination = Some(ConnectionId::new(value)?),
            RETRY_SOURCE => self.retry_source = Some(ConnectionId::new(value)?),
            RESET_TOKEN => self.reset_token = Some(value.try_into().ok()?),
            _ => {}
        }
        Some(())
    }

    fn take_number(&mut self, name: u64, number: u64) -> bool {
        let millis = Duration::from_millis(number);
        match name {
            IDLE_TIMEOUT => self.idle = millis,
            MAX_UDP_PAYLOAD => self.max_datagram = number,
            MAX_DATA => self.limits.max_data = number,
            MAX_STREAM_DATA_BIDI_LOCAL => self.limits.bidi_local = number,
            MAX_STREAM_DATA_BIDI_REMOTE => self.limits.bidi_remote = number,
            MAX_STREAM_DATA_UNI => self.limits.uni = number,
            MAX_STREAMS_BIDI => self.limits.streams_bidi = number,
            MAX_STREAMS_UNI => self.limits.streams_uni = number,
            ACK_DELAY_EXPONENT => self.ack_delay_exponent = number,
            MAX_ACK_DELAY => self.max_ack_delay = millis,
            _ => self.active_ids = number,
        }
        match name {
            MAX_UDP_PAYLOAD => number >= 1200,
            MAX_STREAMS_BIDI | MAX_STREAMS_UNI => number <= MOST_STREAMS,
            ACK_DELAY_EXPONENT => number <= 20,
            MAX_ACK_DELAY => number < 1 << 14,
            ACTIVE_ID_LIMIT => number >= 2,
            _ => true,
        }
    }
}

#[cfg(test)]
mod tests {
    use super::*;

    #[test]
    fn what_is_written_is_read_again() {
        let told = Parameters {
            idle: Duration::from_secs(30),
            initial_source: ConnectionId::new(&[1, 2, 3]),
            original_destination: ConnectionId::new(&[]),
            limits: PeerLimits::default().max_data(1 << 61),
            ..Parameters::default()
        };
        let read = Parameters::read(&told.write(), Role::Server).unwrap();
        assert_eq!(read.limits, told.limits);
        assert_eq!(read.idle, told.idle);
        assert_eq!(read.initial_source, told.initial_source);
        assert_eq!(read.original_destination, told.original_destination);
        assert!(Parameters::read(&told.write(), Role::Client).is_err());
    }

    #[test]
    fn wrong_parameters_are_refused() {
        let texts: [&[u8]; 6] = [
            &[0x03, 2, 0x44, 0xaf],
            &[0x0a, 1, 21],
            &[0x0e, 1, 1],
            &[0x01, 1],
            &[0x01, 1, 5, 0x01, 1, 5],
            &[0x01, 2, 5, 5],
        ];
        for text in texts {
            let fault = Parameters::read(text, Role::Client).unwrap_err();
            assert_eq!(fault.code, TRANSPORT_PARAMETER_ERROR);
        }
    }
}
