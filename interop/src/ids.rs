//! The connection identifiers that the peer gave out (RFC 9000, section 5.1).

use crate::fault::{CONNECTION_ID_LIMIT_ERROR, FRAME_ENCODING_ERROR, Fault, PROTOCOL_VIOLATION};
use crate::packet::ConnectionId;

/// A few, so that one is at hand when the connection moves, and a peer can't make this side keep many.
pub const ACTIVE_IDS: u64 = 4;

const NEW_CONNECTION_ID: u64 = 0x18;

#[derive(Clone, Debug)]
struct PeerId {
    sequence: u64,
    id: ConnectionId,
    token: Option<[u8; 16]>,
}

#[derive(Clone, Debug)]
pub struct PeerIds {
    kept: Vec<PeerId>,
    retired_below: u64,
}

impl PeerIds {
    pub fn new(id: ConnectionId) -> PeerIds {
        let first = PeerId {
            sequence: 0,
            id,
            token: None,
        };
        PeerIds {
            kept: vec![first],
            retired_below: 0,
        }
    }

    pub fn current(&self) -> ConnectionId {
        self.kept.first().map(|kept| kept.id).unwrap_or_default()
    }

    /// A new one for a new path, so that an observer can't tell that it is the same connection. Returns which number is retired for it.
    pub fn advance(&mut self) -> Option<u64> {
        if self.kept.len() < 2 {
            return None;
        }
        let retired = self.kept.remove(0).sequence;
        self.retired_below = self.retired_below.max(retired + 1);
        Some(retired)
    }

    pub fn replace_first(&mut self, id: ConnectionId) {
        self.kept[0].id = id;
    }

    pub fn set_first_token(&mut self, token: [u8; 16]) {
        if let Some(first) = self.kept.iter_mut().find(|kept| kept.sequence == 0) {
            first.token = Some(token);
        }
    }

    /// Bytes that can't be opened may be one: the peer lost its keys (section 10.3.1).
    pub fn is_reset_token(&self, bytes: &[u8]) -> bool {
        let mut tokens = self.kept.iter().filter_map(|kept| kept.token.as_ref());
        tokens.any(|token| token == bytes)
    }

    /// Takes a NEW_CONNECTION_ID in, and answers the numbers that are to be retired (sections 5.1.2 and 19.15).
    pub fn take(
        &mut self,
        sequence: u64,
        retire: u64,
        id: ConnectionId,
        token: [u8; 16],
    ) -> Result<Vec<u64>, Fault> {
        let fault = |code, reason| Err(Fault::new(code, NEW_CONNECTION_ID, reason));
        if retire > sequence {
            return fault(
                FRAME_ENCODING_ERROR,
                "more identifiers are retired than were given",
            );
        }
        if self.current().is_empty() {
            return fault(PROTOCOL_VIOLATION, "an identifier where none is used");
        }
        if sequence < self.retired_below {
            return Ok(vec![sequence]);
        }
        match self.kept.iter().find(|kept| kept.sequence == sequence) {
            Some(known) if known.id != id => {
                return fault(PROTOCOL_VIOLATION, "a number with two identifiers");
            }
            Some(_) => {}
            None => self.kept.push(PeerId {
                sequence,
                id,
                token: Some(token),
            }),
        }
        self.kept.sort_by_key(|kept| kept.sequence);
        let retired = self.retire_below(retire);
        if self.kept.len() as u64 > ACTIVE_IDS {
            return fault(CONNECTION_ID_LIMIT_ERROR, "too many identifiers");
        }
        Ok(retired)
    }

    fn retire_below(&mut self, sequence: u64) -> Vec<u64> {
        self.retired_below = self.retired_below.max(sequence);
        let (retired, kept) = self
            .kept
            .drain(..)
            .partition(|kept: &PeerId| kept.sequence < self.retired_below);
        self.kept = kept;
        retired.iter().map(|retired| retired.sequence).collect()
    }
}

#[cfg(test)]
mod tests {
    use super::*;

    fn id(byte: u8) -> ConnectionId {
        ConnectionId::new(&[byte; 8]).unwrap()
    }

    #[test]
    fn identifiers_are_retired_as_the_peer_asks() {
        let mut ids = PeerIds::new(id(0));
        assert_eq!(ids.take(1, 0, id(1), [1; 16]), Ok(vec![]));
        assert_eq!(ids.current(), id(0));
        assert_eq!(ids.take(2, 1, id(2), [2; 16]), Ok(vec![0]));
        assert_eq!(ids.current(), id(1));
        assert_eq!(ids.take(0, 0, id(9), [0; 16]), Ok(vec![0]));
        assert!(ids.is_reset_token(&[2; 16]) && !ids.is_reset_token(&[0; 16]));
        assert!(ids.take(2, 0, id(3), [2; 16]).is_err());
        assert!(ids.take(3, 4, id(3), [2; 16]).is_err());
    }
}
