//! The handshake's bytes and keys, and what is known once it is done (RFC 9001, section 4; RFC 9000, section 7).

use super::{Config, Connection, Space};
use crate::fault::{Fault, INTERNAL_ERROR, PROTOCOL_VIOLATION, TRANSPORT_PARAMETER_ERROR};
use crate::packet::Level;
use crate::parameters::Parameters;
use crate::protection::DataKeys;
use crate::recovery::Control;
use gotsavena::{Endpoint, Role};
use rustls::quic::KeyChange;

impl Connection {
    pub(super) fn take_crypto(
        &mut self,
        level: Level,
        offset: u64,
        bytes: &[u8],
    ) -> Result<(), Fault> {
        let next = self.space(level).incoming.take(offset, bytes)?;
        if next.is_empty() {
            return Ok(());
        }
        self.session.read(&next)?;
        self.pull_handshake()?;
        self.look_at_parameters()?;
        if self.session.is_done() && !self.known.is_confirmed && self.role == Role::Server {
            self.controls.push_back(Control::HandshakeDone);
            self.give_ids()?;
            self.confirm();
        }
        Ok(())
    }

    /// Takes what TLS has to say. Bytes belong to the level before the keys that come with them, so they are sent under those.
    pub(super) fn pull_handshake(&mut self) -> Result<(), Fault> {
        loop {
            let mut bytes = Vec::new();
            let change = self.session.write(&mut bytes);
            if bytes.is_empty() && change.is_none() {
                return Ok(());
            }
            let level = self.write_level;
            self.space(level).out.write(&bytes);
            match change {
                Some(KeyChange::Handshake { keys }) => {
                    self.space(Level::Handshake).keys = Some(keys);
                    self.write_level = Level::Handshake;
                }
                Some(KeyChange::OneRtt { keys, next }) => {
                    self.data_keys = Some(DataKeys::new(keys, next));
                    self.write_level = Level::Data;
                }
                None => {}
            }
        }
    }

    fn look_at_parameters(&mut self) -> Result<(), Fault> {
        if self.end.is_some() || self.data_keys.is_none() {
            return Ok(());
        }
        let Some(text) = self.session.peer_parameters() else {
            return Ok(());
        };
        let peer = Parameters::read(text, self.role.peer())?;
        self.check_ids(&peer)?;
        let Config {
            settings, tuning, ..
        } = self.config;
        let end =
            Endpoint::with_tuning(self.role, settings, tuning, peer.limits).map_err(|fault| {
                let code = fault.code().unwrap_or(INTERNAL_ERROR);
                Fault::new(code, 0, &fault.to_string())
            })?;
        self.recovery.max_ack_delay = peer.max_ack_delay;
        self.recovery.path.most = peer.max_datagram;
        if let Some(token) = peer.reset_token {
            self.peer_ids.set_first_token(token);
        }
        if let Some(trace) = &mut self.trace {
            trace.parameters("remote", &peer, self.last_active);
        }
        self.peer = peer;
        self.end = Some(end);
        Ok(())
    }

    // Otherwise somebody on the path changed the first packets (RFC 9000, section 7.3).
    fn check_ids(&self, peer: &Parameters) -> Result<(), Fault> {
        let wrong = |code| {
            Err(Fault::new(
                code,
                0,
                "an identifier isn't that of the first packets",
            ))
        };
        match peer.initial_source {
            None => return wrong(TRANSPORT_PARAMETER_ERROR),
            Some(id) if id != self.peer_ids.current() => return wrong(PROTOCOL_VIOLATION),
            Some(_) => {}
        }
        if self.role == Role::Server {
            return Ok(());
        }
        if peer.original_destination != Some(self.first_destination) {
            return wrong(TRANSPORT_PARAMETER_ERROR);
        }
        if peer.retry_source != self.retry_source {
            return wrong(TRANSPORT_PARAMETER_ERROR);
        }
        Ok(())
    }

    /// Nothing of the handshake can come any more, so its keys go (RFC 9001, section 4.9.2).
    pub(super) fn confirm(&mut self) {
        self.known.is_confirmed = true;
        self.discard(Level::Initial);
        self.discard(Level::Handshake);
    }

    pub(super) fn discard(&mut self, level: Level) {
        if self.space(level).keys.is_some() {
            *self.space(level) = Space::default();
            self.recovery.discard(level);
        }
    }
}
