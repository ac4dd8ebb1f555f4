//! TLS 1.3 for QUIC (RFC 9001, section 4), by rustls. Where the environment has SSLKEYLOGFILE, secrets are written to that file.

use crate::certificate::Identity;
use crate::fault::{CRYPTO_ERROR, Fault, INTERNAL_ERROR};
use crate::program::Refusal;
use rustls::client::{ServerCertVerified, ServerCertVerifier};
use rustls::quic::{ClientQuicExt, KeyChange, QuicExt, ServerQuicExt, Version};
use rustls::{
    ALL_CIPHER_SUITES, Certificate, ClientConfig, ClientConnection, Connection, Error, KeyLogFile,
    PrivateKey, ServerConfig, ServerConnection, ServerName, SupportedCipherSuite,
};
use std::sync::{Arc, OnceLock};
use std::time::SystemTime;

static ONLY: OnceLock<SupportedCipherSuite> = OnceLock::new();

/// From now on this suite is offered and taken alone, by the name that rustls has for it.
pub fn take_only(name: &str) -> Result<(), Refusal> {
    let is_named = |suite: &&SupportedCipherSuite| format!("{:?}", suite.suite()) == name;
    let unknown = || Refusal::Usage(format!("--cipher {name} is none that is known"));
    let suite = ALL_CIPHER_SUITES
        .iter()
        .find(is_named)
        .ok_or_else(unknown)?;
    ONLY.get_or_init(|| *suite);
    Ok(())
}

fn suites() -> &'static [SupportedCipherSuite] {
    ONLY.get().map_or(ALL_CIPHER_SUITES, std::slice::from_ref)
}

pub fn server_config(
    identity: Identity,
    protocols: &[&[u8]],
) -> Result<Arc<ServerConfig>, Refusal> {
    let certificates = identity.certificates.into_iter().map(Certificate);
    let wrong = |error| Refusal::Failure(format!("the certificate or its key: {error}"));
    let mut config = ServerConfig::builder()
        .with_cipher_suites(suites())
        .with_safe_default_kx_groups()
        .with_safe_default_protocol_versions()
        .map_err(wrong)?
        .with_no_client_auth()
        .with_single_cert(certificates.collect(), PrivateKey(identity.key))
        .map_err(wrong)?;
    config.alpn_protocols = protocols.iter().map(|name| name.to_vec()).collect();
    config.key_log = Arc::new(KeyLogFile::new());
    Ok(Arc::new(config))
}

/// What TLS needs of a client. It takes every certificate: it is meant for the loopback alone.
pub fn client_config(protocols: &[&[u8]]) -> Arc<ClientConfig> {
    let mut config = ClientConfig::builder()
        .with_cipher_suites(suites())
        .with_safe_default_kx_groups()
        .with_safe_default_protocol_versions()
        .expect("each suite is one of TLS 1.3")
        .with_custom_certificate_verifier(Arc::new(AnyCertificate))
        .with_no_client_auth();
    config.alpn_protocols = protocols.iter().map(|name| name.to_vec()).collect();
    config.key_log = Arc::new(KeyLogFile::new());
    Arc::new(config)
}

struct AnyCertificate;

impl ServerCertVerifier for AnyCertificate {
    fn verify_server_cert(
        &self,
        _end_entity: &Certificate,
        _intermediates: &[Certificate],
        _server_name: &ServerName,
        _scts: &mut dyn Iterator<Item = &[u8]>,
        _ocsp_response: &[u8],
        _now: SystemTime,
    ) -> Result<ServerCertVerified, Error> {
        Ok(ServerCertVerified::assertion())
    }
}

pub struct Session {
    inner: Connection,
}

impl Session {
    pub fn client(
        config: Arc<ClientConfig>,
        name: &str,
        parameters: Vec<u8>,
    ) -> Result<Session, Fault> {
        let name = ServerName::try_from(name)
            .map_err(|_| Fault::new(INTERNAL_ERROR, 0, "the server's name is no name"))?;
        ClientConnection::new_quic(config, Version::V1, name, parameters)
            .map(|inner| Session {
                inner: inner.into(),
            })
            .map_err(|error| Fault::new(INTERNAL_ERROR, 0, &error.to_string()))
    }

    pub fn server(config: Arc<ServerConfig>, parameters: Vec<u8>) -> Result<Session, Fault> {
        ServerConnection::new_quic(config, Version::V1, parameters)
            .map(|inner| Session {
                inner: inner.into(),
            })
            .map_err(|error| Fault::new(INTERNAL_ERROR, 0, &error.to_string()))
    }

    /// Takes in bytes of the handshake, which came in order.
    pub fn read(&mut self, bytes: &[u8]) -> Result<(), Fault> {
        self.inner.read_hs(bytes).map_err(|error| {
            let alert = self.inner.alert().map_or(80, |alert| alert.get_u8());
            Fault::new(CRYPTO_ERROR + u64::from(alert), 0x06, &error.to_string())
        })
    }

    pub fn write(&mut self, bytes: &mut Vec<u8>) -> Option<KeyChange> {
        self.inner.write_hs(bytes)
    }

    pub fn is_done(&self) -> bool {
        !self.inner.is_handshaking()
    }

    pub fn peer_parameters(&self) -> Option<&[u8]> {
        self.inner.quic_transport_parameters()
    }

    pub fn protocol(&self) -> Option<&[u8]> {
        self.inner.alpn_protocol()
    }
}
