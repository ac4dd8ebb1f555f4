//! What a server is known by: a certificate and its key, of files (PEM), or a certificate that signs itself, for `localhost` and its
//! addresses, which no one has a reason to trust (RFC 5280).

use crate::program::Refusal;
use ring::digest::{SHA256, digest};
use ring::error::Unspecified;
use ring::rand::SystemRandom;
use ring::signature::{
    ECDSA_P256_SHA256_ASN1, ECDSA_P256_SHA256_ASN1_SIGNING, ECDSA_P384_SHA384_ASN1, ED25519,
    EcdsaKeyPair, KeyPair, RSA_PSS_2048_8192_SHA256, UnparsedPublicKey, VerificationAlgorithm,
};
use rustls::sign::any_supported_type;
use rustls::{PrivateKey, SignatureScheme};
use rustls_pemfile::Item;
use std::fmt::Display;
use std::fs::{File, OpenOptions, create_dir_all};
use std::io::{self, BufReader, Write};
use std::net::{Ipv4Addr, Ipv6Addr};
use std::os::unix::fs::OpenOptionsExt;
use std::path::Path;

#[derive(Debug)]
pub struct Identity {
    pub certificates: Vec<Vec<u8>>,
    pub key: Vec<u8>,
}

// The kinds of keys that TLS signs with here, each with what verifies it.
const VERIFIED: [(SignatureScheme, &dyn VerificationAlgorithm); 4] = [
    (
        SignatureScheme::ECDSA_NISTP256_SHA256,
        &ECDSA_P256_SHA256_ASN1,
    ),
    (
        SignatureScheme::ECDSA_NISTP384_SHA384,
        &ECDSA_P384_SHA384_ASN1,
    ),
    (SignatureScheme::ED25519, &ED25519),
    (SignatureScheme::RSA_PSS_SHA256, &RSA_PSS_2048_8192_SHA256),
];

const SEQUENCE: u8 = 0x30;
const SET: u8 = 0x31;
const BIT_STRING: u8 = 0x03;
const OCTET_STRING: u8 = 0x04;
const UTF8: u8 = 0x0c;
const TIME: u8 = 0x18;
const INTEGER: u8 = 0x02;
const VERSION: u8 = 0xa0;
const DNS_NAME: u8 = 0x82;
const IP_ADDRESS: u8 = 0x87;

// Object identifiers, with their tag and length.
const ECDSA_WITH_SHA256: &[u8] = &[0x06, 8, 0x2a, 0x86, 0x48, 0xce, 0x3d, 4, 3, 2];
const EC_PUBLIC_KEY: &[u8] = &[0x06, 7, 0x2a, 0x86, 0x48, 0xce, 0x3d, 2, 1];
const P256: &[u8] = &[0x06, 8, 0x2a, 0x86, 0x48, 0xce, 0x3d, 3, 1, 7];
const COMMON_NAME: &[u8] = &[0x06, 3, 0x55, 4, 3];
const SUBJECT_ALT_NAME: &[u8] = &[0x06, 3, 0x55, 0x1d, 0x11];

const NAME: &[u8] = b"localhost";

impl Identity {
    pub fn new() -> Result<Identity, Unspecified> {
        let random = SystemRandom::new();
        let algorithm = &ECDSA_P256_SHA256_ASN1_SIGNING;
        let key = EcdsaKeyPair::generate_pkcs8(algorithm, &random)?;
        let pair = EcdsaKeyPair::from_pkcs8(algorithm, key.as_ref()).map_err(|_| Unspecified)?;
        let body = to_be_signed(pair.public_key().as_ref());
        let signature = pair.sign(&random, &body)?;
        let algorithm = der(SEQUENCE, &[ECDSA_WITH_SHA256]);
        let bits = der(BIT_STRING, &[&[0], signature.as_ref()]);
        Ok(Identity {
            certificates: vec![der(SEQUENCE, &[&body, &algorithm, &bits])],
            key: key.as_ref().to_vec(),
        })
    }

    pub fn read(certificate: &Path, key: &Path) -> Result<Identity, Refusal> {
        let certificates = items(certificate)?
            .into_iter()
            .filter_map(|item| match item {
                Item::X509Certificate(der) => Some(der),
                _ => None,
            });
        let certificates: Vec<Vec<u8>> = certificates.collect();
        if certificates.is_empty() {
            return Err(lacks(certificate, "no certificate"));
        }
        let mut keys = items(key)?.into_iter().filter_map(|item| match item {
            Item::PKCS8Key(der) | Item::ECKey(der) | Item::RSAKey(der) => Some(der),
            _ => None,
        });
        let der = keys.next().ok_or_else(|| lacks(key, "no private key"))?;
        let identity = Identity {
            certificates,
            key: der,
        };
        match identity.is_of_one_pair() {
            Some(false) => Err(Refusal::Failure(format!(
                "{} is not the key of {}",
                key.display(),
                certificate.display()
            ))),
            _ => Ok(identity),
        }
    }

    // Whether what the key signs is what the certificate verifies; `None` where there is no telling.
    fn is_of_one_pair(&self) -> Option<bool> {
        let key = any_supported_type(&PrivateKey(self.key.clone())).ok()?;
        let schemes: Vec<SignatureScheme> = VERIFIED.iter().map(|(scheme, _)| *scheme).collect();
        let signer = key.choose_scheme(&schemes)?;
        let (_, algorithm) = VERIFIED
            .iter()
            .find(|(scheme, _)| *scheme == signer.scheme())?;
        let signature = signer.sign(NAME).ok()?;
        // An algorithm, and the key's bits behind a byte that counts those that are left over (RFC 5280, section 4.1).
        let mut whole = self.public_key()?;
        let mut inner = content(&mut whole)?;
        content(&mut inner)?;
        let public = content(&mut inner)?.get(1..)?;
        let public = UnparsedPublicKey::new(*algorithm, public);
        Some(public.verify(NAME, &signature).is_ok())
    }

    /// That of a folder, made if it isn't there: a browser that was told to trust it needs no second word.
    pub fn kept(folder: &Path) -> Result<Identity, Refusal> {
        let [certificate, key] = ["cert.pem", "key.pem"].map(|name| folder.join(name));
        if !certificate.exists() {
            let made = Identity::new().map_err(|_| Refusal::failure("no random bytes"))?;
            let wrong = |error| refused(folder, "written", error);
            create_dir_all(folder).map_err(wrong)?;
            write_pem(&key, "PRIVATE KEY", &made.key).map_err(wrong)?;
            write_pem(&certificate, "CERTIFICATE", &made.certificates[0]).map_err(wrong)?;
        }
        Identity::read(&certificate, &key)
    }

    /// The hash of the certificate's public key, as browsers name it (RFC 7469, section 2.4); `None` where it has none.
    pub fn key_hash(&self) -> Option<String> {
        Some(base64::encode(digest(&SHA256, self.public_key()?)))
    }

    fn public_key(&self) -> Option<&[u8]> {
        let mut certificate = self.certificates.first()?.as_slice();
        let mut whole = content(&mut certificate)?;
        let mut body = content(&mut whole)?;
        // The version may be left out; the key's place is behind number, algorithm, issuer, validity and subject (RFC 5280, 4.1).
        if body.first() == Some(&VERSION) {
            content(&mut body)?;
        }
        for _ in 0..5 {
            content(&mut body)?;
        }
        let from = body;
        content(&mut body)?;
        Some(&from[..from.len() - body.len()])
    }

    /// The hash of the certificate, as Firefox names it in its list of exceptions.
    pub fn fingerprint(&self) -> Option<String> {
        let hash = digest(&SHA256, self.certificates.first()?);
        let bytes: Vec<String> = hash.as_ref().iter().map(|it| format!("{it:02X}")).collect();
        Some(bytes.join(":"))
    }
}

fn refused(path: &Path, what: &str, error: impl Display) -> Refusal {
    Refusal::Failure(format!("{} can't be {what}: {error}", path.display()))
}

fn lacks(path: &Path, what: &str) -> Refusal {
    Refusal::Failure(format!("{} has {what} (PEM)", path.display()))
}

fn items(path: &Path) -> Result<Vec<Item>, Refusal> {
    let wrong = |error| refused(path, "read", error);
    let mut file = BufReader::new(File::open(path).map_err(wrong)?);
    rustls_pemfile::read_all(&mut file).map_err(wrong)
}

// The key is in it.
fn write_pem(path: &Path, what: &str, der: &[u8]) -> io::Result<()> {
    let mut options = OpenOptions::new();
    let mut file = options
        .write(true)
        .create(true)
        .truncate(true)
        .mode(0o600)
        .open(path)?;
    writeln!(file, "-----BEGIN {what}-----")?;
    for line in base64::encode(der).as_bytes().chunks(64) {
        file.write_all(line)?;
        file.write_all(b"\n")?;
    }
    writeln!(file, "-----END {what}-----")
}

fn content<'a>(rest: &mut &'a [u8]) -> Option<&'a [u8]> {
    let [_, first, after @ ..] = *rest else {
        return None;
    };
    let (len, after) = match *first {
        len @ 0..=0x7f => (usize::from(len), after),
        count => {
            let (digits, after) = after.split_at_checked(usize::from(count & 0x7f))?;
            let push = |len: usize, digit: &u8| len.checked_mul(256)?.checked_add((*digit).into());
            (digits.iter().try_fold(0, push)?, after)
        }
    };
    let (content, after) = after.split_at_checked(len)?;
    *rest = after;
    Some(content)
}

fn der(tag: u8, parts: &[&[u8]]) -> Vec<u8> {
    let len = parts.iter().map(|part| part.len()).sum::<usize>();
    let mut out = vec![tag];
    match len {
        0..=0x7f => out.push(len as u8),
        0x80..=0xff => out.extend_from_slice(&[0x81, len as u8]),
        _ => out.extend_from_slice(&[0x82, (len >> 8) as u8, len as u8]),
    }
    parts.iter().for_each(|part| out.extend_from_slice(part));
    out
}

fn to_be_signed(public_key: &[u8]) -> Vec<u8> {
    let version = der(VERSION, &[&der(INTEGER, &[&[2]])]);
    let serial = der(INTEGER, &[&[1]]);
    let algorithm = der(SEQUENCE, &[ECDSA_WITH_SHA256]);
    let attribute = der(SEQUENCE, &[COMMON_NAME, &der(UTF8, &[NAME])]);
    let name = der(SEQUENCE, &[&der(SET, &[&attribute])]);
    let begin = der(TIME, &[b"20200101000000Z"]);
    let end = der(TIME, &[b"20991231235959Z"]);
    let validity = der(SEQUENCE, &[&begin, &end]);
    let key_type = der(SEQUENCE, &[EC_PUBLIC_KEY, P256]);
    let key = der(
        SEQUENCE,
        &[&key_type, &der(BIT_STRING, &[&[0], public_key])],
    );
    // (RFC 5280, section 4.2.1.6: a name, and addresses)
    let [four, six] = [
        &Ipv4Addr::LOCALHOST.octets()[..],
        &Ipv6Addr::LOCALHOST.octets(),
    ]
    .map(|address| der(IP_ADDRESS, &[address]));
    let names = der(SEQUENCE, &[&der(DNS_NAME, &[NAME]), &four, &six]);
    let extension = der(SEQUENCE, &[SUBJECT_ALT_NAME, &der(OCTET_STRING, &[&names])]);
    let extensions = der(0xa3, &[&der(SEQUENCE, &[&extension])]);
    let parts: [&[u8]; 8] = [
        &version,
        &serial,
        &algorithm,
        &name,
        &validity,
        &name,
        &key,
        &extensions,
    ];
    der(SEQUENCE, &parts)
}

#[cfg(test)]
mod tests {
    use super::*;

    #[test]
    fn an_identity_is_kept() {
        let folder = std::env::temp_dir().join(format!("gotsavena-kept-{}", std::process::id()));
        let made = Identity::kept(&folder).unwrap();
        let again = Identity::kept(&folder).unwrap();
        assert_eq!(made.key, again.key);
        assert_eq!(made.certificates, again.certificates);
        let key = folder.join("key.pem");
        assert_eq!(made.is_of_one_pair(), Some(true));
        let other = Identity {
            key: Identity::new().unwrap().key,
            ..again
        };
        assert_eq!(other.is_of_one_pair(), Some(false));
        let wrong = Identity::read(&key, &key).unwrap_err();
        assert!(
            matches!(wrong, Refusal::Failure(text) if text.ends_with("has no certificate (PEM)"))
        );
        std::fs::remove_dir_all(folder).unwrap();
    }

    #[test]
    fn a_key_has_its_hash() {
        let identity = Identity::new().unwrap();
        let certificate = &identity.certificates[0];
        // Of a P-256 key it is 91 bytes long, of which the first 27 are always the same (RFC 5480, section 2).
        let head = der(SEQUENCE, &[&[0; 89]])[..2].to_vec();
        let head = [head, der(SEQUENCE, &[EC_PUBLIC_KEY, P256])].concat();
        let at = certificate
            .windows(head.len())
            .position(|window| window == head);
        let key = &certificate[at.unwrap()..][..91];
        let hash = base64::encode(digest(&SHA256, key));
        assert_eq!(identity.key_hash(), Some(hash));
        let none = Identity {
            certificates: vec![vec![0x30, 0x83, 1]],
            key: Vec::new(),
        };
        assert_eq!(none.key_hash(), None);
    }
}
