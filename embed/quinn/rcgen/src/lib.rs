//! Self-signed certificates for tests, made by the program `openssl`: as much of rcgen's interface as quinn's tests call.
use std::path::{Path, PathBuf};
use std::process::Command;
use std::sync::atomic::{AtomicUsize, Ordering};
use std::{env, fs, io, process};

pub struct Certificate {
    certificate: Vec<u8>,
    key: Vec<u8>,
}

pub fn generate_simple_self_signed(names: impl Into<Vec<String>>) -> io::Result<Certificate> {
    static MADE: AtomicUsize = AtomicUsize::new(0);
    let count = MADE.fetch_add(1, Ordering::Relaxed);
    let room = env::temp_dir().join(format!("certificate-{}-{count}", process::id()));
    fs::create_dir(&room)?;
    let made = make(&room, &names.into());
    fs::remove_dir_all(&room)?;
    made
}

fn make(room: &Path, names: &[String]) -> io::Result<Certificate> {
    let names: Vec<String> = names.iter().map(|name| format!("DNS:{name}")).collect();
    let settings = format!(
        "[req]\nprompt=no\ndistinguished_name=name\nx509_extensions=more\n[name]\nCN=localhost\n[more]\nsubjectAltName={}\n",
        names.join(",")
    );
    let at = |name: &str| -> PathBuf { room.join(name) };
    fs::write(at("settings"), settings)?;
    openssl("genpkey -algorithm EC -pkeyopt ec_paramgen_curve:P-256 -out key.pem", room)?;
    openssl("pkcs8 -topk8 -nocrypt -in key.pem -outform DER -out key.der", room)?;
    openssl(
        "req -x509 -new -days 30 -config settings -key key.pem -outform DER -out certificate.der",
        room,
    )?;
    Ok(Certificate { certificate: fs::read(at("certificate.der"))?, key: fs::read(at("key.der"))? })
}

fn openssl(words: &str, room: &Path) -> io::Result<()> {
    let ran = Command::new("openssl").args(words.split(' ')).current_dir(room).output()?;
    match ran.status.success() {
        true => Ok(()),
        false => Err(io::Error::new(io::ErrorKind::Other, String::from_utf8_lossy(&ran.stderr))),
    }
}

impl Certificate {
    pub fn serialize_der(&self) -> io::Result<Vec<u8>> {
        Ok(self.certificate.clone())
    }

    pub fn serialize_private_key_der(&self) -> Vec<u8> {
        self.key.clone()
    }
}
