//! Serves and loads files over QUIC by quinn: the bytes of a stream are a path, the answer is the file.
//!
//!     quinn-peer server DIR ADDR CERTIFICATE.der KEY.der
//!     quinn-peer client ADDR DIR PATH..
//!     quinn-peer hq-client ADDR DIR PATH..      the same by HTTP/0.9 (ALPN hq-interop), which the server knows, too
//!     quinn-peer stops ADDR PATH     stops the stream of a file in the middle, and then loads that file whole
//!     quinn-peer resets ADDR PATH    breaks requests off before they are whole, one with a stop, and then loads that file

use quinn::{ClientConfig, Connecting, Connection, Endpoint, RecvStream, SendStream, ServerConfig};
use std::error::Error;
use std::net::SocketAddr;
use std::path::Path;
use std::process::ExitCode;
use std::sync::Arc;
use std::time::{Instant, SystemTime};

type Fallible<T> = Result<T, Box<dyn Error + Send + Sync>>;

const PROTOCOL: &[u8] = b"gotsavena-raw";
const HQ: &[u8] = b"hq-interop";
const NO_FILE: u32 = 2;
const MOST_PATH: usize = 4096;
const MOST_BYTES: usize = 1 << 30;

fn main() -> ExitCode {
    let words: Vec<String> = std::env::args().skip(1).collect();
    match run(&words) {
        Ok(()) => ExitCode::SUCCESS,
        Err(error) => {
            eprintln!("quinn-peer: {error}");
            ExitCode::FAILURE
        }
    }
}

fn run(words: &[String]) -> Fallible<()> {
    let runtime = tokio::runtime::Builder::new_current_thread()
        .enable_all()
        .build()?;
    let words: Vec<&str> = words.iter().map(String::as_str).collect();
    match words.as_slice() {
        ["server", folder, address, certificate, key] => {
            runtime.block_on(serve(folder, address.parse()?, certificate, key))
        }
        ["client", address, folder, paths @ ..] => {
            runtime.block_on(load(address.parse()?, PROTOCOL, folder, paths))
        }
        ["hq-client", address, folder, paths @ ..] => {
            runtime.block_on(load(address.parse()?, HQ, folder, paths))
        }
        ["stops", address, path] => runtime.block_on(stop(address.parse()?, path)),
        ["resets", address, path] => runtime.block_on(reset(address.parse()?, path)),
        _ => Err("server DIR ADDR CERTIFICATE KEY, or client ADDR DIR PATH..".into()),
    }
}

async fn serve(folder: &str, address: SocketAddr, certificate: &str, key: &str) -> Fallible<()> {
    let certificate = rustls::Certificate(std::fs::read(certificate)?);
    let key = rustls::PrivateKey(std::fs::read(key)?);
    let mut tls = rustls::ServerConfig::builder()
        .with_safe_defaults()
        .with_no_client_auth()
        .with_single_cert(vec![certificate], key)?;
    tls.alpn_protocols = vec![PROTOCOL.to_vec(), HQ.to_vec()];
    let endpoint = Endpoint::server(ServerConfig::with_crypto(Arc::new(tls)), address)?;
    println!("listening on {}", endpoint.local_addr()?);
    while let Some(connecting) = endpoint.accept().await {
        tokio::spawn(serve_connection(folder.to_owned(), connecting));
    }
    Ok(())
}

async fn serve_connection(folder: String, connecting: Connecting) {
    let Ok(connection) = connecting.await else {
        return;
    };
    while let Ok((send, receive)) = connection.accept_bi().await {
        let folder = folder.clone();
        tokio::spawn(async move {
            if let Err(error) = serve_stream(&folder, send, receive).await {
                eprintln!("quinn-peer: {error}");
            }
        });
    }
}

async fn serve_stream(folder: &str, mut send: SendStream, receive: RecvStream) -> Fallible<()> {
    let path = String::from_utf8(receive.read_to_end(MOST_PATH).await?)?;
    let path = path.strip_prefix("GET ").map_or(&*path, str::trim_end);
    let is_below = !path.split('/').any(|part| part == "..");
    match std::fs::read(Path::new(folder).join(path.trim_start_matches('/'))) {
        Ok(bytes) if is_below => {
            send.write_all(&bytes).await?;
            send.finish().await?;
        }
        _ => send.reset(NO_FILE.into())?,
    }
    Ok(())
}

async fn connect(address: SocketAddr, protocol: &[u8]) -> Fallible<(Endpoint, Connection)> {
    let mut tls = rustls::ClientConfig::builder()
        .with_safe_defaults()
        .with_custom_certificate_verifier(Arc::new(AnyCertificate))
        .with_no_client_auth();
    tls.alpn_protocols = vec![protocol.to_vec()];
    let mut endpoint = Endpoint::client("127.0.0.1:0".parse()?)?;
    endpoint.set_default_client_config(ClientConfig::new(Arc::new(tls)));
    let connection = endpoint.connect(address, "localhost")?.await?;
    Ok((endpoint, connection))
}

async fn load(address: SocketAddr, protocol: &[u8], folder: &str, paths: &[&str]) -> Fallible<()> {
    let begin = Instant::now();
    let (endpoint, connection) = connect(address, protocol).await?;
    let mut loading = Vec::new();
    for path in paths {
        let request = match protocol {
            HQ => format!("GET /{path}\r\n"),
            _ => (*path).to_owned(),
        };
        let one = load_one(connection.clone(), request);
        loading.push((path, tokio::spawn(one)));
    }
    let mut count = 0;
    for (path, one) in loading {
        let bytes = one.await??;
        count += bytes.len();
        let name = path.rsplit('/').next().unwrap_or(path);
        std::fs::write(Path::new(folder).join(name), bytes)?;
    }
    connection.close(0u32.into(), b"");
    let seconds = begin.elapsed().as_secs_f64();
    println!(
        "{count} bytes in {seconds:.3} s: {:.2} MB/s",
        count as f64 / 1e6 / seconds
    );
    endpoint.wait_idle().await;
    Ok(())
}

async fn stop(address: SocketAddr, path: &str) -> Fallible<()> {
    let (endpoint, connection) = connect(address, PROTOCOL).await?;
    let (mut send, mut receive) = connection.open_bi().await?;
    send.write_all(path.as_bytes()).await?;
    send.finish().await?;
    let mut front = [0; 1000];
    receive.read_exact(&mut front).await?;
    receive.stop(7u32.into())?;
    expect_whole(&connection, path, &front).await?;
    connection.close(0u32.into(), b"");
    endpoint.wait_idle().await;
    Ok(())
}

async fn reset(address: SocketAddr, path: &str) -> Fallible<()> {
    let (endpoint, connection) = connect(address, PROTOCOL).await?;
    let (mut send, receive) = connection.open_bi().await?;
    send.write_all(&path.as_bytes()[..1]).await?;
    send.reset(7u32.into())?;
    if receive.read_to_end(MOST_BYTES).await.is_ok() {
        return Err("a request that was broken off is answered".into());
    }
    let (mut send, mut receive) = connection.open_bi().await?;
    send.write_all(&path.as_bytes()[..1]).await?;
    send.reset(7u32.into())?;
    receive.stop(7u32.into())?;
    expect_whole(&connection, path, &[]).await?;
    connection.close(0u32.into(), b"");
    endpoint.wait_idle().await;
    Ok(())
}

// The connection goes on: a file is loaded, which begins so.
async fn expect_whole(connection: &Connection, path: &str, front: &[u8]) -> Fallible<()> {
    let bytes = load_one(connection.clone(), path.to_owned()).await?;
    match bytes.len() > front.len() && bytes.starts_with(front) {
        true => Ok(()),
        false => Err("the file doesn't begin as it did".into()),
    }
}

async fn load_one(connection: Connection, path: String) -> Fallible<Vec<u8>> {
    let (mut send, receive) = connection.open_bi().await?;
    send.write_all(path.as_bytes()).await?;
    send.finish().await?;
    Ok(receive.read_to_end(MOST_BYTES).await?)
}

struct AnyCertificate;

impl rustls::client::ServerCertVerifier for AnyCertificate {
    fn verify_server_cert(
        &self,
        _end_entity: &rustls::Certificate,
        _intermediates: &[rustls::Certificate],
        _server_name: &rustls::ServerName,
        _scts: &mut dyn Iterator<Item = &[u8]>,
        _ocsp_response: &[u8],
        _now: SystemTime,
    ) -> Result<rustls::client::ServerCertVerified, rustls::Error> {
        Ok(rustls::client::ServerCertVerified::assertion())
    }
}
