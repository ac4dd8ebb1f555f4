//! quinn-sink ADDR CERTIFICATE.pem KEY.pem: over quinn what gotsavena-sink does over our streams. It reads and drops every stream, answers
//! "ok" on each bidirectional one that ends, and opens one stream of either direction with "hi". quinn leaves a STOP_SENDING to its
//! application, which resets the stream here.

use quinn::{Connection, Endpoint, RecvStream, SendStream, ServerConfig, TransportConfig, VarInt};
use std::error::Error;
use std::fs::File;
use std::io::BufReader;
use std::sync::Arc;

type Fallible<T> = Result<T, Box<dyn Error + Send + Sync>>;

/// The code with which a stream's answer is given up.
const GIVEN_UP: u32 = 9;

fn main() -> Fallible<()> {
    let words: Vec<String> = std::env::args().skip(1).collect();
    let [address, certificate, key] = &words[..] else {
        return Err("usage: quinn-sink ADDR CERTIFICATE.pem KEY.pem".into());
    };
    let runtime = tokio::runtime::Builder::new_current_thread()
        .enable_all()
        .build()?;
    runtime.block_on(serve(address, config(certificate, key)?))
}

fn config(certificate: &str, key: &str) -> Fallible<ServerConfig> {
    let open = |path: &str| File::open(path).map(BufReader::new);
    let certificates = rustls_pemfile::certs(&mut open(certificate)?)?;
    let keys = rustls_pemfile::pkcs8_private_keys(&mut open(key)?)?;
    let key = keys.into_iter().next().ok_or("no key is in the file")?;
    let certificates = certificates.into_iter().map(rustls::Certificate).collect();
    let mut tls = rustls::ServerConfig::builder()
        .with_safe_defaults()
        .with_no_client_auth()
        .with_single_cert(certificates, rustls::PrivateKey(key))?;
    tls.alpn_protocols = vec![b"gotsavena-raw".to_vec()];
    let mut transport = TransportConfig::default();
    transport
        .stream_receive_window(VarInt::from_u32(8192))
        .receive_window(VarInt::from_u32(20_000))
        .max_concurrent_bidi_streams(VarInt::from_u32(16))
        .max_concurrent_uni_streams(VarInt::from_u32(16))
        .datagram_receive_buffer_size(None);
    let mut config = ServerConfig::with_crypto(Arc::new(tls));
    config.transport_config(Arc::new(transport));
    Ok(config)
}

async fn serve(address: &str, config: ServerConfig) -> Fallible<()> {
    let endpoint = Endpoint::server(config, address.parse()?)?;
    println!("listening on {}", endpoint.local_addr()?);
    while let Some(connecting) = endpoint.accept().await {
        tokio::spawn(async move {
            if let Ok(connection) = connecting.await {
                tokio::spawn(open(connection.clone()));
                tokio::spawn(drain_uni(connection.clone()));
                drain_bidi(connection).await;
            }
        });
    }
    Ok(())
}

async fn open(connection: Connection) {
    if let Ok(stream) = connection.open_uni().await {
        tokio::spawn(greet(stream));
    }
    if let Ok((stream, receiving)) = connection.open_bi().await {
        greet(stream).await;
        drop(receiving);
    }
}

// The stream is kept open until its peer stops it, or the connection ends.
async fn greet(mut stream: SendStream) {
    _ = stream.write_all(b"hi").await;
    if let Ok(code) = stream.stopped().await {
        _ = stream.reset(code);
    }
}

async fn drain(stream: &mut RecvStream) -> bool {
    let mut buffer = [0; 4096];
    loop {
        match stream.read(&mut buffer).await {
            Ok(Some(_)) => {}
            Ok(None) => return true,
            Err(_) => return false,
        }
    }
}

async fn drain_uni(connection: Connection) {
    while let Ok(mut stream) = connection.accept_uni().await {
        tokio::spawn(async move { drain(&mut stream).await });
    }
}

async fn drain_bidi(connection: Connection) {
    while let Ok((mut sending, mut receiving)) = connection.accept_bi().await {
        tokio::spawn(async move {
            match drain(&mut receiving).await {
                true => {
                    _ = sending.write_all(b"ok").await;
                    _ = sending.finish().await;
                }
                false => _ = sending.reset(GIVEN_UP.into()),
            }
        });
    }
}
