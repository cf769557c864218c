//! gateway PORT FOLDER CERTIFICATE KEY: the dryer's gateway on 127.0.0.1, over quinn. PORT 0 takes any; FOLDER holds the settings; the certificate and its
//! key are PEM files. SIGTERM: our GOAWAY, open requests are let finish for up to two seconds, then every connection is closed. It serves in a child of its own,
//! which is started again should a panic end it.

#![deny(unsafe_code)]

mod gateway;
mod guard;
mod http;
mod places;
mod qpack;
mod supervisor;

use quinn::{Endpoint, EndpointConfig, IdleTimeout, ServerConfig, TokioRuntime, TransportConfig, VarInt};
use std::cell::Cell;
use std::error::Error;
use std::net::{SocketAddr, UdpSocket};
use std::os::fd::AsFd;
use std::process::ExitCode;
use std::rc::Rc;
use std::sync::Arc;
use std::time::Duration;
use std::{env, fs, io, process};
use tokio::signal::unix::{signal, SignalKind};
use tokio::sync::watch;
use tokio::task::{spawn_local, LocalSet};
use tokio::time::timeout;

const VERSION: u32 = 1; // of QUIC, alone
const CONNECTIONS: u32 = 4096; // beyond it quinn takes no more: above our places, and those that are closing
const RETRY_FROM: usize = 64; // half-open connections from which on a client must show that it is where it says
const HANDSHAKE: Duration = Duration::from_secs(10);
const REQUESTS_AT_ONCE: u32 = 21; // the row has 24 records for both kinds
const ONEWAYS_AT_ONCE: u32 = 3;
const WINDOW: u32 = 256 << 10;
const IDLE: Duration = Duration::from_secs(30);
const DRAIN: Duration = Duration::from_secs(2);
const NO_ERROR: u32 = 0x0100;

type Failed = Box<dyn Error>;

fn tls(certificate: &str, key: &str) -> Result<rustls::ServerConfig, Failed> {
    let chain = rustls_pemfile::certs(&mut &fs::read(certificate)?[..])?
        .into_iter()
        .map(rustls::Certificate)
        .collect();
    let key =
        rustls_pemfile::pkcs8_private_keys(&mut &fs::read(key)?[..])?.pop().ok_or("no key in PKCS #8")?;
    let mut tls = rustls::ServerConfig::builder()
        .with_safe_default_cipher_suites()
        .with_safe_default_kx_groups()
        .with_protocol_versions(&[&rustls::version::TLS13])?
        .with_no_client_auth()
        .with_single_cert(chain, rustls::PrivateKey(key))?;
    tls.alpn_protocols = vec![b"h3".to_vec()];
    tls.max_early_data_size = 0; // bytes of 0-RTT can be sent again by others
    Ok(tls)
}

fn quic(tls: rustls::ServerConfig) -> Result<ServerConfig, Failed> {
    let mut transport = TransportConfig::default();
    transport
        .max_concurrent_bidi_streams(VarInt::from_u32(REQUESTS_AT_ONCE))
        .max_concurrent_uni_streams(VarInt::from_u32(ONEWAYS_AT_ONCE))
        .stream_receive_window(VarInt::from_u32(WINDOW))
        .receive_window(VarInt::from_u32(WINDOW))
        .send_window(u64::from(WINDOW))
        .datagram_receive_buffer_size(None)
        .max_idle_timeout(Some(IdleTimeout::try_from(IDLE)?));
    let mut config = ServerConfig::with_crypto(Arc::new(guard::Guarded(Arc::new(tls))));
    config.transport_config(Arc::new(transport)).concurrent_connections(CONNECTIONS).migration(false);
    Ok(config)
}

/// How many handshakes are under way. Once they were too many, quinn asks new clients for a token, and goes on to: were it told to stop, it would take a
/// client that comes with its token for one that never had any, and the client would give up.
struct Half {
    count: Cell<usize>,
    asks: Cell<bool>,
    endpoint: Endpoint,
    config: ServerConfig,
}

impl Half {
    fn set(&self, count: usize) {
        self.count.set(count);
        if count >= RETRY_FROM && !self.asks.replace(true) {
            let mut config = self.config.clone();
            config.use_retry(true);
            self.endpoint.set_server_config(Some(config));
        }
    }
}

async fn serve(socket: UdpSocket, words: &[String]) -> Result<(), Failed> {
    let [folder, certificate, key] = words else { return Err("no such words".into()) };
    let (stop, stopping) = watch::channel(false);
    let server = Rc::new(http::Server {
        gateway: gateway::Gateway::open(folder)?,
        held: Cell::new(0),
        places: places::Places::default(),
        stopping,
    });
    let mut common = EndpointConfig::default();
    common.supported_versions(vec![VERSION]);
    let config = quic(tls(certificate, key)?)?;
    let endpoint = Endpoint::new(common, Some(config.clone()), socket, TokioRuntime)?;
    let half =
        Rc::new(Half { count: Cell::new(0), asks: Cell::new(false), endpoint: endpoint.clone(), config });
    let mut terminated = signal(SignalKind::terminate())?;
    println!("process {} serves", process::id());
    loop {
        tokio::select! {
            _ = terminated.recv() => break,
            Some(connecting) = endpoint.accept() => {
                let (server, half) = (server.clone(), half.clone());
                half.set(half.count.get() + 1);
                spawn_local(async move {
                    let connected = timeout(HANDSHAKE, connecting).await;
                    if !*server.stopping.borrow() {
                        half.set(half.count.get() - 1);
                    }
                    if let Ok(Ok(connection)) = connected {
                        http::serve(server, connection).await;
                    }
                });
            }
        }
    }
    stop.send(true)?;
    endpoint.set_server_config(None); // no new connections
    let _ = timeout(DRAIN, endpoint.wait_idle()).await;
    endpoint.close(VarInt::from_u32(NO_ERROR), b"");
    let _ = timeout(DRAIN, endpoint.wait_idle()).await;
    println!("stopped");
    Ok(())
}

#[tokio::main(flavor = "current_thread")]
async fn main() -> Result<ExitCode, Failed> {
    let words: Vec<String> = env::args().skip(1).collect();
    if let [supervisor::SERVE, ..] = words.iter().map(String::as_str).collect::<Vec<_>>()[..] {
        let socket = UdpSocket::from(io::stdin().as_fd().try_clone_to_owned()?);
        guard::hush();
        LocalSet::new().run_until(serve(socket, &words[1..])).await?;
        return Ok(ExitCode::SUCCESS);
    }
    let [port, _, certificate, _] = &words[..] else {
        return Err("usage: gateway PORT FOLDER CERTIFICATE KEY".into());
    };
    let socket = UdpSocket::bind(SocketAddr::from(([127, 0, 0, 1], port.parse()?)))?;
    println!("listening on {}, certificate {certificate}", socket.local_addr()?);
    supervisor::supervise(socket, &words[1..]).await
}
