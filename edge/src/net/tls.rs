//! TLS for the clients of this edge: its certificate and key, and whose certificates it takes. All of it by rustls: TLS 1.2
//! and 1.3, without what is weak in the former.

use crate::os::stderr::report;
use rustls_pemfile::Item;
use std::fs;
use std::io;
use std::sync::{Arc, Mutex, MutexGuard, PoisonError};
use std::time::{Duration, Instant};
use tokio::io::{AsyncReadExt, AsyncWriteExt};
use tokio::net::TcpStream;
use tokio::time::timeout;
use tokio_rustls::rustls::server::AllowAnyAnonymousOrAuthenticatedClient;
use tokio_rustls::rustls::sign::any_supported_type;
use tokio_rustls::rustls::{Certificate, PrivateKey, RootCertStore, ServerConfig, SignatureScheme};
use tokio_rustls::server::TlsStream;
use tokio_rustls::webpki::{self, EndEntityCert, SignatureAlgorithm};
use tokio_rustls::TlsAcceptor;

/// The first byte of a TLS handshake.
const HANDSHAKE: u8 = 22;
/// What is said to a client that speaks HTTP without TLS.
const NOT_ENCRYPTED: &[u8] =
    b"HTTP/1.1 400 Bad Request\r\ncontent-type: application/json; charset=utf-8\r\nconnection: close\r\n\
content-length: 71\r\n\r\n{\"error\": \"NotEncrypted\", \"said\": \"this port is served by https alone\"}";
/// So long, and so many bytes, what a refused client still sends is dropped: it reads why it was refused then, and no reset.
const LINGERS: Duration = Duration::from_secs(1);
const DROPPED: usize = 1 << 16;
/// What is signed by a key to see whose it is.
const SIGNED: &[u8] = b"wfedge";
/// Refused handshakes are said once in so long.
const BETWEEN_REPORTS: Duration = Duration::from_secs(1);

/// The files that TLS is made of, all of them PEM.
#[derive(Clone, Debug, PartialEq, Eq)]
pub struct TlsFiles {
    /// The edge's certificate, and those between it and one that clients trust.
    pub cert: String,
    pub key: String,
    /// The certificates that have signed those of clients; none where clients need no certificate.
    pub client_ca: Option<String>,
}

/// What makes the handshakes with clients.
pub struct Tls {
    files: TlsFiles,
    config: Mutex<Arc<ServerConfig>>,
    last_report: Mutex<Option<Instant>>,
}

/// A client, once the handshake with it was made.
pub struct Greeted {
    pub stream: TlsStream<TcpStream>,
    /// Whether it has shown a certificate, where one is wanted. One that is not good is refused in the handshake.
    pub is_certified: bool,
}

impl Tls {
    /// Reads the files, or says which is wrong.
    pub fn open(files: TlsFiles) -> Result<Tls, String> {
        let config = Mutex::new(config_of(&files)?);
        Ok(Tls { files, config, last_report: Mutex::new(None) })
    }

    /// Reads the files again, for connections that come from now on. Where one is wrong, those before go on to count.
    pub fn read_again(&self) -> Result<(), String> {
        let config = config_of(&self.files)?;
        *lock(&self.config) = config;
        Ok(())
    }

    /// Makes the handshake with a client within so long. None where it can't be made.
    pub async fn greet(&self, socket: TcpStream, most: Duration) -> Option<Greeted> {
        let greeting = async {
            let mut first = [0];
            if socket.peek(&mut first).await? == 1 && first[0] != HANDSHAKE {
                let _ = socket.try_write(NOT_ENCRYPTED);
                linger(socket).await;
                return Ok(None);
            }
            let config = lock(&self.config).clone();
            match TlsAcceptor::from(config).accept(socket).into_fallible().await {
                Ok(stream) => Ok(Some(stream)),
                Err((fault, socket)) => {
                    self.report(&fault);
                    linger(socket).await;
                    Err(fault)
                }
            }
        };
        let stream = timeout(most, greeting).await.ok()?.ok()??;
        let is_certified = self.files.client_ca.is_none() || stream.get_ref().1.peer_certificates().is_some();
        Some(Greeted { stream, is_certified })
    }

    /// Says why a client was refused, but not for each of many. One that just hangs up is none of these.
    fn report(&self, fault: &io::Error) {
        let mut last = lock(&self.last_report);
        if fault.kind() == io::ErrorKind::InvalidData && last.map_or(true, |last| last.elapsed() >= BETWEEN_REPORTS) {
            *last = Some(Instant::now());
            drop(last);
            report!("TLS: a client was refused: {fault}");
        }
    }
}

/// Ends the own half of a connection, and drops what its client still sends.
async fn linger(mut socket: TcpStream) {
    let dropping = async {
        let (mut room, mut dropped) = ([0; 1 << 12], 0);
        socket.shutdown().await?;
        while dropped < DROPPED {
            match socket.read(&mut room).await? {
                0 => break,
                count => dropped += count,
            }
        }
        Ok::<(), io::Error>(())
    };
    let _ = timeout(LINGERS, dropping).await;
}

fn lock<T>(mutex: &Mutex<T>) -> MutexGuard<'_, T> {
    mutex.lock().unwrap_or_else(PoisonError::into_inner)
}

fn config_of(files: &TlsFiles) -> Result<Arc<ServerConfig>, String> {
    let builder = ServerConfig::builder().with_safe_defaults();
    let builder = match &files.client_ca {
        None => builder.with_no_client_auth(),
        // Who has no certificate is told so by HTTP, which every client shows.
        Some(path) => builder.with_client_cert_verifier(AllowAnyAnonymousOrAuthenticatedClient::new(roots_in(path)?)),
    };
    let (chain, key) = (certificates_in(&files.cert)?, key_in(&files.key)?);
    if !is_key_of(&chain[0], &key) {
        return Err(format!("{}: it is not the key of the first certificate of {}", files.key, files.cert));
    }
    let mut config = builder.with_single_cert(chain, key).map_err(|fault| format!("{}: {fault}", files.key))?;
    config.alpn_protocols = vec![b"http/1.1".to_vec()];
    Ok(Arc::new(config))
}

fn items_in(path: &str) -> Result<Vec<Item>, String> {
    let text = fs::read(path).map_err(|fault| format!("{path}: {fault}"))?;
    rustls_pemfile::read_all(&mut text.as_slice()).map_err(|fault| format!("{path}: {fault}"))
}

/// The certificates of a file, of which there is one at least.
fn certificates_in(path: &str) -> Result<Vec<Certificate>, String> {
    let certificates: Vec<Certificate> = items_in(path)?
        .into_iter()
        .filter_map(|item| match item {
            Item::X509Certificate(der) => Some(Certificate(der)),
            _ => None,
        })
        .collect();
    if certificates.is_empty() {
        return Err(format!("{path}: it has no certificate"));
    }
    Ok(certificates)
}

/// The first private key of a file.
fn key_in(path: &str) -> Result<PrivateKey, String> {
    let key = items_in(path)?.into_iter().find_map(|item| match item {
        Item::PKCS8Key(der) | Item::RSAKey(der) | Item::ECKey(der) => Some(PrivateKey(der)),
        _ => None,
    });
    key.ok_or_else(|| format!("{path}: it has no private key without a password"))
}

/// Whether what this key signs is what the certificate's holder signs. One of the two may have been exchanged alone.
fn is_key_of(certificate: &Certificate, key: &PrivateKey) -> bool {
    let (key, certificate) = match (any_supported_type(key), EndEntityCert::try_from(certificate.0.as_slice())) {
        (Ok(key), Ok(certificate)) => (key, certificate),
        _ => return false,
    };
    let kinds: [(SignatureScheme, &SignatureAlgorithm); 4] = [
        (SignatureScheme::ECDSA_NISTP256_SHA256, &webpki::ECDSA_P256_SHA256),
        (SignatureScheme::ECDSA_NISTP384_SHA384, &webpki::ECDSA_P384_SHA384),
        (SignatureScheme::ED25519, &webpki::ED25519),
        (SignatureScheme::RSA_PKCS1_SHA256, &webpki::RSA_PKCS1_2048_8192_SHA256),
    ];
    kinds.into_iter().any(|(scheme, algorithm)| {
        let signed = key.choose_scheme(&[scheme]).and_then(|signer| signer.sign(SIGNED).ok());
        signed.map_or(false, |signed| certificate.verify_signature(algorithm, SIGNED, &signed).is_ok())
    })
}

fn roots_in(path: &str) -> Result<RootCertStore, String> {
    let mut roots = RootCertStore::empty();
    for certificate in certificates_in(path)? {
        roots.add(&certificate).map_err(|fault| format!("{path}: {fault}"))?;
    }
    Ok(roots)
}
