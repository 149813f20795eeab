//! TLS to the database: what the address asks for by `sslmode` and `sslrootcert`, and the handshake, by OpenSSL.
//!
//! The modes are those of PostgreSQL's own clients. `prefer`, the default, is encrypted where the server offers it.
//! `require` is encrypted or refused. Neither looks at who the server is, but `require` with an `sslrootcert`. `verify-ca`
//! and `verify-full` want a certificate that one of the trusted ones has signed: those of the file `sslrootcert`, or the
//! system's. `verify-full` wants it to be of the host that the address names.

use crate::connection::Result;
use native_tls::{Certificate, Protocol};
use std::future::Future;
use std::io;
use std::pin::Pin;
use std::task::{Context, Poll};
use tokio::io::{AsyncRead, AsyncWrite, ReadBuf};
use tokio_postgres::config::SslMode;
use tokio_postgres::tls::{ChannelBinding, MakeTlsConnect, TlsConnect, TlsStream};
use wfedge::log::fault::LogFault;

const END: &str = "-----END CERTIFICATE-----";

/// What of a server's certificate is looked at.
#[derive(Clone, Copy, Debug, PartialEq, Eq)]
enum Looks {
    Nothing,
    Signature,
    SignatureAndHost,
}

/// What an address asks for.
#[derive(Debug)]
pub struct TlsOptions {
    /// The address without that.
    pub address: String,
    pub mode: SslMode,
    looks: Looks,
    roots: Option<String>,
}

fn wrong(said: String) -> LogFault {
    LogFault::Other(format!("the database's address: {said}"))
}

impl TlsOptions {
    /// Reads an address.
    pub fn parse(address: &str) -> Result<TlsOptions> {
        let (place, query) = address.split_once('?').unwrap_or((address, ""));
        let (mut named, mut roots, mut rest) = ("prefer".to_string(), None, Vec::new());
        for pair in query.split('&').filter(|pair| !pair.is_empty()) {
            match pair.split_once('=') {
                Some(("sslmode", value)) => named = unescaped(value),
                Some(("sslrootcert", value)) => roots = Some(unescaped(value)),
                _ => rest.push(pair),
            }
        }
        let (mode, looks) = match (named.as_str(), &roots) {
            ("disable", _) => (SslMode::Disable, Looks::Nothing),
            ("prefer", _) => (SslMode::Prefer, Looks::Nothing),
            ("require", None) => (SslMode::Require, Looks::Nothing),
            ("require", Some(_)) | ("verify-ca", _) => (SslMode::Require, Looks::Signature),
            ("verify-full", _) => (SslMode::Require, Looks::SignatureAndHost),
            (other, _) => {
                let said = "disable, prefer, require, verify-ca or verify-full";
                return Err(wrong(format!("sslmode is {said}, and not {other}")));
            }
        };
        let query = if rest.is_empty() { String::new() } else { format!("?{}", rest.join("&")) };
        Ok(TlsOptions { address: format!("{place}{query}"), mode, looks, roots })
    }

    /// What makes the handshakes.
    pub fn tls(&self) -> Result<Tls> {
        let failed = |fault: native_tls::Error| wrong(format!("TLS: {fault}"));
        let mut builder = native_tls::TlsConnector::builder();
        builder.min_protocol_version(Some(Protocol::Tlsv12));
        builder.danger_accept_invalid_certs(self.looks == Looks::Nothing);
        builder.danger_accept_invalid_hostnames(self.looks != Looks::SignatureAndHost);
        if let (Some(path), true) = (&self.roots, self.looks != Looks::Nothing) {
            builder.disable_built_in_roots(true);
            for root in certificates_in(path)? {
                builder.add_root_certificate(root);
            }
        }
        Ok(Tls(builder.build().map_err(failed)?.into()))
    }
}

/// The certificates of a file, of which there is one at least.
fn certificates_in(path: &str) -> Result<Vec<Certificate>> {
    let text = std::fs::read_to_string(path).map_err(|fault| wrong(format!("sslrootcert: {path}: {fault}")))?;
    let pieces = text.split_inclusive(END).filter(|piece| piece.contains(END));
    let read = |piece: &str| {
        Certificate::from_pem(piece.as_bytes()).map_err(|fault| wrong(format!("sslrootcert: {path}: {fault}")))
    };
    let found = pieces.map(read).collect::<Result<Vec<_>>>()?;
    if found.is_empty() {
        return Err(wrong(format!("sslrootcert: {path} has no certificate")));
    }
    Ok(found)
}

/// A text without the escapes that an address has.
fn unescaped(text: &str) -> String {
    let (mut found, mut rest) = (Vec::new(), text.as_bytes());
    while let Some((first, others)) = rest.split_first() {
        let digits = others.get(..2).and_then(|digits| std::str::from_utf8(digits).ok());
        let byte = digits.filter(|_| *first == b'%').and_then(|digits| u8::from_str_radix(digits, 16).ok());
        found.push(byte.unwrap_or(*first));
        rest = if byte.is_some() { &others[2..] } else { others };
    }
    String::from_utf8_lossy(&found).into_owned()
}

/// Makes handshakes with servers.
#[derive(Clone)]
pub struct Tls(tokio_native_tls::TlsConnector);

/// Makes the handshake with the server of a host.
pub struct WithHost {
    tls: Tls,
    host: String,
}

/// An encrypted connection.
pub struct Encrypted<S>(tokio_native_tls::TlsStream<S>);

impl<S: AsyncRead + AsyncWrite + Unpin + Send + 'static> MakeTlsConnect<S> for Tls {
    type Stream = Encrypted<S>;
    type TlsConnect = WithHost;
    type Error = native_tls::Error;

    fn make_tls_connect(&mut self, host: &str) -> std::result::Result<WithHost, native_tls::Error> {
        Ok(WithHost { tls: self.clone(), host: host.to_string() })
    }
}

impl<S: AsyncRead + AsyncWrite + Unpin + Send + 'static> TlsConnect<S> for WithHost {
    type Stream = Encrypted<S>;
    type Error = native_tls::Error;
    type Future = Pin<Box<dyn Future<Output = std::result::Result<Encrypted<S>, native_tls::Error>> + Send>>;

    fn connect(self, stream: S) -> Self::Future {
        Box::pin(async move { self.tls.0.connect(&self.host, stream).await.map(Encrypted) })
    }
}

impl<S: AsyncRead + AsyncWrite + Unpin> TlsStream for Encrypted<S> {
    fn channel_binding(&self) -> ChannelBinding {
        match self.0.get_ref().tls_server_end_point() {
            Ok(Some(point)) => ChannelBinding::tls_server_end_point(point),
            _ => ChannelBinding::none(),
        }
    }
}

impl<S: AsyncRead + AsyncWrite + Unpin> AsyncRead for Encrypted<S> {
    fn poll_read(mut self: Pin<&mut Self>, context: &mut Context<'_>, into: &mut ReadBuf<'_>) -> Poll<io::Result<()>> {
        Pin::new(&mut self.0).poll_read(context, into)
    }
}

impl<S: AsyncRead + AsyncWrite + Unpin> AsyncWrite for Encrypted<S> {
    fn poll_write(mut self: Pin<&mut Self>, context: &mut Context<'_>, data: &[u8]) -> Poll<io::Result<usize>> {
        Pin::new(&mut self.0).poll_write(context, data)
    }

    fn poll_flush(mut self: Pin<&mut Self>, context: &mut Context<'_>) -> Poll<io::Result<()>> {
        Pin::new(&mut self.0).poll_flush(context)
    }

    fn poll_shutdown(mut self: Pin<&mut Self>, context: &mut Context<'_>) -> Poll<io::Result<()>> {
        Pin::new(&mut self.0).poll_shutdown(context)
    }
}

#[cfg(test)]
mod tests {
    use super::*;

    #[test]
    fn an_address_says_what_it_asks_for() {
        for (query, address, mode, looks) in [
            ("", "", SslMode::Prefer, Looks::Nothing),
            ("?sslmode=disable&options=a%3Db", "?options=a%3Db", SslMode::Disable, Looks::Nothing),
            ("?sslmode=require", "", SslMode::Require, Looks::Nothing),
            ("?host=a&sslmode=require&sslrootcert=/x%20y&port=1", "?host=a&port=1", SslMode::Require, Looks::Signature),
            ("?sslmode=verify-ca", "", SslMode::Require, Looks::Signature),
            ("?sslmode=verify-full", "", SslMode::Require, Looks::SignatureAndHost),
        ] {
            let asked = TlsOptions::parse(&format!("postgres://wf@db/orders{query}")).unwrap();
            assert_eq!((asked.mode, asked.looks), (mode, looks), "{query}");
            assert_eq!(asked.address, format!("postgres://wf@db/orders{address}"));
            assert_eq!(asked.roots, query.contains("sslrootcert").then(|| "/x y".to_string()));
        }
    }

    #[test]
    fn what_can_not_be_had_is_refused_by_name() {
        let said = |query: &str| {
            let asked = TlsOptions::parse(&format!("postgres://wf@db/orders?{query}"));
            asked.and_then(|asked| asked.tls().map(drop)).unwrap_err().to_string()
        };
        assert!(said("sslmode=allow").contains("and not allow"));
        assert!(said("sslmode=verify-full&sslrootcert=/nowhere").contains("sslrootcert: /nowhere: No such file"));
        assert!(said("sslmode=verify-ca&sslrootcert=/dev/null").contains("/dev/null has no certificate"));
    }
}
