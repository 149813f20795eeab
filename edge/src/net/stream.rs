//! A client's connection: plain, or by TLS.

use tokio::io::{AsyncRead, AsyncWrite};
use tokio::net::TcpStream;
use tokio_rustls::server::TlsStream;

/// A connection by which HTTP is spoken.
pub trait Stream: AsyncRead + AsyncWrite + Unpin + Send + 'static {
    /// Whether its end is to be told in its own words before it is closed.
    const HAS_GOODBYE: bool;

    /// Writes what may be written at once, with no word to the system's poll. How many bytes that was.
    fn write_at_once(&mut self, data: &[u8]) -> usize;
}

impl Stream for TcpStream {
    const HAS_GOODBYE: bool = false;

    fn write_at_once(&mut self, data: &[u8]) -> usize {
        // A fault shows where the rest is written.
        self.try_write(data).unwrap_or(0)
    }
}

impl Stream for TlsStream<TcpStream> {
    const HAS_GOODBYE: bool = true;

    fn write_at_once(&mut self, _: &[u8]) -> usize {
        0
    }
}
