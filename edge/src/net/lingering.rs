//! A socket that is closed only once its client has read what it was told.
//!
//! A refusal may be answered before all of its request has come. Where the socket is closed then, the system drops what
//! the client sends still and resets the connection, so the client reads of that in the place of the answer. So the edge
//! ends its own half alone, and drops what comes, until the client has closed its half too or the time for that is over.

use crate::net::listen::Activity;
use std::future::Future;
use std::io::{IoSlice, Result};
use std::pin::Pin;
use std::sync::Arc;
use std::task::{Context, Poll};
use std::time::Duration;
use tokio::io::{AsyncRead, AsyncWrite, ReadBuf};
use tokio::time::{sleep, Sleep};

/// So much of what a client still sends is dropped, and it is cut off beyond that.
const DROPPED: usize = 16 << 20;
const DROPPED_AT_ONCE: usize = 1 << 14;

/// A socket of a connection on which this is going on.
pub struct Lingering<S> {
    socket: S,
    /// What was read of it before, of which the first bytes were handed on.
    before: Vec<u8>,
    handed: usize,
    activity: Arc<Activity>,
    /// For how long it may linger, and until when it does once its own half has ended.
    most: Duration,
    late: Option<Pin<Box<Sleep>>>,
    dropped: usize,
    /// Whether the client has closed its half.
    is_ended: bool,
}

impl<S> Lingering<S> {
    pub fn new(socket: S, before: Vec<u8>, activity: Arc<Activity>, most: Duration) -> Lingering<S> {
        Lingering { socket, before, handed: 0, activity, most, late: None, dropped: 0, is_ended: false }
    }
}

impl<S: AsyncRead + Unpin> Lingering<S> {
    /// Drops what comes; ready once nothing does any more, or no longer may.
    fn poll_drop(&mut self, late: Pin<&mut Sleep>, context: &mut Context<'_>) -> Poll<()> {
        if late.poll(context).is_ready() || !self.activity.lingers() {
            return Poll::Ready(());
        }
        let mut space = [0; DROPPED_AT_ONCE];
        while self.dropped < DROPPED {
            let mut piece = ReadBuf::new(&mut space);
            match Pin::new(&mut self.socket).poll_read(context, &mut piece) {
                Poll::Ready(Ok(())) if !piece.filled().is_empty() => self.dropped += piece.filled().len(),
                Poll::Ready(_) => return Poll::Ready(()),
                Poll::Pending => return Poll::Pending,
            }
        }
        Poll::Ready(())
    }
}

impl<S: AsyncRead + Unpin> AsyncRead for Lingering<S> {
    fn poll_read(mut self: Pin<&mut Self>, context: &mut Context<'_>, into: &mut ReadBuf<'_>) -> Poll<Result<()>> {
        if self.handed < self.before.len() {
            let count = into.remaining().min(self.before.len() - self.handed);
            into.put_slice(&self.before[self.handed..self.handed + count]);
            self.handed += count;
            return Poll::Ready(Ok(()));
        }
        let before = into.filled().len();
        let read = Pin::new(&mut self.socket).poll_read(context, into);
        self.is_ended |= matches!(read, Poll::Ready(_)) && into.filled().len() == before && into.capacity() > before;
        read
    }
}

impl<S: AsyncRead + AsyncWrite + Unpin> AsyncWrite for Lingering<S> {
    fn poll_write(mut self: Pin<&mut Self>, context: &mut Context<'_>, data: &[u8]) -> Poll<Result<usize>> {
        Pin::new(&mut self.socket).poll_write(context, data)
    }

    fn poll_write_vectored(
        mut self: Pin<&mut Self>,
        context: &mut Context<'_>,
        data: &[IoSlice<'_>],
    ) -> Poll<Result<usize>> {
        Pin::new(&mut self.socket).poll_write_vectored(context, data)
    }

    fn is_write_vectored(&self) -> bool {
        self.socket.is_write_vectored()
    }

    fn poll_flush(mut self: Pin<&mut Self>, context: &mut Context<'_>) -> Poll<Result<()>> {
        Pin::new(&mut self.socket).poll_flush(context)
    }

    fn poll_shutdown(mut self: Pin<&mut Self>, context: &mut Context<'_>) -> Poll<Result<()>> {
        let mut late = match self.late.take() {
            Some(late) => late,
            None => {
                match Pin::new(&mut self.socket).poll_shutdown(context) {
                    Poll::Ready(Ok(())) if !self.is_ended && self.activity.lingers() => {}
                    ended => return ended,
                }
                Box::pin(sleep(self.most))
            }
        };
        let dropped = self.poll_drop(late.as_mut(), context);
        self.late = Some(late);
        dropped.map(Ok)
    }
}

#[cfg(test)]
mod tests {
    use super::*;
    use tokio::io::{duplex, AsyncReadExt, AsyncWriteExt, DuplexStream};
    use tokio::task::JoinHandle;

    /// The client's end of a connection that is closed by the other end, which has written its answer.
    async fn closed(activity: Activity, most: Duration) -> (DuplexStream, JoinHandle<()>) {
        let (client, server) = duplex(1 << 10);
        let mut server = Lingering::new(server, Vec::new(), Arc::new(activity), most);
        let closing = tokio::spawn(async move {
            server.write_all(b"answer").await.unwrap();
            server.shutdown().await.unwrap();
        });
        (client, closing)
    }

    fn run(test: impl Future<Output = ()>) {
        tokio::runtime::Builder::new_current_thread().enable_all().build().unwrap().block_on(test);
    }

    #[test]
    fn a_client_sends_all_and_reads_the_answer() {
        run(async {
            let (mut client, closing) = closed(Activity::new(), Duration::from_secs(600)).await;
            for _ in 0..10 {
                client.write_all(&[b'x'; 5_000]).await.unwrap();
            }
            let mut text = String::new();
            client.read_to_string(&mut text).await.unwrap();
            assert_eq!((text.as_str(), closing.is_finished()), ("answer", false));
            drop(client);
            closing.await.unwrap();
        });
    }

    #[test]
    fn a_client_that_sends_too_much_or_too_long_is_cut_off() {
        run(async {
            let (mut client, _) = closed(Activity::new(), Duration::from_secs(600)).await;
            assert!(client.write_all(&vec![b'x'; DROPPED + (1 << 16)]).await.is_err());
            let (_client, closing) = closed(Activity::new(), Duration::from_millis(20)).await;
            closing.await.unwrap();
        });
    }

    #[test]
    fn a_connection_on_which_nothing_is_going_on_ends_at_once_where_the_edge_stops() {
        run(async {
            let activity = Activity::new();
            activity.stop();
            let (_client, closing) = closed(activity, Duration::from_secs(600)).await;
            closing.await.unwrap();
            let activity = Activity::new();
            activity.stop();
            activity.leave_unread();
            let (_other, closing) = closed(activity, Duration::from_millis(50)).await;
            assert!(!closing.is_finished());
            closing.await.unwrap();
        });
    }
}
