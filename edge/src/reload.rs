//! What is read again at SIGHUP: tokens, certificates, and the name of the log of access.

use crate::access::log::AccessLog;
use crate::access::tokens::TokenFile;
use crate::net::tls::Tls;
use crate::os::stderr::report;
use std::sync::Arc;
use tokio::signal::unix::Signal;

/// What is read again, where it is used.
#[derive(Clone, Default)]
pub struct Reload {
    pub tokens: Option<Arc<TokenFile>>,
    pub tls: Option<Arc<Tls>>,
    pub access: Option<Arc<AccessLog>>,
}

impl Reload {
    /// Whether there is something. Without it SIGHUP ends the edge, as it ends any program.
    pub fn has_any(&self) -> bool {
        self.tokens.is_some() || self.tls.is_some() || self.access.is_some()
    }

    /// Reads all of it again at each signal, until this is dropped.
    pub async fn at_each(self, mut signal: Signal) {
        while signal.recv().await.is_some() {
            self.read_again();
        }
    }

    /// Reads all of it again. What can't be read stays as it was, and is said.
    pub fn read_again(&self) {
        match self.tokens.as_ref().map(|tokens| tokens.read_again()) {
            Some(Ok(count)) => report!("{count} tokens count from now on"),
            Some(Err(fault)) => report!("the tokens before go on to count: {fault}"),
            None => {}
        }
        match self.tls.as_ref().map(|tls| tls.read_again()) {
            Some(Ok(())) => report!("the certificates are read again"),
            Some(Err(fault)) => report!("the certificates before go on to count: {fault}"),
            None => {}
        }
        if let Some(access) = &self.access {
            access.open_again();
        }
    }
}
