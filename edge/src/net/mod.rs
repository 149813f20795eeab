//! Connections: which sockets are listened on, who may ask, how one is closed.
//!
//! Nothing here knows what a call is, or what the service answers.

pub mod guard;
pub mod lingering;
pub mod listen;
pub mod stream;
pub mod tls;
