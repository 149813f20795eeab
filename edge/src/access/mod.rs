//! Who makes a call, what he may do, how often, and the log of it.
//!
//! A token has a name and rights, and its calls a limit. Nothing here knows a socket, or what a call is answered: `net` asks
//! who bears a token, and `http` whether he may.

pub mod caller;
pub mod log;
pub mod rate;
pub mod rights;
pub mod tokens;

#[cfg(test)]
mod tests;
