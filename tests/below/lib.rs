//! Tests of what lies below the service, which no proof covers, and the devices of these and of those above it.

pub mod devices;
#[cfg(test)]
mod journals;
#[cfg(test)]
mod leaves;
