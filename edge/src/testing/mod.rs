//! What tests share: folders that go with them, and waiting with a limit. None of it is in the edge that is built to serve.

pub mod scratch;
pub mod test_wait;
