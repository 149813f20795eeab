//! What a service is opened with, as the first line of its log has it.

use crate::json::quoted;
use crate::log::fault::LogFault;
use crate::turns::shards::ShardCount;
use serde::Deserialize;

const FORMAT: u64 = 1;
/// The most tasks that a queue has room for.
pub const MOST_CAPACITY: u32 = 65_536;

/// What a service is opened with.
#[derive(Clone, Debug, PartialEq, Eq)]
pub struct Settings {
    pub shards: ShardCount,
    pub service: u64,
    pub queues: Vec<String>,
    /// How many tasks wait in a queue at most. It may grow while the log is kept, and never falls.
    pub capacity: u32,
    /// For how many milliseconds a workflow that has closed is kept; 0 for ever.
    pub retention: u64,
}

impl Default for Settings {
    fn default() -> Settings {
        Settings {
            shards: ShardCount::ONE,
            service: 1,
            queues: vec!["main".to_string()],
            capacity: 1_024,
            retention: 0,
        }
    }
}

/// The settings that were named on the command line; all others are the log's own, or the defaults of a new one.
#[derive(Clone, Debug, Default, PartialEq, Eq)]
pub struct Named {
    pub shards: Option<ShardCount>,
    pub queues: Option<Vec<String>>,
    pub capacity: Option<u32>,
    pub retention: Option<u64>,
}

/// A log's first line.
#[derive(Deserialize)]
struct Header {
    format: u64,
    #[serde(default)]
    compacted: u64,
    shards: u16,
    service: u64,
    queues: Vec<String>,
    capacity: u32,
    retention: u64,
}

impl Settings {
    /// The settings with those that were named in the place of its own.
    pub fn with(self, named: &Named) -> Settings {
        Settings {
            shards: named.shards.unwrap_or(self.shards),
            service: self.service,
            queues: named.queues.clone().unwrap_or(self.queues),
            capacity: named.capacity.unwrap_or(self.capacity),
            retention: named.retention.unwrap_or(self.retention),
        }
    }

    /// The program's options for it.
    pub fn options(&self) -> Vec<String> {
        let options = [
            ("--shards", self.shards.to_string()),
            ("--service", self.service.to_string()),
            ("--queues", self.queues.join(",")),
            ("--capacity", self.capacity.to_string()),
            ("--retention", self.retention.to_string()),
        ];
        options.into_iter().flat_map(|(name, value)| [name.to_string(), value]).collect()
    }

    /// The first line of a log that was compacted so often.
    pub fn header(&self, generation: u64) -> Vec<u8> {
        let compacted = if generation == 0 { String::new() } else { format!("\"compacted\":{generation},") };
        let queues: Vec<String> = self.queues.iter().map(|queue| quoted(queue)).collect();
        let text = format!(
            "{{\"format\":{FORMAT},{compacted}\"shards\":{},\"service\":{},\"queues\":[{}],\"capacity\":{},\"retention\":{}}}",
            self.shards,
            self.service,
            queues.join(","),
            self.capacity,
            self.retention
        );
        text.into_bytes()
    }

    /// The settings that a log's first line names, and how often the log was compacted.
    pub fn parse_header(header: &[u8], path: &str) -> Result<(Settings, u64), LogFault> {
        let found = serde_json::from_slice(header).ok().filter(|header: &Header| header.format == FORMAT);
        let found = found.and_then(|header| ShardCount::new(header.shards).map(|shards| (header, shards)));
        let (header, shards) =
            found.ok_or_else(|| LogFault::Damaged(format!("{path}: this is no log of format {FORMAT}")))?;
        let Header { compacted, service, queues, capacity, retention, .. } = header;
        Ok((Settings { shards, service, queues, capacity, retention }, compacted))
    }

    /// Refuses a log of other settings, naming the first one that differs. The capacity may.
    pub fn check(&self, wanted: &Settings, path: &str) -> Result<(), LogFault> {
        let compared = [
            ("shards", self.shards.to_string(), wanted.shards.to_string()),
            ("service", self.service.to_string(), wanted.service.to_string()),
            ("queues", self.queues.join(","), wanted.queues.join(",")),
            ("retention", self.retention.to_string(), wanted.retention.to_string()),
        ];
        match compared.into_iter().find(|(_, has, asked)| has != asked) {
            None => Ok(()),
            Some((name, has, asked)) => {
                Err(LogFault::Other(format!("{path}: the log's {name} is {has}, and not {asked}")))
            }
        }
    }
}

#[cfg(test)]
mod tests {
    use super::*;
    use crate::turns::shards::shards;

    #[test]
    fn a_header_is_read_as_it_was_written() {
        let settings = Settings { queues: vec!["a".into(), "ü\"".into()], shards: shards(3), ..Settings::default() };
        for generation in [0, 7] {
            let found = Settings::parse_header(&settings.header(generation), "a.log").unwrap();
            assert_eq!(found, (settings.clone(), generation));
        }
        // As the Python package writes it.
        assert_eq!(
            Settings::default().header(0),
            br#"{"format":1,"shards":1,"service":1,"queues":["main"],"capacity":1024,"retention":0}"#
        );
    }

    #[test]
    fn what_is_no_header_is_refused() {
        for text in ["{}", "[]", r#"{"format":2,"shards":1,"service":1,"queues":[],"capacity":1,"retention":0}"#] {
            let fault = Settings::parse_header(text.as_bytes(), "a.log").unwrap_err();
            assert_eq!(fault.to_string(), "a.log: this is no log of format 1");
        }
    }

    #[test]
    fn a_log_of_other_settings_is_refused_by_the_first_one() {
        let log = Settings { shards: shards(2), capacity: 9, ..Settings::default() };
        let fault = log.check(&Settings { retention: 5, ..Settings::default() }, "a.log").unwrap_err();
        assert_eq!(fault.to_string(), "a.log: the log's shards is 2, and not 1");
        assert!(log.check(&Settings { shards: shards(2), ..Settings::default() }, "a.log").is_ok());
        let named = Named { capacity: Some(7), ..Named::default() };
        assert_eq!(log.with(&named), Settings { shards: shards(2), capacity: 7, ..Settings::default() });
    }
}
