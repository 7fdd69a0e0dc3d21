//! What may be asked: a line of JSON in, a request or one sentence on what is wrong with it out.
//!
//! A request is an object with the fields `version` and `request`, and those of its kind. Of a field that is there twice the last one counts.

#![forbid(unsafe_code)]

use std::time::Duration;

use serde_json::{Map, Value};

use crate::mediation::limits::{LEAST_BYTES, MOST_BYTES, MOST_IOPS};

/// The version of requests and replies. It changes where one that was good would not be any more, or would mean something else.
pub const VERSION: u64 = 1;
/// The most bytes of a line, without its line feed.
pub const MOST_LINE: usize = 4096;
/// How long a drain is waited for, where the request does not say it; and the longest that it may say.
const WAIT: u64 = 30;
const MOST_WAIT: u64 = 600;
/// The highest number of a guest that there may be.
const MOST_GUEST: u64 = crate::config::MOST_GUESTS as u64 - 1;
/// Characters of a word that an error repeats.
const SHOWN: usize = 40;

/// How figures are given.
#[derive(Clone, Copy, Debug, Default, PartialEq, Eq)]
pub enum Format {
    /// As JSON.
    #[default]
    Json,
    /// As a text in Prometheus' format.
    Prometheus,
}

/// What is asked for.
#[derive(Clone, Copy, Debug, PartialEq, Eq)]
pub enum Request {
    /// What guests, lanes and the drive are at.
    State,
    /// How many commands guests had, and how long they took.
    Figures(Format),
    /// A guest's limits.
    Limit {
        /// The guest.
        guest: usize,
        /// Commands a second. `None`: as before; `Some(None)`: as many as it likes.
        iops: Option<Option<u64>>,
        /// Bytes a second, in the same way.
        bytes: Option<Option<u64>>,
    },
    /// No commands of guests are taken any more. The reply comes where all that were taken have run out, or after so long.
    Drain {
        /// The longest wait for the reply: at most ten minutes.
        wait: Duration,
    },
    /// Commands are taken again.
    Resume,
    /// The program ends, as by a signal.
    End,
}

/// The names of all requests, for messages.
const NAMES: &str = "state, figures, limit, drain, resume and end";

/// What is wrong with a line.
#[derive(Clone, Debug, PartialEq, Eq, thiserror::Error)]
pub enum RequestError {
    /// No line ends within the limit.
    #[error("the line is longer than {MOST_LINE} bytes: a request is one object in one line")]
    TooLong,
    /// The connection ended within a line.
    #[error("the last line has no line feed at its end, so it is not carried out")]
    Half,
    /// It is not JSON, or not in UTF-8, or nested too deeply.
    #[error("the line is no JSON, from its column {0} on")]
    NoJson(usize),
    /// It is another value.
    #[error("the line is no object: a request is like {{\"version\":{VERSION},\"request\":\"state\"}}")]
    NoObject,
    /// A field that has to be there is not.
    #[error("the field \"{0}\" is missing")]
    Missing(&'static str),
    /// Another version.
    #[error("the version is {0}, and this program speaks version {VERSION}")]
    Version(u64),
    /// There is no such request.
    #[error("there is no request \"{0}\": there are {NAMES}")]
    Unknown(String),
    /// The request has no such field.
    #[error("the request \"{request}\" has no field \"{field}\"")]
    Field {
        /// The request.
        request: String,
        /// The beginning of the field's name.
        field: String,
    },
    /// A field's value is none that it may have.
    #[error("the field \"{field}\" is no {wanted}")]
    Value {
        /// The field.
        field: &'static str,
        /// What it has to be.
        wanted: String,
    },
}

/// The beginning of a text of a client.
fn shown(text: &str) -> String {
    text.chars().take(SHOWN).collect()
}

/// The fields of a request that were not looked at yet.
struct Fields(Map<String, Value>);

impl Fields {
    /// A number from 0 to `most`, or `None` where the field is not there.
    fn number(&mut self, field: &'static str, most: u64) -> Result<Option<u64>, RequestError> {
        let Some(value) = self.0.remove(field) else {
            return Ok(None);
        };
        let number = value.as_u64().filter(|&number| number <= most);
        number.map(Some).ok_or_else(|| RequestError::Value {
            field,
            wanted: format!("whole number from 0 to {most}"),
        })
    }

    /// A number from `least` to `most` or null, or `None` where the field is not there.
    fn rate(&mut self, field: &'static str, least: u64, most: u64) -> Result<Option<Option<u64>>, RequestError> {
        match self.0.remove(field) {
            None => Ok(None),
            Some(Value::Null) => Ok(Some(None)),
            Some(value) => match value.as_u64() {
                Some(rate) if (least..=most).contains(&rate) => Ok(Some(Some(rate))),
                _ => Err(RequestError::Value {
                    field,
                    wanted: format!("whole number from {least} to {most}, and not null"),
                }),
            },
        }
    }

    fn text(&mut self, field: &'static str) -> Result<Option<String>, RequestError> {
        match self.0.remove(field) {
            None => Ok(None),
            Some(Value::String(text)) => Ok(Some(text)),
            Some(_) => Err(RequestError::Value {
                field,
                wanted: String::from("string"),
            }),
        }
    }

    /// All were looked at.
    fn finish(self, request: &str) -> Result<(), RequestError> {
        match self.0.keys().next() {
            None => Ok(()),
            Some(field) => Err(RequestError::Field {
                request: request.to_owned(),
                field: shown(field),
            }),
        }
    }
}

impl Request {
    /// The request of a line, which is without its line feed.
    ///
    /// # Errors
    ///
    /// See [`RequestError`]: the first thing that is wrong.
    pub fn parse(line: &[u8]) -> Result<Self, RequestError> {
        if line.len() > MOST_LINE {
            return Err(RequestError::TooLong);
        }
        let value = serde_json::from_slice(line).map_err(|error| RequestError::NoJson(error.column()))?;
        let Value::Object(fields) = value else {
            return Err(RequestError::NoObject);
        };
        let mut fields = Fields(fields);
        match fields.number("version", u64::MAX)? {
            Some(VERSION) => {}
            Some(other) => return Err(RequestError::Version(other)),
            None => return Err(RequestError::Missing("version")),
        }
        let name = fields.text("request")?.ok_or(RequestError::Missing("request"))?;
        let request = match name.as_str() {
            "state" => Self::State,
            "figures" => Self::Figures(match fields.text("format")?.as_deref() {
                None | Some("json") => Format::Json,
                Some("prometheus") => Format::Prometheus,
                Some(_) => {
                    return Err(RequestError::Value {
                        field: "format",
                        wanted: String::from("name of a format: there are \"json\" and \"prometheus\""),
                    })
                }
            }),
            "limit" => Self::Limit {
                guest: fields
                    .number("guest", MOST_GUEST)?
                    .ok_or(RequestError::Missing("guest"))? as usize,
                iops: fields.rate("iops", 1, MOST_IOPS)?,
                bytes: fields.rate("bytes", LEAST_BYTES, MOST_BYTES)?,
            },
            "drain" => Self::Drain {
                wait: Duration::from_secs(fields.number("wait", MOST_WAIT)?.unwrap_or(WAIT)),
            },
            "resume" => Self::Resume,
            "end" => Self::End,
            other => return Err(RequestError::Unknown(shown(other))),
        };
        fields.finish(&name)?;
        Ok(request)
    }
}
