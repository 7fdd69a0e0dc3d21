//! What client and server agree on first: the version, and capabilities as JSON.

#![forbid(unsafe_code)]

use serde_json::{json, Map, Value};

use super::wire::{VersionRequest, DATA_MAX, DESCRIPTORS_MAX, PAGE_BYTES};

/// The major version that is spoken here.
pub const MAJOR: u16 = 0;

/// The minor version that is spoken here. QEMU 11.1.3 refuses a reply with a greater one, and a client that proposes more has to take less.
pub const MINOR: u16 = 0;

/// What was agreed on.
#[derive(Clone, Debug, PartialEq, Eq)]
pub struct Agreed {
    /// Most descriptors that the client takes with one message.
    pub client_descriptors: u64,
    /// Most bytes of data that the client takes with one message.
    pub client_data: u64,
    /// The client's minor version.
    pub client_minor: u16,
}

/// Why there was no agreement.
#[derive(Clone, Copy, Debug, PartialEq, Eq, thiserror::Error)]
pub enum VersionError {
    /// Another major version.
    #[error("the client speaks version {0} of vfio-user, and {MAJOR} is spoken here")]
    Major(u16),
    /// The message isn't as it has to be.
    #[error("the client's version: {0}")]
    Message(&'static str),
    /// The text has no NUL at its end.
    #[error("the client's capabilities do not end with NUL")]
    Nul,
    /// The text is no JSON, or too deep.
    #[error("the client's capabilities are no JSON")]
    Json,
    /// The text is JSON and says something else.
    #[error("the client's capabilities: {0} is not what it has to be")]
    Capability(&'static str),
}

/// The answer to a proposal: what is agreed on, and the text of the reply.
pub fn negotiate(request: &VersionRequest) -> Result<(Agreed, String), VersionError> {
    if request.major != MAJOR {
        return Err(VersionError::Major(request.major));
    }
    let capabilities = capabilities(&request.text)?;
    let agreed = Agreed {
        client_descriptors: number(&capabilities, "max_msg_fds")?.unwrap_or(1),
        client_data: number(&capabilities, "max_data_xfer_size")?.unwrap_or(u64::from(DATA_MAX)),
        client_minor: request.minor,
    };
    number(&capabilities, "max_dma_maps")?;
    number(&capabilities, "pgsizes")?;
    if capabilities
        .get("write_multiple")
        .is_some_and(|value| !value.is_boolean())
    {
        return Err(VersionError::Capability("write_multiple"));
    }
    for name in ["twin_socket", "migration"] {
        if capabilities.get(name).is_some_and(|value| !value.is_object()) {
            return Err(VersionError::Capability(name));
        }
    }
    Ok((agreed, reply(&capabilities)))
}

/// The object of capabilities; empty where the client names none.
fn capabilities(text: &[u8]) -> Result<Map<String, Value>, VersionError> {
    if text.is_empty() {
        return Ok(Map::new());
    }
    let text = text.strip_suffix(&[0]).ok_or(VersionError::Nul)?;
    if text.is_empty() {
        return Ok(Map::new());
    }
    // serde_json goes no deeper than 128.
    let value: Value = serde_json::from_slice(text).map_err(|_| VersionError::Json)?;
    let Value::Object(mut whole) = value else {
        return Err(VersionError::Capability("the whole"));
    };
    match whole.remove("capabilities") {
        None => Ok(Map::new()),
        Some(Value::Object(capabilities)) => Ok(capabilities),
        Some(_) => Err(VersionError::Capability("capabilities")),
    }
}

fn number(capabilities: &Map<String, Value>, name: &'static str) -> Result<Option<u64>, VersionError> {
    match capabilities.get(name) {
        None => Ok(None),
        Some(value) => value.as_u64().map(Some).ok_or(VersionError::Capability(name)),
    }
}

/// The capabilities of this side: a subset of those that were proposed, as the specification wants it.
fn reply(proposed: &Map<String, Value>) -> String {
    let own = [
        ("max_msg_fds", json!(DESCRIPTORS_MAX)),
        ("max_data_xfer_size", json!(DATA_MAX)),
        ("pgsizes", json!(PAGE_BYTES)),
    ];
    let named: Map<String, Value> = own
        .into_iter()
        .filter(|(name, _)| proposed.contains_key(*name))
        .map(|(name, value)| (name.to_owned(), value))
        .collect();
    json!({ "capabilities": named }).to_string()
}
