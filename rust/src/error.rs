//! Why something was not done, in words.

use crate::Files;
use crate::ffi;
use std::error;
use std::fmt;
use std::io;

/// Why something was not done.
#[derive(Clone, Debug, PartialEq, Eq, Hash)]
#[non_exhaustive]
pub enum Error {
    /// Packets have to be sent first: [`Host::send`](crate::Host::send).
    OutputOwed,
    /// Memory was refused.
    OutOfMemory,
    /// The configuration is out of its limits.
    BadConfig,

    /// The host has stopped for good: a byte begins no packet.
    Desync,
    /// The host has stopped for good: an event is too short for its fields, or has another length
    /// than it states.
    BadEvent,
    /// The host has stopped for good: the controller could not be initialised.
    BadInit,
    /// The host has stopped for good: the controller reports an error of its own.
    Hardware,

    /// A call is refused: there is no attribute with this handle.
    NoSuchHandle(u16),
    /// A call is refused: the attribute with this handle is no characteristic value.
    NotAValue(u16),
    /// A call is refused: the value is longer than the attribute with this handle may have, or its
    /// length is fixed and is another one.
    BadLength(u16),
    /// A call is refused: no connection with this handle is served.
    NoSuchConnection(u16),
    /// A call is refused: the time is before the one of an earlier call.
    TimeWentBack,
    /// A call is refused: the host has stopped for good. Either an earlier error says why, or the
    /// application or the writer has returned an error ([`Host::feed`](crate::Host::feed)).
    HasStopped,
    /// A call is refused: the present or the new table has no Service Changed characteristic, or
    /// they have it at different handles.
    NoServiceChanged,

    /// The table file is refused.
    Table(Fault),
    /// The key file is refused.
    Keys(Fault),
    /// The rows file is refused.
    Rows(Fault),
    /// The values are refused.
    Values(Fault),

    /// A status that this crate does not know, of a newer library.
    Unknown(u32),
}

/// The first fault of a file, and its place there.
#[derive(Clone, Debug, PartialEq, Eq, Hash)]
pub struct Fault {
    number: u32,
    text: String,
}

impl Fault {
    /// Returns the number of the fault, which `docs/TABLE.md`, `docs/KEYS-FILE.md` and `docs/SUBSCRIPTIONS.md` list.
    pub fn number(&self) -> u32 {
        self.number
    }

    /// Returns the fault and its place in words, as `gatt_shell show` prints them.
    pub fn text(&self) -> &str {
        &self.text
    }
}

impl fmt::Display for Fault {
    fn fmt(&self, f: &mut fmt::Formatter<'_>) -> fmt::Result {
        f.write_str(&self.text)
    }
}

impl Error {
    /// Returns the status of `include/gihandop.h`.
    pub fn status(&self) -> u32 {
        match self {
            Error::OutputOwed => ffi::GH_OUTPUT_OWED,
            Error::OutOfMemory => ffi::GH_OUT_OF_MEMORY,
            Error::BadConfig => ffi::GH_BAD_CONFIG,
            Error::Desync => ffi::GH_DESYNC,
            Error::BadEvent => ffi::GH_BAD_EVENT,
            Error::BadInit => ffi::GH_BAD_INIT,
            Error::Hardware => ffi::GH_HARDWARE,
            Error::NoSuchHandle(_) => ffi::GH_NO_SUCH_HANDLE,
            Error::NotAValue(_) => ffi::GH_NOT_A_VALUE,
            Error::BadLength(_) => ffi::GH_BAD_LENGTH,
            Error::NoSuchConnection(_) => ffi::GH_NO_SUCH_CONNECTION,
            Error::TimeWentBack => ffi::GH_TIME_WENT_BACK,
            Error::HasStopped => ffi::GH_HAS_STOPPED,
            Error::NoServiceChanged => ffi::GH_NO_SERVICE_CHANGED,
            Error::Table(fault) => ffi::GH_BAD_TABLE + fault.number,
            Error::Keys(fault) => ffi::GH_BAD_KEYS + fault.number,
            Error::Rows(fault) => ffi::GH_BAD_ROWS + fault.number,
            Error::Values(fault) => ffi::GH_BAD_VALUES + fault.number,
            Error::Unknown(status) => *status,
        }
    }

    /// Returns whether the host has stopped for good.
    pub fn is_final(&self) -> bool {
        (ffi::GH_STOPPED..ffi::GH_REFUSED).contains(&self.status()) || *self == Error::HasStopped
    }
}

/// Returns what a status says of a call with files.
pub(crate) fn result_of_files(status: u32, files: Files<'_>) -> Result<(), Error> {
    let fault = |base: u32| Fault {
        number: status - base,
        text: fault_of(files).unwrap_or_else(|| words_of(status)),
    };
    Err(match status {
        101..=199 => Error::Table(fault(ffi::GH_BAD_TABLE)),
        201..=299 => Error::Keys(fault(ffi::GH_BAD_KEYS)),
        301..=399 => Error::Rows(fault(ffi::GH_BAD_ROWS)),
        401..=499 => Error::Values(fault(ffi::GH_BAD_VALUES)),
        status => return result_of(status, 0),
    })
}

/// Returns the first fault of files and its place in words, if there is one and there is memory.
fn fault_of(files: Files<'_>) -> Option<String> {
    let Files {
        table,
        keys,
        rows,
        values,
    } = files;
    let mut text = vec![0; 256];
    loop {
        let mut count = 0;
        // SAFETY: each pointer is to as many bytes as the call is told.
        let answer = unsafe {
            ffi::gh_explain(
                table.as_ptr(),
                table.len(),
                keys.as_ptr(),
                keys.len(),
                rows.as_ptr(),
                rows.len(),
                values.as_ptr(),
                values.len(),
                text.as_mut_ptr(),
                text.len(),
                &mut count,
            )
        };
        match answer {
            ffi::GH_DONE => {
                text.truncate(count);
                return String::from_utf8(text).ok();
            }
            ffi::GH_SHORT_BUFFER => text.resize(count, 0),
            _ => return None,
        }
    }
}

/// Returns what a status says of a call without files. `handle` is the one that the call named, if
/// it named one.
pub(crate) fn result_of(status: u32, handle: u16) -> Result<(), Error> {
    Err(match status {
        ffi::GH_DONE => return Ok(()),
        ffi::GH_OUTPUT_OWED => Error::OutputOwed,
        ffi::GH_OUT_OF_MEMORY => Error::OutOfMemory,
        ffi::GH_BAD_CONFIG => Error::BadConfig,
        ffi::GH_DESYNC => Error::Desync,
        ffi::GH_BAD_EVENT => Error::BadEvent,
        ffi::GH_BAD_INIT => Error::BadInit,
        ffi::GH_HARDWARE => Error::Hardware,
        ffi::GH_NO_SUCH_HANDLE => Error::NoSuchHandle(handle),
        ffi::GH_NOT_A_VALUE => Error::NotAValue(handle),
        ffi::GH_BAD_LENGTH => Error::BadLength(handle),
        ffi::GH_NO_SUCH_CONNECTION => Error::NoSuchConnection(handle),
        ffi::GH_TIME_WENT_BACK => Error::TimeWentBack,
        ffi::GH_HAS_STOPPED => Error::HasStopped,
        ffi::GH_NO_SERVICE_CHANGED => Error::NoServiceChanged,
        // A later archive may have more statuses.
        _ => Error::Unknown(status),
    })
}

/// Returns a status in words.
fn words_of(status: u32) -> String {
    let mut text = [0; 128];
    let mut count = 0;
    // SAFETY: the array has as many bytes as the call is told.
    let answer = unsafe { ffi::gh_text(status, text.as_mut_ptr(), text.len(), &mut count) };
    match std::str::from_utf8(&text[..count.min(text.len())]) {
        Ok(text) if answer == ffi::GH_DONE => text.to_string(),
        _ => format!("status {status}"),
    }
}

impl fmt::Display for Error {
    fn fmt(&self, f: &mut fmt::Formatter<'_>) -> fmt::Result {
        match self {
            Error::NoSuchHandle(handle) | Error::NotAValue(handle) | Error::BadLength(handle) => {
                write!(f, "handle {handle}: {}", words_of(self.status()))
            }
            Error::NoSuchConnection(handle) => {
                write!(f, "connection {handle}: {}", words_of(self.status()))
            }
            Error::Table(fault)
            | Error::Keys(fault)
            | Error::Rows(fault)
            | Error::Values(fault) => fault.fmt(f),
            error => f.write_str(&words_of(error.status())),
        }
    }
}

impl error::Error for Error {}

impl From<Error> for io::Error {
    fn from(error: Error) -> io::Error {
        let kind = match error {
            Error::OutOfMemory => io::ErrorKind::OutOfMemory,
            Error::Desync | Error::BadEvent | Error::BadInit | Error::Hardware => {
                io::ErrorKind::InvalidData
            }
            Error::OutputOwed | Error::HasStopped | Error::Unknown(_) => io::ErrorKind::Other,
            _ => io::ErrorKind::InvalidInput,
        };
        io::Error::new(kind, error)
    }
}

#[cfg(test)]
mod tests {
    use super::*;

    #[test]
    fn each_status_is_one_error_and_has_its_words() {
        let files = Files {
            table: include_str!("../../examples/door.toml"),
            ..Files::default()
        };
        let statuses = [4, 6, 7, 21, 22, 23, 24, 41, 42, 43, 44, 45, 46, 47];
        let faults = (101..=111).chain(201..=210).chain(301..=304).chain([401]);
        let mut texts = Vec::new();
        for status in statuses.into_iter().chain(faults) {
            let error = match status {
                0..100 => result_of(status, 7),
                _ => result_of_files(status, files),
            };
            let error = error.expect_err("not done");
            assert_eq!(error.status(), status);
            let text = error.to_string();
            assert!(!text.contains("status ") && text.is_ascii(), "{text}");
            assert!(!texts.contains(&text), "{text}");
            texts.push(text);
        }
        assert_eq!(result_of(0, 7), Ok(()));
    }

    #[test]
    fn a_number_without_words_is_told_as_such() {
        assert_eq!(words_of(199), "status 199");
        assert_eq!(words_of(u32::MAX), format!("status {}", u32::MAX));
    }

    #[test]
    fn an_unknown_status_is_an_error_too() {
        for status in [9, 29, 48, 500, u32::MAX] {
            let error = result_of_files(status, Files::default()).expect_err("not done");
            assert_eq!(error, Error::Unknown(status));
            assert_eq!(error.to_string(), format!("status {status}"));
            // From 20 to 39 a status says that the host has stopped.
            assert_eq!(error.is_final(), status == 29);
        }
    }

    #[test]
    fn an_error_names_the_handle_of_its_call() {
        let text = Error::NoSuchHandle(22).to_string();
        assert_eq!(text, "handle 22: there is no attribute with the handle");
        let text = Error::NoSuchConnection(64).to_string();
        assert_eq!(text, "connection 64: no connection with the handle serves");
    }

    #[test]
    fn what_stops_a_host_is_final() {
        assert!(Error::Desync.is_final() && Error::HasStopped.is_final());
        assert!(!Error::OutputOwed.is_final() && !Error::NoSuchConnection(1).is_final());
        let error = io::Error::from(Error::Desync);
        assert_eq!(error.kind(), io::ErrorKind::InvalidData);
        assert_eq!(error.to_string(), Error::Desync.to_string());
    }
}
