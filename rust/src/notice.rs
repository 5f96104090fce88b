//! What a program is notified of.

use crate::ffi;
use crate::{Key, Peer};
use std::iter::FusedIterator;
use std::slice;

/// What happened to a connection. `connection` is its handle in HCI, and `attribute` that of an
/// attribute of the table.
#[derive(Clone, Copy, Debug, PartialEq, Eq, Hash)]
#[non_exhaustive]
#[allow(missing_docs)]
pub enum Notice<'a> {
    /// A connection was accepted.
    Connected { connection: u16, peer: Peer },
    /// It is gone.
    Disconnected { connection: u16 },
    /// Its link has a key that is worth this, and had none, or one that was worth another thing.
    Secured { connection: u16, key: Key },
    /// Its link has no key any more.
    Unsecured { connection: u16 },
    /// It wrote a characteristic value or a descriptor. `value` is the whole value after that, at
    /// most 512 bytes, even if the client wrote a part of it. A packet that writes parts of an
    /// attribute several times (Execute Write) causes one notice, with the value after the last
    /// part. Writing the bytes that were there already causes a notice too.
    Written {
        connection: u16,
        attribute: u16,
        value: &'a [u8],
    },
    /// It wrote a client characteristic configuration, which has these bits now: 1 for
    /// notifications, 2 for indications.
    Configured {
        connection: u16,
        attribute: u16,
        bits: u8,
    },
    /// It confirmed an indication of a value.
    Confirmed { connection: u16, attribute: u16 },
    /// It did not confirm an indication in time, and is not sent notifications or indications any
    /// more.
    TimedOut { connection: u16 },
    /// The host ends it, for a reason of Core 5.0, Vol 2 Part D, 2.
    Ending { connection: u16, reason: u8 },
    /// It is not sent a notification of a value, since 8 PDUs or more are queued for it. A
    /// notification of a later value of the attribute may be sent.
    Skipped { connection: u16, attribute: u16 },
}

impl<'a> Notice<'a> {
    /// Returns the notice with these fields, or `None` if its kind is not known.
    fn of(fields: &ffi::gh_notice, value: &'a [u8]) -> Option<Notice<'a>> {
        let (connection, attribute) = (fields.connection, fields.attribute);
        Some(match fields.kind {
            ffi::GH_CONNECTED => Notice::Connected {
                connection,
                peer: Peer {
                    is_random: fields.address_kind != 0,
                    address: fields.address,
                },
            },
            ffi::GH_DISCONNECTED => Notice::Disconnected { connection },
            ffi::GH_SECURED => Notice::Secured {
                connection,
                key: Key {
                    size: fields.key_size,
                    authenticated: fields.authenticated,
                    secure: fields.secure,
                },
            },
            ffi::GH_UNSECURED => Notice::Unsecured { connection },
            ffi::GH_WRITTEN => Notice::Written {
                connection,
                attribute,
                value,
            },
            ffi::GH_CONFIGURED => Notice::Configured {
                connection,
                attribute,
                bits: fields.bits,
            },
            ffi::GH_CONFIRMED => Notice::Confirmed {
                connection,
                attribute,
            },
            ffi::GH_TIMED_OUT => Notice::TimedOut { connection },
            ffi::GH_ENDING => Notice::Ending {
                connection,
                reason: fields.reason,
            },
            ffi::GH_SKIPPED => Notice::Skipped {
                connection,
                attribute,
            },
            // A later archive may have more kinds.
            _ => return None,
        })
    }

    /// Returns the handle of the connection.
    pub fn connection(self) -> u16 {
        match self {
            Notice::Connected { connection, .. }
            | Notice::Disconnected { connection }
            | Notice::Secured { connection, .. }
            | Notice::Unsecured { connection }
            | Notice::Written { connection, .. }
            | Notice::Configured { connection, .. }
            | Notice::Confirmed { connection, .. }
            | Notice::TimedOut { connection }
            | Notice::Ending { connection, .. }
            | Notice::Skipped { connection, .. } => connection,
        }
    }

    /// Returns whether the connection changed a value or a row by itself: it wrote or configured
    /// one, or confirmed an indication.
    pub fn is_change(self) -> bool {
        matches!(
            self,
            Notice::Written { .. } | Notice::Configured { .. } | Notice::Confirmed { .. }
        )
    }
}

/// The notices of one packet or one call, in their order. It owns the values that were written. A
/// notice of an archive that is newer than this crate is left out if the crate does not know its
/// kind.
///
/// ```
/// # fn print(notices: &gihandop::Notices) {
/// for notice in notices {
///     println!("{notice:?}");
/// }
/// # }
/// ```
#[derive(Debug, Default)]
pub struct Notices {
    /// Each with the number of bytes of its value.
    fields: Vec<(ffi::gh_notice, usize)>,
    values: Vec<u8>,
}

impl Notices {
    /// Adds a notice, unless its kind is not known.
    pub(crate) fn push(&mut self, fields: ffi::gh_notice, value: &[u8]) {
        if Notice::of(&fields, value).is_some() {
            self.fields.push((fields, value.len()));
            self.values.extend_from_slice(value);
        }
    }

    /// Returns an iterator over the notices.
    pub fn iter(&self) -> NoticesIter<'_> {
        NoticesIter {
            fields: self.fields.iter(),
            values: &self.values,
        }
    }

    /// Returns the number of notices.
    pub fn len(&self) -> usize {
        self.fields.len()
    }

    /// Returns whether there are none.
    pub fn is_empty(&self) -> bool {
        self.fields.is_empty()
    }
}

impl<'a> IntoIterator for &'a Notices {
    type Item = Notice<'a>;
    type IntoIter = NoticesIter<'a>;

    fn into_iter(self) -> NoticesIter<'a> {
        self.iter()
    }
}

/// An iterator over notices: [`Notices::iter`].
#[derive(Clone, Debug)]
pub struct NoticesIter<'a> {
    fields: slice::Iter<'a, (ffi::gh_notice, usize)>,
    /// The values of the notices that are left.
    values: &'a [u8],
}

impl<'a> Iterator for NoticesIter<'a> {
    type Item = Notice<'a>;

    fn next(&mut self) -> Option<Notice<'a>> {
        let (fields, length) = self.fields.next()?;
        let (value, rest) = self.values.split_at(*length);
        self.values = rest;
        Notice::of(fields, value)
    }

    fn size_hint(&self) -> (usize, Option<usize>) {
        self.fields.size_hint()
    }
}

impl ExactSizeIterator for NoticesIter<'_> {}

impl FusedIterator for NoticesIter<'_> {}

#[cfg(test)]
mod tests {
    use super::*;

    #[test]
    fn a_notice_of_an_unknown_kind_is_left_out() {
        let mut notices = Notices::default();
        for kind in [
            ffi::GH_CONNECTED,
            ffi::GH_SKIPPED + 1,
            ffi::GH_WRITTEN,
            0,
            u8::MAX,
        ] {
            let fields = ffi::gh_notice {
                kind,
                connection: 64,
                attribute: 10,
                ..ffi::gh_notice::new()
            };
            let value: &[u8] = if kind == ffi::GH_WRITTEN { &[1] } else { &[] };
            notices.push(fields, value);
        }
        let found: Vec<Notice> = notices.iter().collect();
        assert!(matches!(found[0], Notice::Connected { connection: 64, .. }));
        let written = Notice::Written {
            connection: 64,
            attribute: 10,
            value: &[1],
        };
        assert_eq!(found[1..], [written]);
        assert_eq!((notices.len(), notices.iter().len()), (2, 2));
    }
}
