//! What a program sees of its host: connections, peers and types.

use crate::Host;
use crate::ffi;
use std::fmt;
use std::iter::FusedIterator;

/// A peer, by the address that it had as it connected.
#[derive(Clone, Copy, Debug, PartialEq, Eq, Hash)]
pub struct Peer {
    /// Whether the address is a random one, and not a public one.
    pub is_random: bool,
    /// The address, the least significant octet first.
    pub address: [u8; 6],
}

impl fmt::Display for Peer {
    /// Writes the address as people do, the most significant octet first.
    fn fmt(&self, f: &mut fmt::Formatter<'_>) -> fmt::Result {
        let [a, b, c, d, e, g] = self.address;
        write!(f, "{g:02x}:{e:02x}:{d:02x}:{c:02x}:{b:02x}:{a:02x}")
    }
}

/// What the key of a link is worth.
#[derive(Clone, Copy, Debug, PartialEq, Eq, Hash)]
pub struct Key {
    /// Its size in octets: 7 to 16.
    pub size: u8,
    /// It was exchanged with protection against a man in the middle.
    pub authenticated: bool,
    /// It was made by LE Secure Connections.
    pub secure: bool,
}

/// A connection.
#[derive(Clone, Copy, Debug, PartialEq, Eq, Hash)]
#[non_exhaustive]
pub struct Connection {
    /// Its handle in HCI.
    pub handle: u16,
    /// The ATT_MTU, in octets.
    pub mtu: u16,
    /// The peer, by its address.
    pub peer: Peer,
    /// The key of its link, if that has one.
    pub key: Option<Key>,
    /// The host ends it: nothing more is accepted from it or sent to it, and the controller has not
    /// reported its end yet.
    pub is_ending: bool,
    /// It is authorized while the time is below this, in milliseconds.
    pub authorized_until: u64,
    /// Its number among the connections of the host, in the order in which they were accepted, from
    /// 1. A later connection may get the same handle, and has another number.
    pub ordinal: u64,
    /// The place of its slot, from 0, below [`Config::slots`](crate::Config::slots).
    pub slot: usize,
    /// The time of the last [`Host::tick`] before its last ACL data packet arrived, in milliseconds.
    /// At first the time of the last tick before it was accepted.
    pub heard: u64,
}

/// The connections of a host: [`Host::connections`].
#[derive(Debug)]
pub struct Connections<'a> {
    host: &'a Host,
    place: usize,
}

impl<'a> Connections<'a> {
    pub(crate) fn of(host: &'a Host) -> Connections<'a> {
        Connections { host, place: 0 }
    }
}

impl Iterator for Connections<'_> {
    type Item = Connection;

    fn next(&mut self) -> Option<Connection> {
        let mut fields = ffi::gh_connection::new();
        let status = unsafe { ffi::gh_connection(self.host.raw(), self.place, &mut fields) };
        if status != ffi::GH_DONE {
            return None;
        }
        self.place += 1;
        let (size, authenticated, secure) = (fields.key_size, fields.authenticated, fields.secure);
        Some(Connection {
            handle: fields.handle,
            mtu: fields.mtu,
            peer: Peer {
                is_random: fields.address_kind != 0,
                address: fields.address,
            },
            key: (size != 0).then_some(Key {
                size,
                authenticated,
                secure,
            }),
            is_ending: fields.ending,
            authorized_until: fields.authorized_until,
            ordinal: fields.ordinal,
            slot: fields.slot.into(),
            heard: fields.heard,
        })
    }
}

impl FusedIterator for Connections<'_> {}

/// The type of a service or a characteristic.
#[derive(Clone, Copy, Debug, PartialEq, Eq, Hash)]
pub enum Uuid {
    /// One of 16 bits.
    Short(u16),
    /// One of 128 bits, as a number: its hexadecimal digits are those that people write.
    Long(u128),
}

impl Uuid {
    /// Puts its octets, the lowest first, at the front of a buffer, and lends them.
    pub(crate) fn octets(self, buffer: &mut [u8; 16]) -> &[u8] {
        match self {
            Uuid::Short(short) => {
                buffer[..2].copy_from_slice(&short.to_le_bytes());
                &buffer[..2]
            }
            Uuid::Long(long) => {
                *buffer = long.to_le_bytes();
                buffer
            }
        }
    }
}
