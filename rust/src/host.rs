//! A host, and the calls of a program, one by one.

use crate::error::{result_of, result_of_files};
use crate::ffi;
use crate::{Connections, Error, Notices, Uuid};
use std::cell::UnsafeCell;
use std::fmt;
use std::io::{self, Write};
use std::ptr;

/// The longest packet that is sent, in bytes.
pub const LONGEST_PACKET: usize = ffi::GH_LONGEST_PACKET;

/// What a host is opened with, besides its files.
#[derive(Clone, Debug, PartialEq, Eq)]
pub struct Config {
    /// The largest number of connections at once: 1 to 8.
    pub slots: usize,
    /// The largest PDU of the Attribute Protocol that is received, in octets: 23 to 517.
    pub rx_mtu: u16,
    /// A static random address, the least significant octet first, whose two most significant bits
    /// are set; `None` for the public address of the controller.
    pub address: Option<[u8; 6]>,
    /// Advertising data, at most 31 octets: Core 5.0, Vol 3 Part C, 11.
    pub advertising: Vec<u8>,
}

impl Default for Config {
    /// Four connections, 247 octets, the public address, and the flags of a device that anybody
    /// may find and that has no BR/EDR.
    fn default() -> Config {
        Config {
            slots: 4,
            rx_mtu: 247,
            address: None,
            advertising: vec![0x02, 0x01, 0x06],
        }
    }
}

impl Config {
    fn raw(&self) -> ffi::gh_config {
        let mut advertising = [0; 31];
        for (to, from) in advertising.iter_mut().zip(&self.advertising) {
            *to = *from;
        }
        ffi::gh_config {
            size: size_of::<ffi::gh_config>(),
            slots: self.slots,
            rx_mtu: self.rx_mtu,
            is_random: self.address.is_some().into(),
            address: self.address.unwrap_or_default(),
            // The host refuses any length above 31.
            advertising_length: u8::try_from(self.advertising.len()).unwrap_or(u8::MAX),
            advertising,
        }
    }
}

/// The texts of a host's files: `docs/CLI.md` names the page of each.
#[derive(Clone, Copy, Debug, Default, PartialEq, Eq)]
pub struct Files<'a> {
    /// The table file: what is served, and who may use it.
    pub table: &'a str,
    /// The key file: the long-term keys of known peers. It may be empty.
    pub keys: &'a str,
    /// The rows file: the subscriptions of peers with keys, by [`Host::rows`] of an earlier host. It
    /// may be empty.
    pub rows: &'a str,
    /// The values that differ from those of the table file, by [`Host::values`] of an earlier host.
    /// They are restored before anything is served. It may be empty.
    pub values: &'a str,
}

/// Which values are saved, if they differ from those of the table file.
#[derive(Clone, Copy, Debug, PartialEq, Eq, Hash)]
pub enum Saves {
    /// The characteristic values and descriptors that a client may write.
    Writable,
    /// All characteristic values and descriptors.
    All,
}

/// An ATT and GATT server over the bytes of a controller.
///
/// [`Host::serve`], [`Host::feed`] and [`Host::finish`] serve a controller: they notify an
/// application, send what is owed and make the application's calls, in the right order. The other
/// methods are the single steps. A program that uses them fetches [`Host::notices`] and then sends
/// what is owed ([`Host::send`] or [`Host::next_packet`]) after each [`Host::take`] and each call.
///
/// One thread at a time may use it: it is `Send`, and not `Sync`.
pub struct Host {
    // The functions of C that change nothing take a pointer to what they may change, too.
    raw: UnsafeCell<ffi::gh_host>,
    /// An application or a writer has returned an error or panicked, or is at work: nothing is
    /// accepted or sent.
    has_ended: bool,
    /// A call has changed a value or the table since the last turn.
    pub(crate) is_changed: bool,
    values_left_out: usize,
}

// What it owns lies on the heap, belongs to no thread, and is reached by no other pointer.
unsafe impl Send for Host {}

impl Host {
    /// Opens a host, and restores values. [`Host::values_left_out`] says how many do not fit the
    /// table. It needs 16 KiB of stack, and so does [`Host::replace`]; no other call needs much. A
    /// refused text that nests deeply can need up to 3 MiB.
    ///
    /// # Errors
    ///
    /// [`Error::Table`], [`Error::Keys`], [`Error::Rows`] and [`Error::Values`] have the first fault
    /// of the files, in this order. [`Error::BadConfig`] if a field of `config` is out of its range.
    /// [`Error::OutOfMemory`] if memory is refused.
    ///
    /// # Panics
    ///
    /// If the library behind this crate has another version than the crate.
    pub fn open(files: Files<'_>, config: &Config) -> Result<Host, Error> {
        // SAFETY: it takes nothing and changes nothing.
        let version = unsafe { ffi::gh_version() };
        assert_eq!(version, ffi::GH_VERSION, "the version of libgihandop_c.a");
        let mut host = Host {
            raw: UnsafeCell::new(ffi::gh_host {
                at: ptr::null_mut(),
            }),
            has_ended: false,
            is_changed: false,
            values_left_out: 0,
        };
        let Files {
            table,
            keys,
            rows,
            values,
        } = files;
        let config = config.raw();
        let status = unsafe {
            ffi::gh_open(
                host.raw(),
                table.as_ptr(),
                table.len(),
                keys.as_ptr(),
                keys.len(),
                rows.as_ptr(),
                rows.len(),
                values.as_ptr(),
                values.len(),
                &config,
                &mut host.values_left_out,
            )
        };
        result_of_files(status, files)?;
        Ok(host)
    }

    /// Returns how many values of [`Files::values`] were left out, since the table has no attribute
    /// with their handle, or one of another type, or one that may not have this length.
    pub fn values_left_out(&self) -> usize {
        self.values_left_out
    }

    /// The handle that C knows. Each function of C has returned before the next is called, since
    /// none calls back and no other thread has this.
    pub(crate) fn raw(&self) -> *mut ffi::gh_host {
        self.raw.get()
    }

    /// Returns an error if the host has ended.
    fn check(&self) -> Result<(), Error> {
        if self.has_ended {
            Err(Error::HasStopped)
        } else {
            Ok(())
        }
    }

    /// Lets others work while the host is at rest. It has ended if they return an error or panic.
    pub(crate) fn rest_while<T, E: From<Error>>(
        &mut self,
        work: impl FnOnce(&mut Host) -> Result<T, E>,
    ) -> Result<T, E> {
        self.check()?;
        self.has_ended = true;
        let done = work(self)?;
        self.has_ended = false;
        Ok(done)
    }

    /// Accepts bytes of the stream from the controller, which may begin and end anywhere: up to the
    /// end of the next packet, or all of them if no packet ends in them. Returns how many.
    ///
    /// # Errors
    ///
    /// [`Error::OutputOwed`] as long as a packet has to be sent: it accepts nothing.
    /// [`Error::Desync`], [`Error::BadEvent`], [`Error::BadInit`] and [`Error::Hardware`] say why
    /// the host has stopped for good, now or earlier. [`Error::HasStopped`] if it has ended by an
    /// error of [`Host::feed`].
    pub fn take(&mut self, bytes: &[u8]) -> Result<usize, Error> {
        self.check()?;
        let mut used = 0;
        let (from, length) = (bytes.as_ptr(), bytes.len());
        let status = unsafe { ffi::gh_take(self.raw(), from, length, &mut used) };
        result_of(status, 0)?;
        Ok(used)
    }

    /// Returns the notices of the last packet or call that were not fetched yet. They are lost if
    /// they are not fetched before the next [`Host::take`] or call. Sending packets leaves them.
    pub fn notices(&mut self) -> Notices {
        let mut notices = Notices::default();
        let mut value = [0; ffi::GH_LONGEST_VALUE];
        let mut fields = ffi::gh_notice::new();
        while unsafe { ffi::gh_next_notice(self.raw(), &mut fields) } == ffi::GH_DONE {
            let is_written = fields.kind == ffi::GH_WRITTEN;
            let value = if is_written {
                self.read(fields.attribute, &mut value).unwrap_or_default()
            } else {
                &[]
            };
            notices.push(fields, value);
            fields = ffi::gh_notice::new();
        }
        notices
    }

    /// Returns the next packet for the controller, which then counts as sent. Returns `None` if
    /// nothing is owed, or if the host has stopped.
    pub fn next_packet<'a>(&mut self, buffer: &'a mut [u8; LONGEST_PACKET]) -> Option<&'a [u8]> {
        self.check().ok()?;
        self.pull(buffer)
    }

    /// Returns the next packet, also while the host is at rest.
    fn pull<'a>(&self, buffer: &'a mut [u8; LONGEST_PACKET]) -> Option<&'a [u8]> {
        let mut count = 0;
        let (to, length) = (buffer.as_mut_ptr(), buffer.len());
        match unsafe { ffi::gh_next_out(self.raw(), to, length, &mut count) } {
            ffi::GH_DONE => Some(&buffer[..count]),
            _ => None,
        }
    }

    /// Writes all packets that are owed, each by one `write_all`, and flushes the writer if there
    /// was one.
    ///
    /// # Errors
    ///
    /// Returns the error of the writer. A part of the packet may be written then, so the host has
    /// ended: every later call returns [`Error::HasStopped`]. Open the next host, which begins with
    /// a reset of the controller. A writer that does not block loses packets so: use
    /// [`Host::next_packet`] for it.
    pub fn send(&mut self, mut to: impl Write) -> io::Result<()> {
        self.send_except(&mut to, &[])
    }

    /// Writes all packets that are owed, except the data packets for these connections, which it
    /// drops.
    pub(crate) fn send_except(&mut self, to: &mut impl Write, withheld: &[u16]) -> io::Result<()> {
        let mut buffer = [0; LONGEST_PACKET];
        self.rest_while(|host| {
            let mut is_idle = true;
            while let Some(packet) = host.pull(&mut buffer) {
                if !is_data_for(packet, withheld) {
                    to.write_all(packet)?;
                    is_idle = false;
                }
            }
            if is_idle { Ok(()) } else { to.flush() }
        })
    }

    /// Writes the characteristic value at a handle, and notifies who has subscribed to it.
    ///
    /// # Errors
    ///
    /// [`Error::NoSuchHandle`], [`Error::NotAValue`] or [`Error::BadLength`] if the table has no
    /// such value. [`Error::OutputOwed`] as long as a packet has to be sent. [`Error::HasStopped`]
    /// if the host has stopped.
    pub fn update(&mut self, handle: u16, value: &[u8]) -> Result<(), Error> {
        self.check()?;
        let mut buffer = [0; ffi::GH_LONGEST_VALUE];
        let is_change = self.read(handle, &mut buffer) != Some(value);
        let (from, length) = (value.as_ptr(), value.len());
        let status = unsafe { ffi::gh_update(self.raw(), handle, from, length) };
        result_of(status, handle)?;
        self.is_changed |= is_change;
        Ok(())
    }

    /// Authorizes a connection while the time of [`Host::tick`] is below `until`, in milliseconds:
    /// 0 withdraws it. PDUs that were queued before are still sent.
    ///
    /// # Errors
    ///
    /// [`Error::NoSuchConnection`] if there is none with this handle, or the host ends it.
    /// [`Error::OutputOwed`] as long as a packet has to be sent. [`Error::HasStopped`] if the host
    /// has stopped.
    pub fn authorize(&mut self, connection: u16, until: u64) -> Result<(), Error> {
        self.check()?;
        result_of(
            unsafe { ffi::gh_authorize(self.raw(), connection, until) },
            connection,
        )
    }

    /// Ends a connection: nothing more is sent to it, and its peer is told that this side ended it.
    ///
    /// # Errors
    ///
    /// As those of [`Host::authorize`].
    pub fn disconnect(&mut self, connection: u16) -> Result<(), Error> {
        self.check()?;
        result_of(
            unsafe { ffi::gh_disconnect(self.raw(), connection) },
            connection,
        )
    }

    /// Tells the time, in milliseconds since any moment. Call it before each [`Host::take`] and at
    /// the time of [`Host::deadline`]. An authorization ends only by a tick at its end or later.
    ///
    /// # Errors
    ///
    /// [`Error::TimeWentBack`] if an earlier tick had a later time. [`Error::OutputOwed`] as long as
    /// a packet has to be sent. [`Error::HasStopped`] if the host has stopped.
    pub fn tick(&mut self, time: u64) -> Result<(), Error> {
        self.check()?;
        result_of(unsafe { ffi::gh_tick(self.raw(), time) }, 0)
    }

    /// Replaces the table by that of another table file. Subscriptions stay if they fit, and clients
    /// are told that the table has changed: [`Host::rows`] says who still has to be told, so save it
    /// before you send anything.
    ///
    /// # Errors
    ///
    /// [`Error::Table`] if the file has a fault. [`Error::NoServiceChanged`] if the present or the
    /// new table has no Service Changed characteristic, or they have it at different handles.
    /// [`Error::OutputOwed`] as long as a packet has to be sent. [`Error::OutOfMemory`] if memory is
    /// refused. [`Error::HasStopped`] if the host has stopped.
    pub fn replace(&mut self, table: &str) -> Result<(), Error> {
        self.check()?;
        let (from, length) = (table.as_ptr(), table.len());
        let status = unsafe { ffi::gh_replace(self.raw(), from, length) };
        let files = Files {
            table,
            ..Files::default()
        };
        result_of_files(status, files)?;
        self.is_changed = true;
        Ok(())
    }

    /// Returns the value at a handle, or `None` if there is no attribute with this handle. A client
    /// characteristic configuration has no bytes.
    pub fn value(&self, handle: u16) -> Option<Vec<u8>> {
        let mut buffer = [0; ffi::GH_LONGEST_VALUE];
        self.read(handle, &mut buffer).map(<[u8]>::to_vec)
    }

    /// Puts the value at a handle at the front of a buffer, and lends it.
    fn read<'a>(
        &self,
        handle: u16,
        buffer: &'a mut [u8; ffi::GH_LONGEST_VALUE],
    ) -> Option<&'a [u8]> {
        let mut count = 0;
        let (to, length) = (buffer.as_mut_ptr(), buffer.len());
        let status = unsafe { ffi::gh_value(self.raw(), handle, to, length, &mut count) };
        (status == ffi::GH_DONE).then_some(&buffer[..count])
    }

    /// Returns the handle of a characteristic value: of those with this type of the characteristic
    /// in a service of this type, in the order of their handles, the one with this number, from 1.
    /// Returns `None` if there are fewer, or if the number is 0.
    pub fn find(&self, service: Uuid, characteristic: Uuid, number: u16) -> Option<u16> {
        let (mut first, mut second) = ([0; 16], [0; 16]);
        let service = service.octets(&mut first);
        let characteristic = characteristic.octets(&mut second);
        let mut handle = 0;
        let status = unsafe {
            ffi::gh_find(
                self.raw(),
                service.as_ptr(),
                service.len(),
                characteristic.as_ptr(),
                characteristic.len(),
                number,
                &mut handle,
            )
        };
        (status == ffi::GH_DONE).then_some(handle)
    }

    /// Returns an iterator over the connections, in the order of their slots.
    pub fn connections(&self) -> Connections<'_> {
        Connections::of(self)
    }

    /// Returns the earliest time, in milliseconds, at which an indication that is not confirmed is
    /// late or the authorization of a connection ends; `None` if there is neither. No tick is needed
    /// before that time: it would cause no packet of its own and no notice, and each request is
    /// answered as without it.
    pub fn deadline(&self) -> Option<u64> {
        let mut time = 0;
        let status = unsafe { ffi::gh_deadline(self.raw(), &mut time) };
        (status == ffi::GH_DONE).then_some(time)
    }

    /// Returns the rows file for the next host: the subscriptions of peers with keys, and who still
    /// has to be told that the table was replaced.
    ///
    /// # Errors
    ///
    /// [`Error::OutOfMemory`] if memory is refused.
    pub fn rows(&self) -> Result<String, Error> {
        self.text(|to, length, count| unsafe { ffi::gh_rows_text(self.raw(), to, length, count) })
    }

    /// Returns the values that differ from those of the table file, for [`Files::values`] of the
    /// next host: lines with the handle, the type and the bytes of a value.
    ///
    /// # Errors
    ///
    /// [`Error::OutOfMemory`] if memory is refused.
    pub fn values(&self, saves: Saves) -> Result<String, Error> {
        let all = (saves == Saves::All).into();
        self.text(|to, length, count| unsafe {
            ffi::gh_values_text(self.raw(), all, to, length, count)
        })
    }

    /// Returns a text of any length, by a function that puts it at the front of a buffer.
    fn text(&self, put: impl Fn(*mut u8, usize, &mut usize) -> u32) -> Result<String, Error> {
        let mut bytes = vec![0; 1024];
        loop {
            let mut count = 0;
            match put(bytes.as_mut_ptr(), bytes.len(), &mut count) {
                ffi::GH_SHORT_BUFFER => bytes.resize(count, 0),
                status => {
                    result_of(status, 0)?;
                    bytes.truncate(count);
                    return Ok(String::from_utf8(bytes).expect("the text is ASCII"));
                }
            }
        }
    }
}

/// Returns whether a packet is ACL data for one of these connections.
fn is_data_for(packet: &[u8], connections: &[u16]) -> bool {
    match *packet {
        [0x02, low, high, ..] => connections.contains(&(u16::from_le_bytes([low, high]) & 0x0fff)),
        _ => false,
    }
}

impl Drop for Host {
    fn drop(&mut self) {
        // If it was not opened, this does nothing.
        unsafe { ffi::gh_close(self.raw()) };
    }
}

impl fmt::Debug for Host {
    fn fmt(&self, f: &mut fmt::Formatter<'_>) -> fmt::Result {
        f.debug_struct("Host").finish_non_exhaustive()
    }
}
