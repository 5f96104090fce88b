//! A host serves its controller, and notifies an application before it answers a client.

use crate::{Error, Host, Notices};
use std::collections::VecDeque;
use std::io::{self, ErrorKind, Read, Write};

/// What one packet of the controller, or one call, has caused: its notices, before a packet that it
/// causes is sent.
///
/// The application reads the notices and the host, saves what has to be saved, and may ask for
/// calls. The host makes them in their order, once the packets of this turn are sent. A call that
/// has notices, or changes a value, has a turn of its own: so the application can save what it has
/// updated itself.
#[derive(Debug)]
pub struct Turn<'a> {
    host: &'a Host,
    notices: &'a Notices,
    queue: &'a mut Queue,
}

/// What the applications of turns have asked for.
#[derive(Debug, Default)]
pub(crate) struct Queue {
    calls: VecDeque<Call>,
    /// The connections that are sent no data any more, until they are disconnected.
    withheld: Vec<u16>,
    /// The first call that was refused.
    refused: Option<Error>,
}

#[derive(Debug)]
enum Call {
    Update { handle: u16, value: Vec<u8> },
    Authorize { connection: u16, until: u64 },
    Disconnect { connection: u16 },
}

impl<'a> Turn<'a> {
    /// Returns the notices of this turn, in their order. After [`Host::update`] and [`Host::replace`]
    /// there may be none.
    pub fn notices(&self) -> &'a Notices {
        self.notices
    }

    /// Returns the host, to read values, rows and connections.
    pub fn host(&self) -> &'a Host {
        self.host
    }

    /// Asks for [`Host::update`]. If the host refuses it, the function that called the application
    /// goes on, and returns the error at its end: [`Error::NoSuchHandle`], [`Error::NotAValue`] or
    /// [`Error::BadLength`], with the handle. Clients cannot cause that.
    ///
    /// Ask only if a notice is a reason to. An application that changes a value in each turn never
    /// returns to its caller, since each change has a turn. The same holds for one that changes a
    /// value because of [`Notice::Skipped`](crate::Notice::Skipped).
    pub fn update(&mut self, handle: u16, value: &[u8]) {
        let value = value.to_vec();
        self.queue.calls.push_back(Call::Update { handle, value });
    }

    /// Asks for [`Host::authorize`]. If the host ends the connection by then, nothing happens. If no
    /// connection has the handle, the function that called the application goes on, and returns
    /// [`Error::NoSuchConnection`] at its end.
    pub fn authorize(&mut self, connection: u16, until: u64) {
        let call = Call::Authorize { connection, until };
        self.queue.calls.push_back(call);
    }

    /// Asks for [`Host::disconnect`]. If the host ends the connection by then, nothing happens. If
    /// no connection has the handle, the function that called the application goes on, and returns
    /// [`Error::NoSuchConnection`] at its end.
    pub fn disconnect(&mut self, connection: u16) {
        self.queue.calls.push_back(Call::Disconnect { connection });
    }

    /// Answers nothing to the clients that changed something in this turn
    /// ([`Notice::is_change`](crate::Notice::is_change)), and disconnects them. Use it if their
    /// changes cannot be saved: such a client does not learn that its change was accepted, and the
    /// host goes on to serve all others.
    ///
    /// The packets of this turn are sent, except the data packets for these connections. The changes
    /// stay in the host: other clients may read them, and are notified of them. If no client changed
    /// anything, `withhold` does nothing.
    pub fn withhold(&mut self) {
        for connection in self.notices.iter().filter(|it| it.is_change()) {
            let connection = connection.connection();
            if !self.queue.withheld.contains(&connection) {
                self.queue.withheld.push(connection);
                self.disconnect(connection);
            }
        }
    }
}

impl Queue {
    /// Returns the error of the first call that was refused.
    fn result(self) -> Result<(), Error> {
        self.refused.map_or(Ok(()), Err)
    }
}

impl Host {
    /// Accepts bytes of the stream from the controller, which may begin and end anywhere. For each
    /// packet that ends in them it does this, in this order:
    ///
    /// 1. It accepts the packet.
    /// 2. If the packet has notices, it calls the application, once, with a [`Turn`]. It also does
    ///    after a call that has changed a value or the table.
    /// 3. It sends what the packet causes, for example the answer to a client.
    /// 4. It makes each call that the application has asked for, and does 2 to 4 for the call.
    ///
    /// First it does 2 to 4 for the notices and packets of an earlier call, as [`Host::finish`]
    /// does. So an application that saves in step 2 what has changed, and returns an error if it
    /// cannot, has saved each change before the client is answered.
    ///
    /// # Errors
    ///
    /// If the application returns an error, `feed` returns it. The packets of earlier turns are
    /// sent, none of this turn is, and the calls that were not made yet are dropped. The same holds
    /// for an error of the writer, except that a part of the packets of this turn may be sent. In
    /// both cases, and after a panic of either, the host has ended: it accepts and sends nothing
    /// more, and each later call returns [`Error::HasStopped`]. Drop it, and open the next one with
    /// what you have saved: it begins with a reset of the controller, which ends all connections. To
    /// end only the connections whose changes are not saved, let the application call
    /// [`Turn::withhold`] and return `Ok`.
    ///
    /// [`Error::Desync`], [`Error::BadEvent`], [`Error::BadInit`] and [`Error::Hardware`] say why
    /// the host has stopped for good. It has not accepted the bytes from that packet on.
    ///
    /// If a call that the application has asked for is refused, `feed` goes on, and returns the
    /// first such error at its end. All bytes are accepted and all packets sent then, so the host
    /// can serve on.
    pub fn feed<E: From<Error> + From<io::Error>>(
        &mut self,
        bytes: &[u8],
        mut to: impl Write,
        mut application: impl FnMut(&mut Turn<'_>) -> Result<(), E>,
    ) -> Result<(), E> {
        let mut queue = Queue::default();
        self.make_turns(&mut to, &mut application, &mut queue)?;
        let mut rest = bytes;
        while !rest.is_empty() {
            let used = self.take(rest)?;
            self.make_turns(&mut to, &mut application, &mut queue)?;
            rest = &rest[used..];
        }
        Ok(queue.result()?)
    }

    /// Notifies the application of what the last call caused, sends its packets, and makes the calls
    /// that the application asks for. Call it after each [`Host::update`], [`Host::authorize`],
    /// [`Host::disconnect`], [`Host::tick`] and [`Host::replace`], and after [`Host::open`]. If
    /// [`Host::feed`] follows at once, it does the same.
    ///
    /// # Errors
    ///
    /// As those of [`Host::feed`], without those of the stream from the controller.
    pub fn finish<E: From<Error> + From<io::Error>>(
        &mut self,
        mut to: impl Write,
        mut application: impl FnMut(&mut Turn<'_>) -> Result<(), E>,
    ) -> Result<(), E> {
        let mut queue = Queue::default();
        self.make_turns(&mut to, &mut application, &mut queue)?;
        Ok(queue.result()?)
    }

    /// Serves a controller until the reader ends: [`Host::feed`] with all that it reads. A program
    /// that has a clock, or calls of its own, has a loop around `feed` in place of it.
    ///
    /// # Errors
    ///
    /// As those of [`Host::feed`], and the error of the reader.
    pub fn serve<E: From<Error> + From<io::Error>>(
        &mut self,
        mut from: impl Read,
        mut to: impl Write,
        mut application: impl FnMut(&mut Turn<'_>) -> Result<(), E>,
    ) -> Result<(), E> {
        self.finish(&mut to, &mut application)?;
        let mut bytes = [0; 4096];
        loop {
            match from.read(&mut bytes) {
                Ok(0) => return Ok(()),
                Ok(count) => self.feed(&bytes[..count], &mut to, &mut application)?,
                Err(error) if error.kind() == ErrorKind::Interrupted => {}
                Err(error) => return Err(error.into()),
            }
        }
    }

    /// Makes a turn of what was accepted last, and then one of each call that is asked for.
    fn make_turns<E: From<Error> + From<io::Error>>(
        &mut self,
        to: &mut impl Write,
        application: &mut impl FnMut(&mut Turn<'_>) -> Result<(), E>,
        queue: &mut Queue,
    ) -> Result<(), E> {
        loop {
            self.make_turn(to, application, queue)?;
            let Some(call) = queue.calls.pop_front() else {
                return Ok(());
            };
            if let Err(error) = self.make_call(&call) {
                queue.refused.get_or_insert(error);
            }
            if let Call::Disconnect { connection } = call {
                queue.withheld.retain(|it| *it != connection);
            }
        }
    }

    /// Notifies the application of what was accepted last, and then sends what it causes.
    fn make_turn<E: From<Error> + From<io::Error>>(
        &mut self,
        to: &mut impl Write,
        application: &mut impl FnMut(&mut Turn<'_>) -> Result<(), E>,
        queue: &mut Queue,
    ) -> Result<(), E> {
        let notices = self.notices();
        if !notices.is_empty() || self.is_changed {
            self.is_changed = false;
            self.rest_while(|host| {
                application(&mut Turn {
                    host,
                    notices: &notices,
                    queue,
                })
            })?;
        }
        Ok(self.send_except(to, &queue.withheld)?)
    }

    /// Makes a call. For a connection that the host ends, there is nothing to do.
    fn make_call(&mut self, call: &Call) -> Result<(), Error> {
        let made = match *call {
            Call::Update { handle, ref value } => self.update(handle, value),
            Call::Authorize { connection, until } => self.authorize(connection, until),
            Call::Disconnect { connection } => self.disconnect(connection),
        };
        match made {
            Err(Error::NoSuchConnection(handle))
                if self.connections().any(|it| it.handle == handle) =>
            {
                Ok(())
            }
            made => made,
        }
    }
}
