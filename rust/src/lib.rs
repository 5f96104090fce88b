//! The host half of a Bluetooth Low Energy peripheral: an ATT and GATT server over the bytes of a
//! controller (H4: Core 5.0, Vol 4 Part A). The library behind this crate is written in Rattle. It is
//! proved what the library makes of bytes and calls; this crate is not proved.
//!
//! `cargo doc`, `cargo check` and `cargo clippy` need no library. For a first program compile it without
//! proofs, which takes one to three minutes, in the repository:
//!
//! ```sh
//! tools/unproved gihandop_c
//! export GIHANDOP_LIB=$PWD/crates/gihandop_c/out/unproved
//! export RUSTFLAGS="-Clink-arg=-Wl,--whole-archive,$GIHANDOP_LIB/asan.a,--no-whole-archive -Clink-arg=-lm"
//! cargo run --manifest-path rust/Cargo.toml --example first -- examples/door.toml
//! ```
//!
//! `tools/prove gihandop_c` proves it and makes the library for a product, which needs no variables.
//!
//! A client reads the name of the lock:
//!
//! ```
//! use gihandop::{Config, Files, Host, Notice, Turn, Uuid};
//! use std::io;
//!
//! let table = r#"
//!     [[service]]
//!     uuid = "1800"
//!     [[service.characteristic]]
//!     uuid = "2a00"
//!     value = "4c6f636b"
//!     properties = ["read", "write"]
//! "#;
//! let mut host = Host::open(Files { table, ..Files::default() }, &Config::default())?;
//! let name = host.find(Uuid::Short(0x1800), Uuid::Short(0x2a00), 1).expect("it is in the table");
//! let mut print = |turn: &mut Turn<'_>| -> io::Result<()> {
//!     for notice in turn.notices() {
//!         println!("{notice:?}");
//!     }
//!     Ok(())
//! };
//!
//! // The controller completes each command, and then reports a connection with the handle 64.
//! let mut sent = Vec::new();
//! host.finish(&mut sent, &mut print)?;
//! while sent[..] != [0x01, 0x0a, 0x20, 0x01, 0x01] {
//!     let opcode = [sent[1], sent[2]];
//!     let buffers: &[u8] = if opcode == [0x02, 0x20] { &[27, 0, 8] } else { &[] };
//!     let length = 4 + buffers.len() as u8;
//!     let complete = [&[0x04, 0x0e, length, 1, opcode[0], opcode[1], 0], buffers].concat();
//!     sent.clear();
//!     host.feed(&complete, &mut sent, &mut print)?;
//! }
//! host.feed(&[0x04, 0x0e, 4, 1, 0x0a, 0x20, 0], &mut sent, &mut print)?;
//! let connected = [
//!     0x04, 0x3e, 19, 1, 0, 64, 0, 1, 1, 10, 0, 0, 0, 0, 0xc0, 24, 0, 0, 0, 200, 0, 0,
//! ];
//! host.feed(&connected, &mut sent, &mut print)?;
//!
//! // A Write Request with `Door`. The application is notified before the host answers.
//! let write = [&[0x02, 64, 0x20, 11, 0, 7, 0, 4, 0, 0x12, 3, 0][..], b"Door"].concat();
//! sent.clear();
//! host.feed(&write, &mut sent, |turn| -> io::Result<()> {
//!     for notice in turn.notices() {
//!         let value = b"Door";
//!         assert_eq!(notice, Notice::Written { connection: 64, attribute: name, value });
//!     }
//!     Ok(())
//! })?;
//! assert_eq!(sent, [0x02, 64, 0x00, 5, 0, 1, 0, 4, 0, 0x13]);
//!
//! // And a Read Request.
//! sent.clear();
//! host.feed(&[0x02, 64, 0x20, 7, 0, 3, 0, 4, 0, 0x0a, 3, 0], &mut sent, &mut print)?;
//! assert_eq!(sent[9..], *b"\x0bDoor");
//! # Ok::<(), Box<dyn std::error::Error>>(())
//! ```
//!
//! # The application
//!
//! [`Host::serve`] serves a reader and a writer, [`Host::feed`] the bytes that a program has read.
//! Both call a closure, the application, with a [`Turn`]: what one packet has caused. The host sends
//! the answer after the closure has returned `Ok`. So a program that saves its state in the closure
//! has saved each change before the client learns of it:
//!
//! ```no_run
//! # use gihandop::{Config, Files, Host, Notice, Saves, Uuid};
//! # use std::error::Error;
//! # use std::fs::{self, File};
//! # use std::io::{self, ErrorKind, Write};
//! # use std::net::TcpStream;
//! // Replaces a file as a whole. When it returns `Ok`, the text is on the disk.
//! fn save(name: &str, text: &str) -> io::Result<()> {
//!     let new = format!("{name}.new");
//!     let mut file = File::create(&new)?;
//!     file.write_all(text.as_bytes())?;
//!     file.sync_all()?;
//!     fs::rename(new, name)?;
//!     File::open(".")?.sync_all()
//! }
//!
//! // Reads what an earlier start has saved, if there is any.
//! fn saved(name: &str) -> io::Result<String> {
//!     match fs::read_to_string(name) {
//!         Err(error) if error.kind() == ErrorKind::NotFound => Ok(String::new()),
//!         text => text,
//!     }
//! }
//!
//! # fn main() -> Result<(), Box<dyn Error>> {
//! let files = Files {
//!     table: &fs::read_to_string("table.toml")?,
//!     keys: &fs::read_to_string("keys.toml")?,
//!     rows: &saved("rows")?,
//!     values: &saved("values")?,
//! };
//! let mut host = Host::open(files, &Config::default())?;
//! let lamp = host.find(Uuid::Short(0xfff0), Uuid::Short(0xfff1), 1).ok_or("no lamp")?;
//!
//! let controller = TcpStream::connect("127.0.0.1:5000")?;
//! host.serve(&controller, &controller, |turn| -> io::Result<()> {
//!     for notice in turn.notices() {
//!         match notice {
//!             Notice::Written { attribute, value, .. } if attribute == lamp => {
//!                 println!("lamp: {value:?}");
//!             }
//!             Notice::Secured { connection, .. } => turn.authorize(connection, u64::MAX),
//!             _ => {}
//!         }
//!     }
//!     save("values", &turn.host().values(Saves::All)?)?;
//!     save("rows", &turn.host().rows()?)
//! })?;
//! # Ok(())
//! # }
//! ```
//!
//! The closure's error may be of any type that an [`Error`] and a [`std::io::Error`] convert to. Name
//! the type, as here, if nothing else does. After an error the host has ended ([`Host::feed`]):
//! nothing of this turn is sent. So return one only if the program cannot go on, and never because of
//! what a client has written. [`Turn::withhold`] ends only the connections whose changes cannot be
//! saved.
//!
//! # A loop with a clock
//!
//! A program that has a clock, or calls of its own, reads bytes in another thread, and goes round a
//! loop:
//!
//! ```no_run
//! # use gihandop::{Host, Turn};
//! # use std::io;
//! # use std::sync::mpsc::{Receiver, RecvTimeoutError};
//! # use std::time::{Duration, Instant};
//! # fn run(
//! #     mut host: Host,
//! #     received: Receiver<Vec<u8>>,
//! #     mut to: impl io::Write,
//! #     mut application: impl FnMut(&mut Turn<'_>) -> io::Result<()>,
//! # ) -> io::Result<()> {
//! let begin = Instant::now();
//! let now = || begin.elapsed().as_millis() as u64;
//! host.finish(&mut to, &mut application)?;
//! loop {
//!     let left = host.deadline().map_or(1000, |time| time.saturating_sub(now()).min(1000));
//!     let next = received.recv_timeout(Duration::from_millis(left));
//!     host.tick(now())?;
//!     match next {
//!         Ok(bytes) => host.feed(&bytes, &mut to, &mut application)?,
//!         Err(RecvTimeoutError::Timeout) => host.finish(&mut to, &mut application)?,
//!         Err(RecvTimeoutError::Disconnected) => return Ok(()),
//!     }
//!     host.update(6, &[99])?;
//!     host.finish(&mut to, &mut application)?;
//! }
//! # }
//! ```
//!
//! `examples/lockd.rs` is a whole daemon.
//!
//! # Threads
//!
//! A host may move from one thread to another, and one thread at a time uses it:
//!
//! ```
//! fn moves<T: Send>() {}
//! moves::<gihandop::Host>();
//! ```
//!
//! ```compile_fail,E0277
//! fn is_shared<T: Sync>() {}
//! is_shared::<gihandop::Host>();
//! ```

mod error;
#[allow(dead_code, non_camel_case_types)]
mod ffi;
mod heap;
mod host;
mod notice;
mod seen;
mod serving;

pub use error::{Error, Fault};
pub use host::{Config, Files, Host, LONGEST_PACKET, Saves};
pub use notice::{Notice, Notices, NoticesIter};
pub use seen::{Connection, Connections, Key, Peer, Uuid};
pub use serving::Turn;

/// Returns the version of this crate as text. If the library behind it is compiled without proofs,
/// `(not proved)` follows.
pub fn version_text() -> &'static str {
    match option_env!("GIHANDOP_NOT_PROVED") {
        Some(_) => concat!(env!("CARGO_PKG_VERSION"), " (not proved)"),
        None => env!("CARGO_PKG_VERSION"),
    }
}

/// Returns the version of the library behind this crate: its major and minor number and its patch.
pub fn version() -> (u32, u32, u32) {
    // SAFETY: it takes nothing and changes nothing.
    let version = unsafe { ffi::gh_version() };
    (
        version / 1_000_000,
        version / 1_000 % 1_000,
        version % 1_000,
    )
}
