//! Opens a host with a table file, plays a controller with one client, and prints what the client reads: the
//! value of the attribute 3, in hexadecimal.
//!
//!     first TABLE

use gihandop::{Config, Files, Host, Turn};
use std::error::Error;
use std::{env, fs, io};

/// LE Set Advertising Enable with 01: from then on clients can connect (Core 5.0, Vol 2 Part E, 7.8.9).
const ADVERTISED: [u8; 5] = [0x01, 0x0a, 0x20, 0x01, 0x01];
/// LE Read Buffer Size, which returns the size and the number of buffers (7.8.2).
const READ_BUFFER_SIZE: [u8; 2] = [0x02, 0x20];
/// LE Connection Complete (7.7.65.1): the connection 64 of a client at c0:00:00:00:00:0a.
const CONNECTED: [u8; 22] = [
    0x04, 0x3e, 19, 1, 0, 64, 0, 1, 1, 10, 0, 0, 0, 0, 0xc0, 24, 0, 0, 0, 200, 0, 0,
];
/// A Read Request of the attribute 3 from this client.
const READ: [u8; 12] = [0x02, 64, 0x20, 7, 0, 3, 0, 4, 0, 0x0a, 3, 0];

/// The application: it is notified before the host answers.
fn print(turn: &mut Turn<'_>) -> io::Result<()> {
    for notice in turn.notices() {
        println!("{notice:?}");
    }
    Ok(())
}

fn main() -> Result<(), Box<dyn Error>> {
    let path = env::args().nth(1).ok_or("usage: first TABLE")?;
    let table = fs::read_to_string(path)?;
    let files = Files {
        table: &table,
        ..Files::default()
    };
    let mut host = Host::open(files, &Config::default())?;
    let mut sent = Vec::new();
    host.finish(&mut sent, print)?;
    // The controller completes each command.
    loop {
        let (opcode, is_last) = ([sent[1], sent[2]], sent == ADVERTISED);
        let buffers: &[u8] = if opcode == READ_BUFFER_SIZE {
            &[27, 0, 8]
        } else {
            &[]
        };
        let length = 4 + buffers.len() as u8;
        let complete = [&[0x04, 0x0e, length, 1, opcode[0], opcode[1], 0], buffers].concat();
        sent.clear();
        host.feed(&complete, &mut sent, print)?;
        if is_last {
            break;
        }
    }
    host.feed(&CONNECTED, &mut sent, print)?;
    sent.clear();
    host.feed(&READ, &mut sent, print)?;
    let answer: String = sent[9..].iter().map(|it| format!("{it:02x}")).collect();
    println!("{answer}");
    Ok(())
}
