//! A host serves a controller from another thread, by a reader and a writer.

mod controller;

use controller::{DOOR, KEYS, TABLET, data, reaction};
use gihandop::{Config, Files, Host, Notice, Turn};
use std::io::{self, ErrorKind, Read, Write};
use std::sync::mpsc::{Receiver, Sender, channel};
use std::thread;

/// What the controller sends, and what of it is to be read next: three octets at most at once.
struct Line(Receiver<Vec<u8>>, Vec<u8>);

impl Read for Line {
    fn read(&mut self, to: &mut [u8]) -> io::Result<usize> {
        while self.1.is_empty() {
            match self.0.recv() {
                Ok(octets) => self.1 = octets,
                Err(_) => return Ok(0),
            }
        }
        let count = to.len().min(self.1.len()).min(3);
        to[..count].copy_from_slice(&self.1[..count]);
        self.1.drain(..count);
        Ok(count)
    }
}

/// What the host sends.
struct Sent(Sender<Vec<u8>>);

impl Write for Sent {
    fn write(&mut self, octets: &[u8]) -> io::Result<usize> {
        self.0
            .send(octets.to_vec())
            .map_err(|_| ErrorKind::BrokenPipe)?;
        Ok(octets.len())
    }

    fn flush(&mut self) -> io::Result<()> {
        Ok(())
    }
}

#[test]
fn another_thread_serves_a_reader_and_a_writer() {
    let (to_host, from_controller) = channel();
    let (to_controller, from_host) = channel();
    let files = Files {
        table: DOOR,
        keys: KEYS,
        ..Files::default()
    };
    let mut host = Host::open(files, &Config::default()).expect("the files are good");
    let serving = thread::spawn(move || {
        let mut heard = Vec::new();
        let line = Line(from_controller, Vec::new());
        let hear = |turn: &mut Turn<'_>| -> io::Result<()> {
            for notice in turn.notices() {
                if let Notice::Written {
                    attribute, value, ..
                } = notice
                {
                    heard.push((attribute, value.to_vec()));
                }
            }
            Ok(())
        };
        let ended = host.serve(line, Sent(to_controller), hear);
        ended.map(|()| heard)
    });
    let mut packet: Vec<u8> = Vec::new();
    while packet != [0x01, 0x0a, 0x20, 0x01, 0x01] {
        packet = from_host
            .recv()
            .expect("the host initialises its controller");
        to_host.send(reaction(&packet)).expect("the host listens");
    }
    let front = [0x04, 0x3e, 19, 1, 0, 64, 0, 1, 0];
    let connected = [&front[..], &TABLET, &[24, 0, 0, 0, 200, 0, 0]].concat();
    to_host.send(connected).expect("the host listens");
    to_host
        .send(data(64, &[0x12, 21, 0, b'h', b'i']))
        .expect("the host listens");
    loop {
        packet = from_host.recv().expect("the host answers");
        if packet[0] == 2 {
            break;
        }
        to_host.send(reaction(&packet)).expect("the host listens");
    }
    assert_eq!(packet[9..], [0x13]);
    drop(to_host);
    let heard = serving
        .join()
        .expect("no panic")
        .expect("the controller ends well");
    assert_eq!(heard, [(21, b"hi".to_vec())]);
}
