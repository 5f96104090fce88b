//! A controller in memory, with its phones: it answers the commands of a host, and completes what
//! goes to phones.

#![allow(dead_code)]

use gihandop::{Config, Error, Files, Host, LONGEST_PACKET, Notice, Notices};
use std::collections::VecDeque;

pub const DOOR: &str = include_str!("../../../examples/door.toml");
pub const BELL: &str = include_str!("../../../examples/bell.toml");
pub const PORCH: &str = include_str!("../../../examples/porch.toml");
pub const PORCH_NEXT: &str = include_str!("../../../examples/porch_next.toml");
pub const KEYS: &str = include_str!("../../../examples/keys.toml");

/// The phone of the key file whose key is authenticated, and has the diversifier 514.
pub const TABLET: [u8; 6] = [0x55, 0x44, 0x33, 0x22, 0x11, 0x00];

/// A host and its controller.
pub struct Controller {
    pub host: Host,
    /// The notices of each packet that was brought last.
    pub told: Vec<Notices>,
    /// The PDUs of the Attribute Protocol that phones received of what was brought last.
    pub heard: Vec<Vec<u8>>,
}

impl Controller {
    /// Opens a host, and lets it initialise the controller.
    pub fn new(table: &str, rows: &str) -> Controller {
        Controller::with(Files {
            table,
            keys: KEYS,
            rows,
            values: "",
        })
    }

    /// Opens a host with all its files, and lets it initialise the controller.
    pub fn with(files: Files<'_>) -> Controller {
        let host = Host::open(files, &Config::default()).expect("the files are good");
        let mut controller = Controller {
            host,
            told: Vec::new(),
            heard: Vec::new(),
        };
        controller.settle();
        controller
    }

    /// Brings octets to the host, and then whatever answers what goes back.
    pub fn bring(&mut self, octets: &[u8]) -> Result<(), Error> {
        self.told.clear();
        self.heard.clear();
        let mut waiting = VecDeque::new();
        self.answer(&mut waiting);
        waiting.push_back(octets.to_vec());
        while let Some(octets) = waiting.pop_front() {
            let mut at = 0;
            while at < octets.len() {
                at += self.host.take(&octets[at..])?;
                self.told.push(self.host.notices());
                self.answer(&mut waiting);
            }
        }
        Ok(())
    }

    /// Returns the notices of what was brought last.
    pub fn notices(&self) -> Vec<Notice<'_>> {
        self.told.iter().flatten().collect()
    }

    /// Brings only answers.
    pub fn settle(&mut self) {
        self.bring(&[])
            .expect("nothing is wrong with the controller");
    }

    fn answer(&mut self, waiting: &mut VecDeque<Vec<u8>>) {
        let mut room = [0; LONGEST_PACKET];
        while let Some(packet) = self.host.next_packet(&mut room) {
            if packet[0] == 2 {
                self.heard.push(packet[9..].to_vec());
            }
            waiting.push_back(reaction(packet));
        }
    }

    /// A phone connects by its public address.
    pub fn connect(&mut self, connection: u8, address: [u8; 6]) {
        let front = [0x04, 0x3e, 19, 1, 0, connection, 0, 1, 0];
        let behind = [24, 0, 0, 0, 200, 0, 0];
        self.bring(&[&front[..], &address, &behind].concat())
            .expect("it may connect");
    }

    /// The link of a phone is encrypted by the key with the diversifier 514.
    pub fn encrypt(&mut self, connection: u8) {
        let request = [&[0x04, 0x3e, 13, 5, connection, 0][..], &[2; 8], &[2, 2]].concat();
        let changed = [0x04, 0x08, 4, 0, connection, 0, 1];
        self.bring(&[&request[..], &changed].concat())
            .expect("it may be encrypted");
    }

    /// A phone sends a PDU of the Attribute Protocol.
    pub fn say(&mut self, connection: u8, pdu: &[u8]) {
        self.bring(&data(connection, pdu)).expect("it may send");
    }
}

/// A packet with a PDU of the Attribute Protocol, from a phone.
pub fn data(connection: u8, pdu: &[u8]) -> Vec<u8> {
    let length = pdu.len() as u8;
    [
        &[0x02, connection, 0x20, length + 4, 0, length, 0, 4, 0][..],
        pdu,
    ]
    .concat()
}

/// What the controller does about a packet of the host.
pub fn reaction(packet: &[u8]) -> Vec<u8> {
    let complete = |returned: &[u8]| {
        let front = [
            0x04,
            0x0e,
            4 + returned.len() as u8,
            1,
            packet[1],
            packet[2],
            0,
        ];
        [&front[..], returned].concat()
    };
    match *packet {
        [2, low, high, ..] => vec![0x04, 0x13, 5, 1, low, high & 0x0f, 1, 0],
        // Buffers of 27 octets, of which there are 8.
        [1, 0x02, 0x20, ..] => complete(&[27, 0, 8]),
        [1, 0x1a | 0x1b, 0x20, _, low, high, ..] => complete(&[low, high]),
        [1, 0x06, 0x04, _, low, high, ..] => {
            vec![
                0x04, 0x0f, 4, 0, 1, 0x06, 0x04, 0x04, 5, 4, 0, low, high, 0x16,
            ]
        }
        _ => complete(&[]),
    }
}
