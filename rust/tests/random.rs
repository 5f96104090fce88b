//! Phones and applications that do anything: no phone is answered before the application has taken
//! part, and none whose change is withheld.

mod controller;

use controller::{Controller, DOOR, TABLET, data};
use gihandop::{Error, Notice, Turn};
use std::cell::{Cell, RefCell};
use std::collections::BTreeMap;
use std::io::{self, Write};

/// Numbers that look random, by xorshift.
struct Numbers(u64);

impl Numbers {
    fn below(&mut self, end: usize) -> usize {
        self.0 ^= self.0 << 13;
        self.0 ^= self.0 >> 7;
        self.0 ^= self.0 << 17;
        (self.0 % end as u64) as usize
    }

    fn bytes(&mut self, longest: usize) -> Vec<u8> {
        let length = self.below(longest + 1);
        (0..length).map(|_| self.below(256) as u8).collect()
    }
}

/// What was saved for a phone, and what it was sent.
#[derive(Clone, Copy, Debug, Default)]
struct Phone {
    /// Changes whose turns have ended well.
    accepted: usize,
    /// Write Responses.
    answered: usize,
    is_withheld: bool,
}

type Phones = RefCell<BTreeMap<u16, Phone>>;

/// The writer: checks what is sent to phones, and counts all answers.
struct Sent<'a>(&'a Phones, &'a Cell<usize>);

impl Write for Sent<'_> {
    fn write(&mut self, bytes: &[u8]) -> io::Result<usize> {
        if let [0x02, low, high, _, _, _, _, _, _, opcode, ..] = *bytes {
            let connection = u16::from_le_bytes([low, high]) & 0x0fff;
            let mut phones = self.0.borrow_mut();
            let phone = phones.entry(connection).or_default();
            assert!(!phone.is_withheld, "data for {connection}: {bytes:02x?}");
            // A continuation has no opcode.
            if high & 0x30 == 0 && opcode == 0x13 {
                phone.answered += 1;
                self.1.set(self.1.get() + 1);
                assert!(phone.answered <= phone.accepted, "{connection}: {phone:?}");
            }
        }
        Ok(bytes.len())
    }

    fn flush(&mut self) -> io::Result<()> {
        Ok(())
    }
}

/// An application that asks for anything.
fn take_part(turn: &mut Turn<'_>, numbers: &mut Numbers, phones: &Phones) {
    let notices = turn.notices();
    if !notices.is_empty() {
        let connection = 64 + numbers.below(3) as u16;
        match numbers.below(8) {
            0 => turn.update(10, &[numbers.below(2) as u8]),
            1 => turn.update(numbers.below(30) as u16, &numbers.bytes(9)),
            2 => turn.authorize(connection, 1 << numbers.below(30)),
            3 if numbers.below(4) == 0 => turn.disconnect(connection),
            _ => {}
        }
    }
    let is_withheld = numbers.below(20) == 0;
    if is_withheld {
        turn.withhold();
    }
    let mut phones = phones.borrow_mut();
    for notice in notices {
        let phone = phones.entry(notice.connection()).or_default();
        match notice {
            Notice::Connected { .. } => *phone = Phone::default(),
            notice if notice.is_change() && is_withheld => phone.is_withheld = true,
            Notice::Written { .. } | Notice::Configured { .. } => phone.accepted += 1,
            _ => {}
        }
    }
}

/// What a phone or the controller does next.
fn next(numbers: &mut Numbers) -> Vec<u8> {
    let connection = 64 + numbers.below(3) as u8;
    let value = numbers.below(2) as u8;
    match numbers.below(9) {
        0 => data(connection, &[0x12, 10, 0, value]),
        1 => data(
            connection,
            &[&[0x12, 21, 0][..], &numbers.bytes(20)].concat(),
        ),
        2 => data(connection, &[0x12, 11, 0, value, 0]),
        3 => data(connection, &[0x0a, 1 + numbers.below(24) as u8, 0]),
        4 => data(connection, &numbers.bytes(22)),
        5 if numbers.below(4) == 0 => vec![0x04, 0x05, 4, 0, connection, 0, 0x13],
        6 => {
            let front = [0x04, 0x3e, 19, 1, 0, connection, 0, 1, 0];
            [&front[..], &TABLET, &[24, 0, 0, 0, 200, 0, 0]].concat()
        }
        7 => vec![0x04, 0x08, 4, 0, connection, 0, 1],
        _ => vec![0x04, 0x13, 5, 1, connection, 0, 1, 0],
    }
}

#[test]
fn no_phone_is_answered_before_its_change_is_accepted() {
    let answered = Cell::new(0);
    for seed in 1..=5 {
        let mut numbers = Numbers(seed);
        let mut door = Controller::new(DOOR, "");
        let phones = Phones::default();
        for time in 0..2000 {
            let host = &mut door.host;
            host.tick(time * 100).expect("time goes on");
            let bytes: Vec<u8> = (0..3).flat_map(|_| next(&mut numbers)).collect();
            let fed = host.feed(&bytes, Sent(&phones, &answered), |turn| -> io::Result<()> {
                take_part(turn, &mut numbers, &phones);
                Ok(())
            });
            if let Err(error) = fed {
                let error = error.downcast::<Error>().expect("it is of the host");
                assert!(!error.is_final(), "{error}");
            }
        }
    }
    assert!(answered.get() > 500, "{answered:?}");
}
