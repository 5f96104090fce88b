//! An application takes part in what a host does: before a phone is answered, and afterwards.

mod controller;

use controller::{BELL, Controller, DOOR, PORCH, PORCH_NEXT, TABLET, data};
use gihandop::{Error, Notice, Saves, Turn};
use std::cell::RefCell;
use std::fmt;
use std::io::{self, Write};
use std::panic::{self, AssertUnwindSafe};

const STATE: u16 = 10;
const NOTE: u16 = 21;
const OWNER: [u8; 6] = [9; 6];
/// The controller completes two packets for connection 64, of which it takes no third before.
const COMPLETED: [u8; 8] = [0x04, 0x13, 5, 1, 64, 0, 2, 0];

/// An error of an application.
#[derive(Debug)]
enum Fault {
    Host(Error),
    Io(io::Error),
    NotSaved,
}

impl From<Error> for Fault {
    fn from(error: Error) -> Fault {
        Fault::Host(error)
    }
}

impl From<io::Error> for Fault {
    fn from(error: io::Error) -> Fault {
        Fault::Io(error)
    }
}

fn ignore(_turn: &mut Turn<'_>) -> Result<(), Fault> {
    Ok(())
}

/// A list to which the writer and the application add what happens.
#[derive(Default)]
struct Log(RefCell<Vec<String>>);

impl Log {
    fn add(&self, what: impl fmt::Debug) {
        self.0.borrow_mut().push(format!("{what:?}"));
    }

    fn taken(&self) -> Vec<String> {
        self.0.take()
    }
}

impl Write for &Log {
    /// A PDU for a phone, or a command by its opcode.
    fn write(&mut self, bytes: &[u8]) -> io::Result<usize> {
        match bytes {
            [0x02, low, ..] => self.add(format_args!("{low} {:02x?}", &bytes[9..])),
            _ => self.add(format_args!("command {:02x?}", &bytes[1..3])),
        }
        Ok(bytes.len())
    }

    fn flush(&mut self) -> io::Result<()> {
        Ok(())
    }
}

/// A door with a tablet that has its key, and that is notified of the state.
fn door() -> Controller {
    let mut door = Controller::new(DOOR, "");
    door.connect(64, TABLET);
    door.encrypt(64);
    door.say(64, &[0x12, 11, 0, 1, 0]);
    door
}

#[test]
fn the_application_is_notified_before_a_phone_is_answered() {
    let (mut door, log) = (door(), Log::default());
    let two = [data(64, &[0x12, 10, 0, 1]), data(64, &[0x0a, 3, 0])].concat();
    let fed = door.host.feed(&two, &log, |turn| -> Result<(), Fault> {
        for notice in turn.notices() {
            log.add(notice);
        }
        Ok(())
    });
    fed.expect("all is sent");
    let written = "Written { connection: 64, attribute: 10, value: [1] }";
    let answers = ["64 [13]", "64 [0b, 4c, 6f, 63, 6b]"];
    assert_eq!(log.taken(), [written, answers[0], answers[1]]);
}

#[test]
fn calls_are_made_once_the_answer_is_sent() {
    let (mut door, log) = (door(), Log::default());
    let write = data(64, &[0x12, 21, 0, 7]);
    let fed = door.host.feed(&write, &log, |turn| -> Result<(), Fault> {
        for notice in turn.notices() {
            log.add(notice);
            if let Notice::Written { value, .. } = notice {
                turn.update(STATE, value);
                turn.disconnect(64);
                turn.update(6, &[50]);
            }
        }
        Ok(())
    });
    fed.expect("no call is refused");
    let expected = [
        "Written { connection: 64, attribute: 21, value: [7] }",
        "64 [13]",
        "64 [1b, 0a, 00, 07]",
        "Ending { connection: 64, reason: 19 }",
        "command [06, 04]",
    ];
    assert_eq!(log.taken(), expected);
    assert_eq!(door.host.value(6), Some(vec![50]));
}

#[test]
fn a_phone_is_authorized() {
    let mut door = door();
    door.say(64, &[0x0a, 13, 0]);
    assert_eq!(door.heard, [[0x01, 0x0a, 13, 0, 0x08]]);
    door.host.tick(1000).expect("time goes on");
    let log = Log::default();
    let write = data(64, &[0x12, 21, 0, 7]);
    let fed = door.host.feed(&write, &log, |turn| -> Result<(), Fault> {
        turn.authorize(64, 2000);
        Ok(())
    });
    fed.expect("no call is refused");
    assert_eq!(door.host.deadline(), Some(2000));
    door.settle();
    door.say(64, &[0x0a, 13, 0]);
    assert_eq!(door.heard, [b"\x0b1234"]);
}

#[test]
fn an_error_of_the_application_ends_the_host() {
    let (mut door, log) = (door(), Log::default());
    let two = [data(64, &[0x0a, 3, 0]), data(64, &[0x12, 10, 0, 1])].concat();
    let three = [&two[..], &data(64, &[0x0a, 3, 0])].concat();
    let fed = door.host.feed(&three, &log, |_| Err(Fault::NotSaved));
    assert!(matches!(fed, Err(Fault::NotSaved)));
    // The first packet is answered. The second is not, and the third is not accepted.
    assert_eq!(log.taken(), ["64 [0b, 4c, 6f, 63, 6b]"]);

    let host = &mut door.host;
    assert_eq!(host.value(STATE), Some(vec![1]));
    assert_eq!(host.take(&[0x04]), Err(Error::HasStopped));
    assert_eq!(host.update(STATE, &[0]), Err(Error::HasStopped));
    assert_eq!(host.tick(1), Err(Error::HasStopped));
    assert_eq!(host.authorize(64, 1), Err(Error::HasStopped));
    assert_eq!(host.disconnect(64), Err(Error::HasStopped));
    assert_eq!(host.replace(DOOR), Err(Error::HasStopped));
    assert!(host.next_packet(&mut [0; 260]).is_none());
    assert!(host.send(&log).is_err());
    let fed = host.feed(&two, &log, ignore);
    assert!(
        matches!(fed, Err(Fault::Io(error)) if error.to_string() == Error::HasStopped.to_string())
    );
    assert!(log.taken().is_empty());
}

#[test]
fn a_panic_of_the_application_ends_the_host() {
    let (mut door, log) = (door(), Log::default());
    let caught = panic::catch_unwind(AssertUnwindSafe(|| {
        let write = data(64, &[0x12, 10, 0, 1]);
        door.host.feed(&write, &log, |_| -> Result<(), Fault> {
            panic::resume_unwind(Box::new(()))
        })
    }));
    assert!(caught.is_err());
    assert!(door.host.feed(&[], &log, ignore).is_err());
    assert!(door.host.next_packet(&mut [0; 260]).is_none());
    assert!(log.taken().is_empty());
}

#[test]
fn a_phone_whose_change_is_not_saved_is_not_answered() {
    let (mut door, log) = (door(), Log::default());
    door.connect(65, OWNER);
    let both = [data(64, &[0x12, 10, 0, 1]), data(65, &[0x0a, 3, 0])].concat();
    let fed = door.host.feed(&both, &log, |turn| -> Result<(), Fault> {
        for notice in turn.notices() {
            log.add(notice);
            turn.update(STATE, &[0]);
        }
        turn.withhold();
        Ok(())
    });
    fed.expect("the host goes on");
    let expected = [
        "Written { connection: 64, attribute: 10, value: [1] }",
        "Ending { connection: 64, reason: 19 }",
        "command [06, 04]",
        "65 [0b, 4c, 6f, 63, 6b]",
    ];
    assert_eq!(log.taken(), expected);

    // The next connection with the same handle is served, also in the bytes of one call.
    let gone = [0x04, 0x05, 4, 0, 64, 0, 0x16];
    let front = [0x04, 0x3e, 19, 1, 0, 64, 0, 1, 0];
    let connected = [&front[..], &TABLET, &[24, 0, 0, 0, 200, 0, 0]].concat();
    let (write, read) = (data(64, &[0x12, 21, 0, 7]), data(64, &[0x0a, 3, 0]));
    let all = [&gone[..], &connected, &write, &gone, &connected, &read].concat();
    let fed = door.host.feed(&all, &log, |turn| -> Result<(), Fault> {
        turn.withhold();
        Ok(())
    });
    fed.expect("the host goes on");
    assert_eq!(
        log.taken().last().map(String::as_str),
        Some("64 [0b, 4c, 6f, 63, 6b]")
    );
}

#[test]
fn others_are_notified_of_what_is_not_answered() {
    let (mut door, log) = (door(), Log::default());
    // The tablet connects again beside itself, and writes.
    door.connect(65, TABLET);
    door.encrypt(65);
    let fed = door.host.feed(
        &data(65, &[0x12, 10, 0, 1]),
        &log,
        |turn| -> Result<(), Fault> {
            turn.withhold();
            Ok(())
        },
    );
    fed.expect("the host goes on");
    assert_eq!(log.taken(), ["64 [1b, 0a, 00, 01]", "command [06, 04]"]);
}

#[test]
fn a_refused_call_is_returned_at_the_end() {
    let (mut door, log) = (door(), Log::default());
    let (write, read) = (data(64, &[0x12, 21, 0, 7]), data(64, &[0x0a, 3, 0]));
    let all = [&write[..], &COMPLETED, &read].concat();
    let fed = door.host.feed(&all, &log, |turn| -> Result<(), Fault> {
        if !turn.notices().is_empty() {
            turn.update(STATE, &[1, 2]);
            turn.update(99, &[1]);
            turn.disconnect(70);
            turn.update(STATE, &[1]);
        }
        Ok(())
    });
    assert!(matches!(fed, Err(Fault::Host(Error::BadLength(STATE)))));
    let expected = ["64 [13]", "64 [1b, 0a, 00, 01]", "64 [0b, 4c, 6f, 63, 6b]"];
    assert_eq!(log.taken(), expected);
    let fed = door.host.feed(&data(64, &[0x0a, 3, 0]), &log, ignore);
    fed.expect("the host goes on");
    let fed = door.host.feed(
        &data(64, &[0x12, 21, 0, 8]),
        &log,
        |turn| -> Result<(), Fault> {
            turn.authorize(70, 1);
            Ok(())
        },
    );
    assert!(matches!(fed, Err(Fault::Host(Error::NoSuchConnection(70)))));
}

#[test]
fn a_connection_that_ends_is_asked_for_nothing() {
    let (mut door, log) = (door(), Log::default());
    let fed = door.host.feed(
        &data(64, &[0x12, 21, 0, 7]),
        &log,
        |turn| -> Result<(), Fault> {
            for notice in turn.notices() {
                turn.disconnect(notice.connection());
                turn.authorize(notice.connection(), 9);
            }
            Ok(())
        },
    );
    fed.expect("the connection ends already");
    assert_eq!(log.taken(), ["64 [13]", "command [06, 04]"]);
}

#[test]
fn a_call_of_the_program_has_a_turn() {
    let mut bell = Controller::new(BELL, "");
    bell.connect(64, TABLET);
    bell.say(64, &[0x12, 4, 0, 2, 0]);
    bell.host.update(3, &[1]).expect("it is a value");
    let log = Log::default();
    let noted = |turn: &mut Turn<'_>| -> Result<(), Fault> {
        for notice in turn.notices() {
            log.add(notice);
        }
        Ok(())
    };
    bell.host.finish(&log, noted).expect("all is sent");
    assert_eq!(log.taken(), ["64 [1d, 03, 00, 01]"]);
    bell.host.tick(30_000).expect("time goes on");
    // Its notice is not lost, if bytes follow at once.
    let read = data(64, &[0x0a, 3, 0]);
    bell.host.feed(&read, &log, noted).expect("all is sent");
    assert_eq!(log.taken(), ["TimedOut { connection: 64 }", "64 [0b, 01]"]);
}

#[test]
fn an_update_is_saved_before_a_phone_is_notified() {
    let (mut door, log) = (door(), Log::default());
    let values = |turn: &mut Turn<'_>| -> Result<(), Fault> {
        log.add(turn.host().values(Saves::All)?);
        if !turn.notices().is_empty() {
            turn.update(STATE, &[1]);
            turn.update(6, &[50]);
            turn.update(6, &[50]);
        }
        Ok(())
    };
    let write = data(64, &[0x12, 21, 0, 7]);
    door.host.feed(&write, &log, values).expect("all is sent");
    let expected = [
        "\"21 fff4 07\\n\"",
        "64 [13]",
        "\"10 fff1 01\\n21 fff4 07\\n\"",
        "64 [1b, 0a, 00, 01]",
        "\"6 2a19 32\\n10 fff1 01\\n21 fff4 07\\n\"",
    ];
    assert_eq!(log.taken(), expected);
    door.bring(&COMPLETED).expect("they are completed");

    // The same for a call of the program, once.
    door.host.update(STATE, &[0]).expect("nothing is owed");
    door.host.finish(&log, values).expect("all is sent");
    door.host.finish(&log, values).expect("all is sent");
    let expected = ["\"6 2a19 32\\n21 fff4 07\\n\"", "64 [1b, 0a, 00, 00]"];
    assert_eq!(log.taken(), expected);
    door.host.update(STATE, &[0]).expect("nothing is owed");
    door.host.finish(&log, values).expect("all is sent");
    assert_eq!(log.taken(), ["64 [1b, 0a, 00, 00]"]);
}

#[test]
fn a_table_that_is_replaced_has_a_turn() {
    let mut porch = Controller::new(PORCH, "");
    porch
        .host
        .replace(PORCH_NEXT)
        .expect("both tell of changes");
    let mut turns = 0;
    let mut count = |turn: &mut Turn<'_>| -> Result<(), Fault> {
        turns += 1;
        assert!(turn.notices().is_empty());
        Ok(())
    };
    porch
        .host
        .finish(io::sink(), &mut count)
        .expect("all is sent");
    porch
        .host
        .finish(io::sink(), &mut count)
        .expect("all is sent");
    assert_eq!(turns, 1);
}

#[test]
fn several_parts_of_a_value_are_one_notice() {
    let (mut door, log) = (door(), Log::default());
    let mut noted = |turn: &mut Turn<'_>| -> Result<(), Fault> {
        for notice in turn.notices() {
            log.add(notice);
        }
        Ok(())
    };
    let parts = [
        data(64, &[0x16, 21, 0, 0, 0, 5, 6]),
        data(64, &[0x16, 21, 0, 2, 0, 3]),
        data(64, &[0x16, 10, 0, 0, 0, 1]),
        data(64, &[0x18, 1]),
    ];
    let fed = door.host.feed(&parts.concat(), io::sink(), &mut noted);
    fed.expect("all is sent");
    let expected = [
        format!("Written {{ connection: 64, attribute: {NOTE}, value: [5, 6, 3] }}"),
        "Written { connection: 64, attribute: 10, value: [1] }".into(),
    ];
    assert_eq!(log.taken(), expected);
}

/// A writer that fails.
struct Full;

impl Write for Full {
    fn write(&mut self, _bytes: &[u8]) -> io::Result<usize> {
        Err(io::ErrorKind::WouldBlock.into())
    }

    fn flush(&mut self) -> io::Result<()> {
        Ok(())
    }
}

#[test]
fn an_error_of_the_writer_ends_the_host() {
    let mut door = door();
    let fed = door.host.feed(&data(64, &[0x0a, 3, 0]), Full, ignore);
    assert!(matches!(fed, Err(Fault::Io(error)) if error.kind() == io::ErrorKind::WouldBlock));
    assert_eq!(door.host.tick(1), Err(Error::HasStopped));
}

#[test]
fn what_is_sent_is_flushed() {
    let mut door = door();
    let mut to = io::BufWriter::new(Vec::new());
    let fed = door.host.feed(&data(64, &[0x0a, 3, 0]), &mut to, ignore);
    fed.expect("all is sent");
    assert_eq!(to.get_ref()[9..], *b"\x0bLock");
}

#[test]
fn an_error_may_be_of_any_type() {
    let mut door = door();
    let read = data(64, &[0x0a, 3, 0]);
    let fed: Result<(), Box<dyn std::error::Error>> = door.host.feed(&read, io::sink(), |_| Ok(()));
    fed.expect("all is sent");
    let fed: io::Result<()> = door.host.feed(&read, io::sink(), |_| Ok(()));
    fed.expect("all is sent");
}
