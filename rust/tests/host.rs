//! A host is opened with the files of `examples/`, and phones connect.

mod controller;

use controller::{BELL, Controller, DOOR, KEYS, PORCH, PORCH_NEXT, TABLET};
use gihandop::{Config, Error, Files, Host, Key, Notice, Peer, Saves, Uuid};
use std::error::Error as _;
use std::io::{self, ErrorKind};

const STATE: u16 = 10;
const STATE_CONFIGURATION: u16 = 11;

#[test]
fn a_phone_with_a_key_opens_the_lock() {
    let mut door = Controller::new(DOOR, "");
    door.connect(64, TABLET);
    let peer = Peer {
        is_random: false,
        address: TABLET,
    };
    assert_eq!(
        door.notices(),
        [Notice::Connected {
            connection: 64,
            peer
        }]
    );
    assert_eq!(peer.to_string(), "00:11:22:33:44:55");

    door.say(64, &[0x12, 10, 0, 1]);
    assert_eq!(door.heard, [[0x01, 0x12, 10, 0, 0x0f]]);
    assert_eq!(door.notices(), []);

    door.encrypt(64);
    let key = Key {
        size: 16,
        authenticated: true,
        secure: false,
    };
    assert_eq!(
        door.notices(),
        [Notice::Secured {
            connection: 64,
            key
        }]
    );
    door.say(64, &[0x12, 10, 0, 1]);
    assert_eq!(door.heard, [[0x13]]);
    let written = Notice::Written {
        connection: 64,
        attribute: STATE,
        value: &[1],
    };
    assert_eq!(door.notices(), [written]);
    assert!(written.is_change());
    assert_eq!(written.connection(), 64);
    assert_eq!(door.host.value(STATE), Some(vec![1]));

    door.connect(65, [9; 6]);
    let there: Vec<_> = door.host.connections().collect();
    assert_eq!(there.len(), 2);
    assert_eq!((there[1].handle, there[1].key), (65, None));
    assert_eq!(
        (there[0].handle, there[0].mtu, there[0].peer),
        (64, 23, peer)
    );
    assert_eq!((there[0].key, there[0].is_ending), (Some(key), false));
}

#[test]
fn a_subscription_lasts_until_the_next_run() {
    let mut door = Controller::new(DOOR, "");
    door.connect(64, TABLET);
    door.encrypt(64);
    door.say(64, &[0x12, 11, 0, 1, 0]);
    let attribute = STATE_CONFIGURATION;
    let configured = Notice::Configured {
        connection: 64,
        attribute,
        bits: 1,
    };
    assert_eq!(door.notices(), [configured]);
    let rows = door.host.rows().expect("there is memory");
    assert_eq!(rows, "0 00:11:22:33:44:55 11 1\n");

    let mut door = Controller::new(DOOR, &rows);
    door.connect(65, TABLET);
    door.encrypt(65);
    door.host.update(STATE, &[1]).expect("all is out");
    door.settle();
    assert_eq!(door.heard, [[0x1b, 10, 0, 1]]);
}

#[test]
fn an_application_ends_a_connection() {
    let mut door = Controller::new(DOOR, "");
    door.connect(64, TABLET);
    door.host.disconnect(64).expect("it is there");
    let notices = door.host.notices();
    let ending = Notice::Ending {
        connection: 64,
        reason: 0x13,
    };
    assert_eq!(notices.iter().collect::<Vec<_>>(), [ending]);
    assert!(door.host.notices().is_empty());
    assert!(door.host.connections().all(|it| it.is_ending));
    door.settle();
    assert_eq!(door.notices(), [Notice::Disconnected { connection: 64 }]);
    assert_eq!(door.host.connections().count(), 0);
    assert_eq!(door.host.disconnect(64), Err(Error::NoSuchConnection(64)));
}

#[test]
fn a_connection_has_a_number_a_slot_and_the_time_of_its_last_data() {
    let mut door = Controller::new(DOOR, "");
    let seen = |door: &Controller| -> Vec<_> {
        let connections = door.host.connections();
        connections
            .map(|it| (it.handle, it.ordinal, it.slot, it.heard))
            .collect()
    };
    door.host.tick(1000).expect("time goes on");
    door.connect(64, TABLET);
    door.host.tick(2000).expect("time goes on");
    door.connect(65, [9; 6]);
    assert_eq!(seen(&door), [(64, 1, 0, 1000), (65, 2, 1, 2000)]);
    door.host.tick(3000).expect("time goes on");
    door.say(64, &[0x0a, 3, 0]);
    assert_eq!(seen(&door), [(64, 1, 0, 3000), (65, 2, 1, 2000)]);
    door.bring(&[0x04, 0x05, 4, 0, 64, 0, 0x13])
        .expect("it may end");
    door.host.tick(4000).expect("time goes on");
    door.connect(64, TABLET);
    assert_eq!(seen(&door), [(64, 3, 0, 4000), (65, 2, 1, 2000)]);
}

#[test]
fn an_indication_is_late_at_the_deadline() {
    let mut bell = Controller::new(BELL, "");
    let button = bell
        .host
        .find(Uuid::Short(0xfff8), Uuid::Short(0xfff9), 1)
        .expect("the table has it");
    bell.connect(64, TABLET);
    let configuration = (button + 1).to_le_bytes();
    bell.say(64, &[0x12, configuration[0], configuration[1], 2, 0]);
    bell.host.tick(1000).expect("time goes on");
    assert_eq!(bell.host.deadline(), None);
    for value in [1, 2] {
        bell.host.update(button, &[value]).expect("it is a value");
        bell.settle();
        bell.say(64, &[0x1e]);
        let confirmed = Notice::Confirmed {
            connection: 64,
            attribute: button,
        };
        assert_eq!(bell.notices(), [confirmed]);
    }
    bell.host.update(button, &[3]).expect("it is a value");
    bell.settle();
    assert_eq!(bell.host.deadline(), Some(31_000));
    bell.host.tick(31_000).expect("time goes on");
    let notices = bell.host.notices();
    let late = Notice::TimedOut { connection: 64 };
    assert_eq!(notices.iter().collect::<Vec<_>>(), [late]);
    assert_eq!(bell.host.tick(30_999), Err(Error::TimeWentBack));
}

#[test]
fn an_authorization_ends_at_the_deadline() {
    let mut bell = Controller::new(BELL, "");
    bell.connect(64, TABLET);
    bell.host.tick(1000).expect("time goes on");
    bell.host.authorize(64, 6000).expect("it is connected");
    assert_eq!(bell.host.deadline(), Some(6000));
    bell.host.tick(5999).expect("time goes on");
    assert_eq!(bell.host.deadline(), Some(6000));
    bell.host.tick(6000).expect("time goes on");
    assert_eq!(bell.host.deadline(), None);
}

#[test]
fn a_table_is_replaced() {
    let mut porch = Controller::new(PORCH, "");
    porch
        .host
        .replace(PORCH_NEXT)
        .expect("both tell of changes");
    porch.settle();
    let refused = porch
        .host
        .replace("service = ")
        .expect_err("it is no table");
    assert!(matches!(refused, Error::Table(ref fault) if fault.number() == 1));
    let mut door = Controller::new(DOOR, "");
    assert_eq!(door.host.replace(PORCH), Err(Error::NoServiceChanged));
}

#[test]
fn values_are_found_by_their_types() {
    let door = Controller::new(DOOR, "").host;
    let (lock, state) = (Uuid::Short(0xfff0), Uuid::Short(0xfff1));
    assert_eq!(door.find(lock, state, 1), Some(STATE));
    let long = 0x0000_fff0_0000_1000_8000_0080_5f9b_34fb_u128;
    assert_eq!(door.find(Uuid::Long(long), state, 1), Some(STATE));
    assert_eq!(door.find(state, lock, 1), None);
    assert_eq!(door.find(Uuid::Long(long + 1), state, 1), None);
    let third = Uuid::Short(0xfff3);
    let found = [0, 1, 2, 3, 4, u16::MAX].map(|number| door.find(lock, third, number));
    assert_eq!(found, [None, Some(15), Some(17), Some(19), None, None]);
    assert_eq!(door.value(3).as_deref(), Some(&b"Lock"[..]));
    assert_eq!(door.value(STATE_CONFIGURATION), Some(vec![]));
    assert_eq!((door.value(0), door.value(22)), (None, None));
}

#[test]
fn values_are_restored() {
    let mut door = Controller::new(DOOR, "");
    assert_eq!(door.host.values(Saves::All).as_deref(), Ok(""));
    door.connect(64, TABLET);
    door.encrypt(64);
    door.say(64, &[0x12, 21, 0, b'h', b'i']);
    door.say(64, &[0x12, 10, 0, 1]);
    door.host.update(6, &[50]).expect("it is a value");
    let values = door.host.values(Saves::Writable).expect("there is memory");
    assert_eq!(values, "10 fff1 01\n21 fff4 6869\n");
    let all = door.host.values(Saves::All).expect("there is memory");
    assert_eq!(all, "6 2a19 32\n10 fff1 01\n21 fff4 6869\n");

    let files = |values| Files {
        table: DOOR,
        values,
        ..Files::default()
    };
    let mut next = Controller::with(files(&all[..]));
    assert_eq!(next.host.values_left_out(), 0);
    assert_eq!(next.host.value(6), Some(vec![50]));
    assert_eq!(next.host.value(21), Some(b"hi".to_vec()));
    assert_eq!(next.host.values(Saves::All).as_ref(), Ok(&all));
    next.host.update(6, &[51]).expect("nothing is owed");

    // No attribute, another type, and another length than its fixed one.
    let unfit = "10 fff1 01\n99 fff1 00\n6 fff1 00\n6 2a19 -\n";
    let next = Host::open(files(unfit), &Config::default()).expect("each line is a value");
    assert_eq!(next.values_left_out(), 3);
    assert_eq!(next.values(Saves::All).as_deref(), Ok("10 fff1 01\n"));
}

#[test]
fn a_table_that_is_replaced_has_its_own_values() {
    let mut porch = Controller::new(PORCH, "");
    porch
        .host
        .replace(PORCH_NEXT)
        .expect("both tell of changes");
    // The value of Service Changed has all handles.
    let values = porch.host.values(Saves::All);
    assert_eq!(values.as_deref(), Ok("3 2a05 0100ffff\n"));
    assert_eq!(porch.host.values(Saves::Writable).as_deref(), Ok(""));
}

#[test]
fn a_fault_of_a_file_has_its_place() {
    let text = |table, keys, rows, values| {
        let files = Files {
            table,
            keys,
            rows,
            values,
        };
        let error = Host::open(files, &Config::default()).expect_err("it is refused");
        error.to_string()
    };
    let table = DOOR.replace("uuid = \"2a19\"", "uuid = \"2a1\"");
    assert!(
        text(&table, KEYS, "", "").starts_with("table: service 2"),
        "{}",
        text(&table, KEYS, "", "")
    );
    let keys = KEYS.replace("ediv = 514", "ediv = -1");
    assert!(
        text(DOOR, &keys, "", "").starts_with("keys: key 2"),
        "{}",
        text(DOOR, &keys, "", "")
    );
    let rows = "0 00:11:22:33:44:55 11 1\nnone\n";
    assert!(
        text(DOOR, KEYS, rows, "").contains("line 2"),
        "{}",
        text(DOOR, KEYS, rows, "")
    );
    let values = "10 fff1 01\n10 fff1\n";
    assert!(
        text(DOOR, KEYS, "", values).contains("line 2"),
        "{}",
        text(DOOR, KEYS, "", values)
    );
    let mut porch = Controller::new(PORCH, "");
    let refused = porch.host.replace(&table).expect_err("it is refused");
    assert_eq!(refused.to_string(), text(&table, "", "", ""));
}

#[test]
fn what_is_refused_says_why() {
    let opened = |table, keys, rows, config: &Config| {
        let files = Files {
            table,
            keys,
            rows,
            values: "",
        };
        let error = Host::open(files, config).expect_err("it is refused");
        let text = error.to_string();
        (error, text)
    };
    let config = Config::default();
    let (error, text) = opened("service = ", "", "", &config);
    assert!(
        matches!(error, Error::Table(ref fault) if fault.number() == 1 && fault.text() == text)
    );
    assert!(text.starts_with("table: "), "{text}");
    let (error, _) = opened(DOOR, "key = 1", "", &config);
    assert!(matches!(error, Error::Keys(ref fault) if fault.number() == 9));
    let (error, _) = opened(DOOR, KEYS, "no row\n", &config);
    assert!(matches!(error, Error::Rows(ref fault) if fault.number() == 1));
    let files = Files {
        table: DOOR,
        values: "no value\n",
        ..Files::default()
    };
    let error = Host::open(files, &config).expect_err("it is refused");
    assert!(matches!(error, Error::Values(ref fault) if fault.number() == 1));
    let slots = Config {
        slots: 9,
        ..Config::default()
    };
    assert_eq!(opened(DOOR, KEYS, "", &slots).0, Error::BadConfig);
    let advertising = Config {
        advertising: vec![0; 260],
        ..Config::default()
    };
    assert_eq!(opened(DOOR, KEYS, "", &advertising).0, Error::BadConfig);
    let address = Config {
        address: Some([0; 6]),
        ..Config::default()
    };
    assert_eq!(opened(DOOR, KEYS, "", &address).0, Error::BadConfig);

    let mut door = Controller::new(DOOR, "").host;
    assert_eq!(door.update(22, &[1]), Err(Error::NoSuchHandle(22)));
    assert_eq!(
        door.update(STATE_CONFIGURATION, &[1]),
        Err(Error::NotAValue(STATE_CONFIGURATION))
    );
    assert_eq!(door.update(STATE, &[]), Err(Error::BadLength(STATE)));
    assert_eq!(door.authorize(64, 1), Err(Error::NoSuchConnection(64)));
}

#[test]
fn nothing_is_taken_in_as_long_as_a_packet_is_owed() {
    let files = Files {
        table: DOOR,
        ..Files::default()
    };
    let mut door = Host::open(files, &Config::default()).expect("the table is good");
    assert_eq!(door.take(&[0x04]), Err(Error::OutputOwed));
    assert_eq!(door.tick(1), Err(Error::OutputOwed));
    let mut sent = Vec::new();
    door.send(&mut sent).expect("a Vec takes all");
    assert_eq!(sent, [0x01, 0x03, 0x0c, 0x00]);
    assert_eq!(door.take(&[0x04]), Ok(1));
}

#[test]
fn a_stream_out_of_step_stops_the_host() {
    let mut door = Controller::new(DOOR, "");
    assert_eq!(door.bring(&[0x07]), Err(Error::Desync));
    assert_eq!(door.bring(&[0x04]), Err(Error::Desync));
    assert_eq!(door.host.tick(1), Err(Error::HasStopped));
    assert_eq!(door.host.value(3).as_deref(), Some(&b"Lock"[..]));
    let error = door
        .host
        .feed(&[0x04], io::sink(), |_| Ok::<(), io::Error>(()))
        .expect_err("it has stopped");
    assert_eq!(error.kind(), ErrorKind::InvalidData);
    let inner = error.get_ref().and_then(|it| it.downcast_ref::<Error>());
    assert_eq!(inner, Some(&Error::Desync));
    assert!(Error::Desync.source().is_none());
}

#[test]
fn many_rows_are_given_whole() {
    let mut table = String::from("[[service]]\nuuid = \"fff0\"\n");
    let mut rows = String::new();
    for number in 0..60 {
        table += "[[service.characteristic]]\nuuid = \"fff1\"\nvalue = \"00\"\n";
        table += "properties = [\"notify\"]\n";
        rows += &format!("0 00:11:22:33:44:55 {} 1\n", 3 * number + 4);
    }
    assert!(rows.len() > 1024);
    let host = Controller::new(&table, &rows).host;
    assert_eq!(host.rows().expect("there is memory"), rows);
}

#[test]
fn the_version_is_that_of_the_crate() {
    let (major, minor, patch) = gihandop::version();
    let version = format!("{major}.{minor}.{patch}");
    assert_eq!(version, env!("CARGO_PKG_VERSION"));
    let text = gihandop::version_text();
    assert!(text == version || text == format!("{version} (not proved)"));
}
