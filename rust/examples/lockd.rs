//! A door lock: serves clients over a controller, turns a motor, which is a line on standard output,
//! and saves what clients have changed before it answers them.
//!
//!     cargo run --example lockd -- TABLE KEYS STATE CONTROLLER
//!
//! STATE is a folder, of this program only. Its files `rows` and `values` are read at the start, if
//! they exist, and each is replaced as a whole when its text changes. CONTROLLER is a Unix socket at
//! which a controller listens, or a serial line: set that up first, for example by
//! `stty -F /dev/ttyUSB0 115200 raw -echo crtscts clocal`.
//!
//! Standard input is a panel inside the house. Its lines are `open`, `shut`, `allow SECONDS`, which
//! authorizes all clients that are connected, and `stop`, which ends the connections and the program.
//! SIGTERM ends the program at once, since the standard library has no handler for it. Nothing is
//! lost that a client was told, but the controller may go on to advertise and to hold connections
//! until the next start resets it.
//!
//! What a client changes is saved first; then the motor turns, and then the client is answered. If the
//! state cannot be saved, the client is not answered, and is disconnected; the program serves the
//! others, and tries again each second. A client without a key is disconnected after half a
//! minute. The program ends with status 1 if the controller ends, if one at a socket takes nothing
//! for five seconds, if the host stops, or if a file cannot be read at the start.

use gihandop::{Config, Files, Host, Notice, Saves, Turn, Uuid};
use std::env;
use std::error::Error;
use std::fs::{self, File, OpenOptions};
use std::io::{self, BufRead, ErrorKind, Read, Write};
use std::os::fd::OwnedFd;
use std::os::unix::fs::{FileTypeExt, OpenOptionsExt};
use std::os::unix::net::UnixStream;
use std::path::PathBuf;
use std::process::ExitCode;
use std::sync::mpsc::{Receiver, RecvTimeoutError, SyncSender, sync_channel};
use std::thread;
use std::time::{Duration, Instant};

/// How long a client may stay without a key, in milliseconds.
const PATIENCE: u64 = 30_000;
/// How long the program waits before it tries again to save, in milliseconds.
const RETRY: u64 = 1000;
/// How long clients may take to disconnect at the end, in milliseconds.
const FAREWELL: u64 = 2000;
/// How long the controller may take nothing.
const STALL: Duration = Duration::from_secs(5);
/// HCI Reset. A controller that is reset does not advertise.
const RESET: [u8; 4] = [0x01, 0x03, 0x0c, 0x00];

/// What the program waits for.
enum Event {
    /// Bytes of the controller, or why there are no more.
    Controller(io::Result<Vec<u8>>),
    /// A line of the panel.
    Panel(String),
}

/// A text file that is replaced as a whole.
struct Saved {
    folder: PathBuf,
    name: &'static str,
    /// The text that is on the disk for certain: none at first, and after a failure.
    text: Option<String>,
}

impl Saved {
    fn new(folder: &str, name: &'static str) -> Saved {
        Saved {
            folder: PathBuf::from(folder),
            name,
            text: None,
        }
    }

    /// Returns the text of the file, which is empty if there is none.
    fn read(&self) -> io::Result<String> {
        match fs::read_to_string(self.folder.join(self.name)) {
            Err(error) if error.kind() == ErrorKind::NotFound => Ok(String::new()),
            text => text,
        }
    }

    /// Replaces the file, if its text is another one. When it returns `Ok`, the text is on the disk.
    fn replace(&mut self, text: String) -> io::Result<()> {
        if self.text.as_ref() == Some(&text) {
            return Ok(());
        }
        self.text = None;
        let new = self.folder.join(format!("{}.new", self.name));
        let mut options = OpenOptions::new();
        options.write(true).create(true).truncate(true).mode(0o600);
        let mut file = options.open(&new)?;
        file.write_all(text.as_bytes())?;
        file.sync_all()?;
        fs::rename(&new, self.folder.join(self.name))?;
        File::open(&self.folder)?.sync_all()?;
        self.text = Some(text);
        Ok(())
    }
}

/// The files of the state.
struct State {
    rows: Saved,
    values: Saved,
    /// The last call of `save` has failed.
    is_behind: bool,
}

impl State {
    fn new(folder: &str) -> State {
        State {
            rows: Saved::new(folder, "rows"),
            values: Saved::new(folder, "values"),
            is_behind: false,
        }
    }

    /// Saves what has changed. When it returns `Ok`, all of it is on the disk.
    fn save(&mut self, host: &Host) -> io::Result<()> {
        self.is_behind = true;
        self.rows.replace(host.rows()?)?;
        self.values.replace(host.values(Saves::Writable)?)?;
        self.is_behind = false;
        Ok(())
    }
}

/// What the host's application has.
struct Lock {
    state: State,
    /// The handle of the value that opens the door.
    door: u16,
    begin: Instant,
    /// Whether the motor has opened the door, or nothing before it has turned.
    motor: Option<bool>,
    /// The connections without a key, each with the time at which it is disconnected.
    strangers: Vec<(u16, u64)>,
}

impl Lock {
    /// Returns the time in milliseconds.
    fn now(&self) -> u64 {
        self.begin.elapsed().as_millis() as u64
    }

    /// Saves what clients or the panel have changed, and then does what clients ask of the lock.
    fn take_part(&mut self, turn: &mut Turn<'_>) -> io::Result<()> {
        for notice in turn.notices() {
            match notice {
                Notice::Connected { connection, .. } | Notice::Unsecured { connection } => {
                    let end = self.now() + PATIENCE;
                    self.strangers.push((connection, end));
                }
                Notice::Secured { connection, .. } | Notice::Disconnected { connection } => {
                    self.strangers.retain(|it| it.0 != connection);
                }
                _ => {}
            }
        }
        match self.state.save(turn.host()) {
            Ok(()) => self.obey(turn.host()),
            Err(error) => {
                eprintln!("lockd: cannot save: {error}");
                turn.withhold();
            }
        }
        Ok(())
    }

    /// Turns the motor to where the value says.
    fn obey(&mut self, host: &Host) {
        let value = host.value(self.door);
        self.turn_motor(value.as_deref() == Some(&[1]));
    }

    /// Turns the motor to where it is not yet.
    fn turn_motor(&mut self, is_open: bool) {
        if self.motor != Some(is_open) {
            self.motor = Some(is_open);
            println!("motor: {}", if is_open { "open" } else { "shut" });
        }
    }

    /// Removes a connection that has had no key for too long, if there is one, and returns it.
    fn next_late(&mut self) -> Option<u16> {
        let now = self.now();
        let place = self.strangers.iter().position(|it| it.1 <= now)?;
        Some(self.strangers.remove(place).0)
    }

    /// Returns how long nothing has to be done, in milliseconds, unless something comes.
    fn leisure(&self, host: &Host) -> u64 {
        let ends = self.strangers.iter().map(|it| it.1);
        let first = ends.chain(host.deadline()).min();
        let longest = if self.state.is_behind { RETRY } else { 60_000 };
        first.map_or(longest, |time| time.saturating_sub(self.now()).min(longest))
    }
}

/// A host with its lock and the way to its controller.
struct Daemon {
    host: Host,
    lock: Lock,
    controller: File,
}

impl Daemon {
    /// Finishes a call.
    fn finish(&mut self) -> io::Result<()> {
        let Daemon {
            host,
            lock,
            controller,
        } = self;
        host.finish(controller, |turn| lock.take_part(turn))
    }

    fn accept(&mut self, bytes: &[u8]) -> io::Result<()> {
        let Daemon {
            host,
            lock,
            controller,
        } = self;
        host.feed(bytes, controller, |turn| lock.take_part(turn))
    }

    /// Serves until the panel says `stop`.
    fn serve(&mut self, events: &Receiver<Event>) -> io::Result<()> {
        self.lock.obey(&self.host);
        self.finish()?;
        loop {
            let wait = Duration::from_millis(self.lock.leisure(&self.host));
            let event = events.recv_timeout(wait);
            self.host.tick(self.lock.now())?;
            self.finish()?;
            match event {
                Ok(Event::Controller(bytes)) => self.accept(&bytes?)?,
                Ok(Event::Panel(line)) if line == "stop" => return Ok(()),
                Ok(Event::Panel(line)) => self.press(&line)?,
                Err(RecvTimeoutError::Timeout) => {}
                Err(RecvTimeoutError::Disconnected) => return Err(ErrorKind::BrokenPipe.into()),
            }
            while let Some(connection) = self.lock.next_late() {
                self.disconnect(connection)?;
            }
            if self.lock.state.is_behind && self.lock.state.save(&self.host).is_ok() {
                eprintln!("lockd: all is saved");
                self.lock.obey(&self.host);
            }
        }
    }

    /// Does what a line of the panel says.
    fn press(&mut self, line: &str) -> io::Result<()> {
        let value = match line.split_once(' ') {
            None if line == "open" => [1],
            None if line == "shut" => [0],
            Some(("allow", seconds)) => return self.allow(seconds),
            _ => {
                eprintln!("lockd: unknown: {line}");
                return Ok(());
            }
        };
        // Whoever stands at the door does not wait for the disk.
        self.lock.turn_motor(value == [1]);
        self.host.update(self.lock.door, &value)?;
        self.finish()
    }

    /// Authorizes all clients that are connected for some seconds.
    fn allow(&mut self, seconds: &str) -> io::Result<()> {
        let Ok(seconds) = seconds.parse::<u32>() else {
            eprintln!("lockd: no number of seconds: {seconds}");
            return Ok(());
        };
        let until = self.lock.now() + 1000 * u64::from(seconds);
        for connection in self.served() {
            self.host.authorize(connection, until)?;
            self.finish()?;
        }
        Ok(())
    }

    /// Returns the connections that the host does not end.
    fn served(&self) -> Vec<u16> {
        let served = self.host.connections().filter(|it| !it.is_ending);
        served.map(|it| it.handle).collect()
    }

    /// Ends a connection, if the host does not end it already.
    fn disconnect(&mut self, connection: u16) -> io::Result<()> {
        if self.served().contains(&connection) {
            self.host.disconnect(connection)?;
        }
        self.finish()
    }

    /// Ends all connections, waits until they have ended, and resets the controller.
    fn stop(&mut self, events: &Receiver<Event>) -> io::Result<()> {
        for connection in self.served() {
            self.disconnect(connection)?;
        }
        let end = Instant::now() + Duration::from_millis(FAREWELL);
        while self.host.connections().next().is_some() {
            match events.recv_timeout(end.saturating_duration_since(Instant::now())) {
                Ok(Event::Controller(bytes)) => self.accept(&bytes?)?,
                Ok(Event::Panel(_)) => {}
                Err(_) => break,
            }
        }
        self.controller.write_all(&RESET)
    }
}

/// Opens the way to a controller.
fn open_controller(path: &str) -> io::Result<File> {
    if fs::metadata(path)?.file_type().is_socket() {
        let stream = UnixStream::connect(path)?;
        stream.set_write_timeout(Some(STALL))?;
        return Ok(File::from(OwnedFd::from(stream)));
    }
    OpenOptions::new().read(true).write(true).open(path)
}

/// Sends what the controller sends, up to its end.
fn read_controller(mut controller: File, events: &SyncSender<Event>) {
    let mut bytes = [0; 4096];
    loop {
        let read = match controller.read(&mut bytes) {
            Ok(0) => Err(io::Error::new(
                ErrorKind::UnexpectedEof,
                "the controller has ended",
            )),
            Ok(count) => Ok(bytes[..count].to_vec()),
            Err(error) if error.kind() == ErrorKind::Interrupted => continue,
            Err(error) => Err(error),
        };
        let is_over = read.is_err();
        if events.send(Event::Controller(read)).is_err() || is_over {
            return;
        }
    }
}

/// Sends each line of the panel, up to its end.
fn read_panel(events: &SyncSender<Event>) {
    for line in io::stdin().lock().lines() {
        let Ok(line) = line else { return };
        if events.send(Event::Panel(line)).is_err() {
            return;
        }
    }
}

fn run(table: &str, keys: &str, folder: &str, controller: &str) -> Result<(), Box<dyn Error>> {
    let state = State::new(folder);
    let read = |path| fs::read_to_string(path).map_err(|error| format!("{path}: {error}"));
    let saved = |file: &Saved| file.read().map_err(|error| format!("{folder}: {error}"));
    let files = Files {
        table: &read(table)?,
        keys: &read(keys)?,
        rows: &saved(&state.rows)?,
        values: &saved(&state.values)?,
    };
    let host = Host::open(files, &Config::default())?;
    if host.values_left_out() > 0 {
        eprintln!(
            "lockd: {} values do not fit the table",
            host.values_left_out()
        );
    }
    let door = host
        .find(Uuid::Short(0xfff0), Uuid::Short(0xfff1), 1)
        .ok_or("the table has no lock")?;
    let controller =
        open_controller(controller).map_err(|error| format!("{controller}: {error}"))?;

    let (sender, events) = sync_channel(16);
    let (to_read, panel) = (controller.try_clone()?, sender.clone());
    thread::spawn(move || read_controller(to_read, &sender));
    thread::spawn(move || read_panel(&panel));
    let lock = Lock {
        state,
        door,
        begin: Instant::now(),
        motor: None,
        strangers: Vec::new(),
    };
    let mut daemon = Daemon {
        host,
        lock,
        controller,
    };
    daemon.serve(&events)?;
    Ok(daemon.stop(&events)?)
}

fn main() -> ExitCode {
    let words: Vec<String> = env::args().skip(1).collect();
    let [table, keys, state, controller] = &words[..] else {
        eprintln!("usage: lockd TABLE KEYS STATE CONTROLLER");
        return ExitCode::from(64);
    };
    match run(table, keys, state, controller) {
        Ok(()) => ExitCode::SUCCESS,
        Err(error) => {
            eprintln!("lockd: {error}");
            ExitCode::FAILURE
        }
    }
}
