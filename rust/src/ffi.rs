//! What `include/gihandop.h` declares, in its order and by its names. A test compares the two.

use std::ffi::c_void;

#[repr(C)]
#[derive(Debug)]
pub struct gh_host {
    pub at: *mut c_void,
}

pub const GH_VERSION: u32 = 2000;

pub const GH_LONGEST_PACKET: usize = 260;

#[repr(C)]
#[derive(Debug)]
pub struct gh_config {
    pub size: usize,
    pub slots: usize,
    pub rx_mtu: u16,
    pub is_random: u8,
    pub address: [u8; 6],
    pub advertising_length: u8,
    pub advertising: [u8; 31],
}

pub const GH_DONE: u32 = 0;
pub const GH_NOTHING: u32 = 1;
pub const GH_CLOSED: u32 = 2;
pub const GH_ALREADY_OPEN: u32 = 3;
pub const GH_OUTPUT_OWED: u32 = 4;
pub const GH_SHORT_BUFFER: u32 = 5;
pub const GH_OUT_OF_MEMORY: u32 = 6;
pub const GH_BAD_CONFIG: u32 = 7;
pub const GH_BAD_SIZE: u32 = 8;
pub const GH_STOPPED: u32 = 20;
pub const GH_DESYNC: u32 = 21;
pub const GH_BAD_EVENT: u32 = 22;
pub const GH_BAD_INIT: u32 = 23;
pub const GH_HARDWARE: u32 = 24;
pub const GH_REFUSED: u32 = 40;
pub const GH_NO_SUCH_HANDLE: u32 = 41;
pub const GH_NOT_A_VALUE: u32 = 42;
pub const GH_BAD_LENGTH: u32 = 43;
pub const GH_NO_SUCH_CONNECTION: u32 = 44;
pub const GH_TIME_WENT_BACK: u32 = 45;
pub const GH_HAS_STOPPED: u32 = 46;
pub const GH_NO_SERVICE_CHANGED: u32 = 47;
pub const GH_BAD_TABLE: u32 = 100;
pub const GH_TABLE_NOT_TOML: u32 = 101;
pub const GH_TABLE_MISSING: u32 = 102;
pub const GH_TABLE_BAD_UUID: u32 = 103;
pub const GH_TABLE_BAD_HEX: u32 = 104;
pub const GH_TABLE_TOO_LONG: u32 = 105;
pub const GH_TABLE_BAD_SECURITY: u32 = 106;
pub const GH_TABLE_BAD_PROPERTY: u32 = 107;
pub const GH_TABLE_TOO_MANY: u32 = 108;
pub const GH_TABLE_BAD_INCLUDE: u32 = 109;
pub const GH_TABLE_OUT_OF_MEMORY: u32 = 110;
pub const GH_TABLE_SHAPE: u32 = 111;
pub const GH_BAD_KEYS: u32 = 200;
pub const GH_KEYS_NOT_TOML: u32 = 201;
pub const GH_KEYS_MISSING: u32 = 202;
pub const GH_KEYS_BAD_ADDRESS: u32 = 203;
pub const GH_KEYS_BAD_HEX: u32 = 204;
pub const GH_KEYS_BAD_SIZE: u32 = 205;
pub const GH_KEYS_TWICE: u32 = 206;
pub const GH_KEYS_TOO_MANY: u32 = 207;
pub const GH_KEYS_OUT_OF_MEMORY: u32 = 208;
pub const GH_KEYS_SHAPE: u32 = 209;
pub const GH_KEYS_NOT_ZERO: u32 = 210;
pub const GH_BAD_ROWS: u32 = 300;
pub const GH_ROWS_BAD_LINE: u32 = 301;
pub const GH_ROWS_TWICE: u32 = 302;
pub const GH_ROWS_TOO_MANY: u32 = 303;
pub const GH_ROWS_OUT_OF_MEMORY: u32 = 304;
pub const GH_BAD_VALUES: u32 = 400;
pub const GH_VALUES_BAD_LINE: u32 = 401;

pub const GH_LONGEST_VALUE: usize = 512;

#[repr(C)]
#[derive(Debug)]
pub struct gh_connection {
    pub size: usize,
    pub handle: u16,
    pub mtu: u16,
    pub address_kind: u8,
    pub address: [u8; 6],
    pub key_size: u8,
    pub authenticated: bool,
    pub secure: bool,
    pub ending: bool,
    pub authorized_until: u64,
    pub ordinal: u64,
    pub heard: u64,
    pub slot: u8,
}

impl gh_connection {
    /// `GH_CONNECTION_INIT`.
    pub fn new() -> gh_connection {
        gh_connection {
            size: size_of::<gh_connection>(),
            handle: 0,
            mtu: 0,
            address_kind: 0,
            address: [0; 6],
            key_size: 0,
            authenticated: false,
            secure: false,
            ending: false,
            authorized_until: 0,
            ordinal: 0,
            heard: 0,
            slot: 0,
        }
    }
}

pub const GH_CONNECTED: u8 = 1;
pub const GH_DISCONNECTED: u8 = 2;
pub const GH_SECURED: u8 = 3;
pub const GH_UNSECURED: u8 = 4;
pub const GH_WRITTEN: u8 = 5;
pub const GH_CONFIGURED: u8 = 6;
pub const GH_CONFIRMED: u8 = 7;
pub const GH_TIMED_OUT: u8 = 8;
pub const GH_ENDING: u8 = 9;
pub const GH_SKIPPED: u8 = 10;

#[repr(C)]
#[derive(Clone, Copy, Debug)]
pub struct gh_notice {
    pub size: usize,
    pub kind: u8,
    pub bits: u8,
    pub reason: u8,
    pub key_size: u8,
    pub authenticated: bool,
    pub secure: bool,
    pub address_kind: u8,
    pub address: [u8; 6],
    pub connection: u16,
    pub attribute: u16,
}

impl gh_notice {
    /// `GH_NOTICE_INIT`.
    pub fn new() -> gh_notice {
        gh_notice {
            size: size_of::<gh_notice>(),
            kind: 0,
            bits: 0,
            reason: 0,
            key_size: 0,
            authenticated: false,
            secure: false,
            address_kind: 0,
            address: [0; 6],
            connection: 0,
            attribute: 0,
        }
    }
}

unsafe extern "C" {
    pub fn gh_open(
        host: *mut gh_host,
        table: *const u8,
        table_length: usize,
        keys: *const u8,
        keys_length: usize,
        rows: *const u8,
        rows_length: usize,
        values: *const u8,
        values_length: usize,
        config: *const gh_config,
        left_out: *mut usize,
    ) -> u32;
    pub fn gh_explain(
        table: *const u8,
        table_length: usize,
        keys: *const u8,
        keys_length: usize,
        rows: *const u8,
        rows_length: usize,
        values: *const u8,
        values_length: usize,
        out: *mut u8,
        room: usize,
        count: *mut usize,
    ) -> u32;
    pub fn gh_close(host: *mut gh_host) -> u32;
    pub fn gh_take(host: *mut gh_host, octets: *const u8, length: usize, used: *mut usize) -> u32;
    pub fn gh_next_out(host: *mut gh_host, out: *mut u8, room: usize, count: *mut usize) -> u32;
    pub fn gh_update(host: *mut gh_host, handle: u16, value: *const u8, length: usize) -> u32;
    pub fn gh_authorize(host: *mut gh_host, connection: u16, until: u64) -> u32;
    pub fn gh_disconnect(host: *mut gh_host, connection: u16) -> u32;
    pub fn gh_tick(host: *mut gh_host, time: u64) -> u32;
    pub fn gh_replace(host: *mut gh_host, table: *const u8, length: usize) -> u32;
    pub fn gh_value(
        host: *mut gh_host,
        handle: u16,
        out: *mut u8,
        room: usize,
        count: *mut usize,
    ) -> u32;
    pub fn gh_find(
        host: *mut gh_host,
        service: *const u8,
        service_length: usize,
        characteristic: *const u8,
        characteristic_length: usize,
        number: u16,
        handle: *mut u16,
    ) -> u32;
    pub fn gh_rows_text(host: *mut gh_host, out: *mut u8, room: usize, count: *mut usize) -> u32;
    pub fn gh_values_text(
        host: *mut gh_host,
        all: u8,
        out: *mut u8,
        room: usize,
        count: *mut usize,
    ) -> u32;
    pub fn gh_deadline(host: *mut gh_host, time: *mut u64) -> u32;
    pub fn gh_connection(host: *mut gh_host, place: usize, connection: *mut gh_connection) -> u32;
    pub fn gh_next_notice(host: *mut gh_host, notice: *mut gh_notice) -> u32;
    pub fn gh_text(status: u32, out: *mut u8, room: usize, count: *mut usize) -> u32;
    pub fn gh_version() -> u32;
}

#[cfg(test)]
mod tests {
    use std::collections::BTreeMap;

    const HEADER: &str = include_str!("../../include/gihandop.h");
    const RUST: &str = include_str!("ffi.rs");

    /// The header without its comments and its preprocessor's lines.
    fn declarations() -> String {
        let mut text = String::new();
        for part in HEADER.split("/*") {
            text += part.split_once("*/").map_or(part, |(_, behind)| behind);
        }
        let lines = text
            .lines()
            .filter(|line| !line.trim_start().starts_with('#'));
        lines.collect::<Vec<_>>().join(" ")
    }

    /// What stands in front of the tests, with one space for each run of them.
    fn here() -> String {
        let code = RUST.split("#[cfg(test)]").next().unwrap_or_default();
        code.split_whitespace().collect::<Vec<_>>().join(" ")
    }

    /// The type in Rust for one in C.
    fn in_rust(c: &str) -> String {
        if let Some(target) = c.strip_suffix('*') {
            return match target.trim().strip_prefix("const ") {
                Some(target) => format!("*const {}", in_rust(target)),
                None => format!("*mut {}", in_rust(target)),
            };
        }
        match c.trim() {
            "void" => "c_void".into(),
            "size_t" => "usize".into(),
            "bool" => "bool".into(),
            name => match name.strip_prefix("uint") {
                Some(bits) => format!("u{}", bits.trim_end_matches("_t")),
                None => name.trim_start_matches("struct ").into(),
            },
        }
    }

    /// `name: type`, for a field or a parameter as C declares it.
    fn declared(c: &str) -> String {
        let c = c.trim();
        let at = c.rfind([' ', '*']).expect("a type and a name") + 1;
        let (kind, name) = c.split_at(at);
        match name.split_once('[') {
            None => format!("{name}: {}", in_rust(kind.trim())),
            Some((name, size)) => {
                format!(
                    "{name}: [{}; {}]",
                    in_rust(kind.trim()),
                    size.trim_end_matches(']')
                )
            }
        }
    }

    #[test]
    fn constants_are_those_of_the_header() {
        let mut wanted = BTreeMap::new();
        for body in declarations().split("enum {").skip(1) {
            for item in body.split('}').next().unwrap().split(',') {
                let (name, value) = item.split_once('=').expect("each constant has its number");
                wanted.insert(name.trim().to_string(), value.trim().to_string());
            }
        }
        for line in HEADER
            .lines()
            .filter_map(|line| line.strip_prefix("#define GH_"))
        {
            match line.split_once(' ') {
                Some((name, value)) if value.bytes().all(|it| it.is_ascii_digit()) => {
                    wanted.insert(format!("GH_{name}"), value.to_string());
                }
                _ => {}
            }
        }
        let mut found = BTreeMap::new();
        for item in here().split("pub const ").skip(1) {
            let (name, rest) = item.split_once(": ").unwrap();
            let (_, value) = rest.split_once(" = ").unwrap();
            let value = value.split(';').next().unwrap();
            found.insert(name.to_string(), value.to_string());
        }
        assert!(wanted.len() > 30, "{wanted:?}");
        assert_eq!(wanted, found);
    }

    #[test]
    fn structs_are_those_of_the_header() {
        let header = declarations();
        let mut count = 0;
        for item in header.split("struct ").skip(1) {
            let Some((name, rest)) = item.split_once(" {") else {
                continue;
            };
            if name.contains([',', ')', '*']) {
                continue;
            }
            let fields = rest.split('}').next().unwrap();
            let fields = fields.split(';').filter(|field| !field.trim().is_empty());
            let fields: String = fields
                .map(|field| format!(" pub {},", declared(field)))
                .collect();
            let text = format!("pub struct {name} {{{fields} }}");
            assert!(here().contains(&text), "{text}");
            count += 1;
        }
        assert_eq!(count, here().matches("#[repr(C)]").count());
    }

    #[test]
    fn functions_are_those_of_the_header() {
        let header = declarations();
        let flat = here().replace("( ", "(").replace(", )", ")");
        let mut count = 0;
        for item in header.split("uint32_t gh_").skip(1) {
            let (name, rest) = item.split_once('(').unwrap();
            let parameters = rest.split(')').next().unwrap().split(',');
            let parameters = parameters.filter(|it| *it != "void").map(declared);
            let parameters = parameters.collect::<Vec<_>>().join(", ");
            let text = format!("pub fn gh_{name}({parameters}) -> u32;");
            assert!(flat.contains(&text), "{text}");
            count += 1;
        }
        assert_eq!(count, flat.matches("pub fn gh_").count());
        assert!(count >= 16);
    }
}
