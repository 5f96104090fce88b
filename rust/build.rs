//! Finds the archive of the host: in the folder that GIHANDOP_LIB names, in this repository, or where
//! `pkg-config` says that `make install` left it. If there is none, warns, and says how it is made: `cargo
//! doc`, `cargo check` and `cargo clippy` need none. Tells the crate whether the archive is proved.

use std::env;
use std::fs;
use std::path::{Path, PathBuf};
use std::process::Command;

const ARCHIVE: &str = "libgihandop_c.a";
const MAKER: &str = "`tools/prove gihandop_c`";
const MAKER_FOR_AARCH64: &str = "`tools/prove --target aarch64-unknown-linux-gnu gihandop_c`";
const UNPROVED: &str = "`tools/unproved gihandop_c` one without proofs, in one to three minutes";
/// What `tools/unproved` leaves in an archive.
const MARK: &[u8] = b"(not proved)";

fn main() {
    for name in [
        "GIHANDOP_LIB",
        "PKG_CONFIG",
        "PKG_CONFIG_PATH",
        "PKG_CONFIG_LIBDIR",
        "PKG_CONFIG_SYSROOT_DIR",
    ] {
        println!("cargo::rerun-if-env-changed={name}");
    }
    let architecture = variable("CARGO_CFG_TARGET_ARCH");
    let system = variable("CARGO_CFG_TARGET_OS");
    let named = env::var_os("GIHANDOP_LIB").map(PathBuf::from);
    let made = made_for(&architecture, &system);
    if named.is_none() && made.is_none() {
        println!(
            "cargo::warning=the archive is for Linux on x86_64 or aarch64, not for {system} on {architecture}: no program can be linked"
        );
        return;
    }
    let (made, maker) = made.unwrap_or((PathBuf::new(), MAKER));
    let folder = match named {
        Some(folder) => folder,
        None if made.join(ARCHIVE).is_file() => made,
        None => installed(&architecture).unwrap_or(made),
    };
    let archive = folder.join(ARCHIVE);
    println!("cargo::rerun-if-changed={}", archive.display());
    let Ok(data) = fs::read(&archive) else {
        for line in [
            format!(
                "there is no {}: no program can be linked",
                archive.display()
            ),
            format!("{maker} makes the archive, and {UNPROVED}. GIHANDOP_LIB names"),
            "another folder that has it, and `pkg-config` finds one that `make install` has".into(),
            "installed: if it is for another processor, only with PKG_CONFIG or PKG_CONFIG_LIBDIR"
                .into(),
        ] {
            println!("cargo::warning={line}");
        }
        return;
    };
    if data.windows(MARK.len()).any(|it| it == MARK) {
        println!("cargo::rustc-env=GIHANDOP_NOT_PROVED=1");
    }
    println!("cargo::rustc-link-search=native={}", folder.display());
    println!("cargo::rustc-link-lib=static=gihandop_c");
}

/// Returns the folder of this repository that has the archive for a machine, and what makes it there.
fn made_for(architecture: &str, system: &str) -> Option<(PathBuf, &'static str)> {
    let crate_here = PathBuf::from(variable("CARGO_MANIFEST_DIR"));
    let repository = crate_here.parent().unwrap_or(Path::new(".."));
    let folder = repository.join("crates/gihandop_c/out");
    match (architecture, system) {
        ("x86_64", "linux") => Some((folder, MAKER)),
        ("aarch64", "linux") => Some((folder.join("aarch64-unknown-linux-gnu"), MAKER_FOR_AARCH64)),
        _ => None,
    }
}

/// Returns the folder in which `make install` left the archive, as `pkg-config` says. Its packages are
/// those of this machine, unless the caller says where others are.
fn installed(architecture: &str) -> Option<PathBuf> {
    let says_where =
        env::var_os("PKG_CONFIG").is_some() || env::var_os("PKG_CONFIG_LIBDIR").is_some();
    if !variable("HOST").starts_with(architecture) && !says_where {
        return None;
    }
    let program = env::var_os("PKG_CONFIG").unwrap_or("pkg-config".into());
    let said = Command::new(program)
        .args(["--libs-only-L", "gihandop"])
        // It leaves out the folders of the system otherwise.
        .env("PKG_CONFIG_ALLOW_SYSTEM_LIBS", "1")
        .output()
        .ok()?;
    let words = String::from_utf8(said.stdout).ok()?;
    words
        .split_whitespace()
        .filter_map(|word| word.strip_prefix("-L"))
        .map(PathBuf::from)
        .find(|folder| folder.join(ARCHIVE).is_file())
}

fn variable(name: &str) -> String {
    env::var(name).unwrap_or_default()
}
