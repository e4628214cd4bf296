//! The proved desk program, as this machine starts it. (The bench uses this file too.)

use std::ffi::OsString;
use std::path::PathBuf;
use std::process::Command;

/// The emulator that x86-64 programs run behind here, if any: host/x86.sh names it.
pub fn emulator() -> Option<OsString> {
    std::env::var_os("LANE_EMULATOR")
}

/// target/bin/desk by itself, or behind the emulator.
pub fn desk() -> Command {
    let path = PathBuf::from(env!("CARGO_MANIFEST_DIR")).join("../../target/bin/desk");
    let Some(emulator) = emulator() else { return Command::new(path) };
    let mut command = Command::new(emulator);
    command.arg(path);
    command
}

/// What to say where it does not start.
pub const MISSING: &str = "target/bin/desk does not start: run `./lane build` in the root of the repository";
