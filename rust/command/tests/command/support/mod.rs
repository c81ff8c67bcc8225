//! Running the command, and what its tests run it on.
#![allow(dead_code)]

use std::fs;
use std::path::{Path, PathBuf};
use std::process::Command;
use std::sync::OnceLock;

/// What a command did.
pub struct Ran {
    pub status: i32,
    pub output: String,
    pub errors: String,
}

pub fn command() -> Command {
    Command::new(env!("CARGO_BIN_EXE_quotebook"))
}

pub fn run(words: &[&str]) -> Ran {
    run_in(Path::new("."), words)
}

pub fn run_in(folder: &Path, words: &[&str]) -> Ran {
    let ran = command().args(words).current_dir(folder).output();
    let ran = ran.expect("the command starts");
    Ran {
        status: ran.status.code().unwrap_or(-1),
        output: String::from_utf8_lossy(&ran.stdout).into_owned(),
        errors: String::from_utf8_lossy(&ran.stderr).into_owned(),
    }
}

/// A folder of this test's own, empty.
pub fn folder(name: &str) -> PathBuf {
    let test = std::env::current_exe().expect("a test is a program");
    let test = test.file_stem().expect("with a name").to_owned();
    let folder = Path::new(env!("CARGO_TARGET_TMPDIR")).join(test).join(name);
    let _ = fs::remove_dir_all(&folder);
    fs::create_dir_all(&folder).expect("a folder");
    folder
}

/// A folder with the sample, `day.log`, and the logs of a router with the accident's mistake,
/// `router.csv`, and of one without, `right.csv`.
pub fn sample() -> PathBuf {
    static FOLDER: OnceLock<PathBuf> = OnceLock::new();
    let made = FOLDER.get_or_init(|| {
        let folder = folder("sample");
        let day = command::sample::recording();
        fs::write(folder.join("router.csv"), command::sample::router_log(&day)).expect("a log");
        fs::write(folder.join("right.csv"), command::sample::right_log(&day)).expect("a log");
        fs::write(folder.join("day.log"), day).expect("a recording");
        folder
    });
    made.clone()
}

/// Compares with a file of `expected`.
pub fn compare(name: &str, output: &str) {
    let path = Path::new(env!("CARGO_MANIFEST_DIR"))
        .join("tests/expected")
        .join(name);
    if std::env::var_os("UPDATE_EXPECTED").is_some() {
        fs::create_dir_all(path.parent().expect("a folder")).expect("a folder");
        fs::write(&path, output).expect("an expected output");
        return;
    }
    let expected = fs::read_to_string(&path).unwrap_or_default();
    for (at, (line, expected)) in output.lines().zip(expected.lines()).enumerate() {
        assert_eq!(line, expected, "{name}, line {}", at + 1);
    }
    assert_eq!(
        output.lines().count(),
        expected.lines().count(),
        "{name}: its length"
    );
}

/// An Ethernet packet with a UDP packet in it.
pub fn udp(address: [u8; 4], port: u16, payload: &[u8]) -> Vec<u8> {
    let mut packet = vec![0; 12];
    packet.extend([8, 0]);
    let len = (28 + payload.len()) as u16;
    packet.extend([0x45, 0]);
    packet.extend(len.to_be_bytes());
    packet.extend([0, 0, 0, 0, 64, 17, 0, 0, 10, 0, 0, 1]);
    packet.extend(address);
    packet.extend([0x30, 0x39]);
    packet.extend(port.to_be_bytes());
    packet.extend((8 + payload.len() as u16).to_be_bytes());
    packet.extend([0; 2]);
    packet.extend(payload);
    packet
}

/// A capture of packets, one in each fraction from a second on, numbers with their highest byte first.
pub fn capture(magic: u32, seconds: u32, packets: &[Vec<u8>]) -> Vec<u8> {
    let mut bytes = magic.to_be_bytes().to_vec();
    bytes.extend([0, 2, 0, 4]);
    for field in [0, 0, 65_535, 1] {
        bytes.extend(u32::to_be_bytes(field));
    }
    for (at, packet) in (0..).zip(packets) {
        let len = packet.len() as u32;
        for field in [seconds, at, len, len] {
            bytes.extend(u32::to_be_bytes(field));
        }
        bytes.extend(packet);
    }
    bytes
}
