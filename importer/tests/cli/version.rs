//! `refine --version`: the program, the kit and the archive that it is linked with.

#[path = "../../build/record.rs"]
mod record;
#[path = "../../build/sha256.rs"]
mod sha256;

use crate::{refine, told};
use record::{kit, RECORD};
use sha256::hex;
use std::env;
use std::fs;
use std::os::unix::fs::PermissionsExt;
use std::path::{Path, PathBuf};
use std::process::Command;

const SUM: &str = "ba7816bf8f01cfea414140de5dae2223b00361a396177a9cb410ff61f20015ad";

/// The sums of FIPS 180-4's examples, of nothing, and of a million letters.
#[test]
fn sums_of_known_texts() {
    let two_blocks = "abcdbcdecdefdefgefghfghighijhijkijkljklmklmnlmnomnopnopq";
    let nothing = "e3b0c44298fc1c149afbf4c8996fb92427ae41e4649b934ca495991b7852b855";
    let blocks = "248d6a61d20638b8e5c026930c3e6039a33ce45964ff2167f6ecedd419db06c1";
    let million = "cdc76e5c9914fb9281a1c7e284d73e67f1809a48a497200e046d39ccc7112cd0";
    assert_eq!(hex(b""), nothing);
    assert_eq!(hex(b"abc"), SUM);
    assert_eq!(hex(two_blocks.as_bytes()), blocks);
    assert_eq!(hex("a".repeat(1_000_000).as_bytes()), million);
}

/// `sha256sum`'s of a file; none where it is not installed.
fn sum_of(path: &Path) -> Option<String> {
    let output = Command::new("sha256sum").arg(path).output();
    let Ok(output) = output else {
        eprintln!("left out, because this does not work here: sha256sum");
        return None;
    };
    let said = String::from_utf8(output.stdout).expect("a sum");
    said.split_whitespace().next().map(String::from)
}

/// Around the ends of the first blocks, where the length has to go into one more.
#[test]
fn sums_of_every_length() {
    let path = folder("lengths").join("bytes");
    for length in [1, 54, 55, 56, 57, 63, 64, 65, 119, 120, 128, 1_000] {
        let bytes: Vec<u8> = (0..=255).cycle().take(length).collect();
        fs::write(&path, &bytes).expect("a test may write its files");
        let Some(sum) = sum_of(&path) else { return };
        assert_eq!(hex(&bytes), sum, "{length} bytes");
    }
}

#[test]
fn a_record_tells_the_kit_of_its_own_archive_alone() {
    let of = |record: &str| kit(record, SUM).map(String::from);
    let good = format!("{SUM}  librefiner.a\nthe kit 5\n");
    assert_eq!(of(&good), Some("the kit 5".into()));
    assert_eq!(of(&good.replace("ba78", "ab87")), None);
    for bad in [
        "",
        "the kit 5\n",
        SUM,
        &format!("{SUM}\n\n"),
        &format!("{SUM}\n\x1b[2J\n"),
    ] {
        assert_eq!(of(bad), None, "{bad:?}");
    }
}

/// Where the archive is that this test's program was linked with.
fn archive_folder() -> PathBuf {
    let folder = env::var_os("REFINER_LIB_DIR").map(PathBuf::from);
    folder.unwrap_or_else(|| Path::new(env!("CARGO_MANIFEST_DIR")).join("../crates/refiner/out"))
}

#[test]
fn version_tells_program_kit_and_archive() {
    let folder = archive_folder();
    let archive = fs::read(folder.join("librefiner.a")).expect("the archive is there");
    let sum = hex(&archive);
    let record = fs::read_to_string(folder.join(RECORD)).unwrap_or_default();
    let kit = kit(&record, &sum).unwrap_or("unknown");
    let version = env!("CARGO_PKG_VERSION");
    let lines = format!("refine {version}\nkit {kit}\narchive sha256 {sum}\n");
    for word in ["--version", "-V"] {
        let said = told(&refine(&[word], b""));
        assert_eq!(said, (lines.clone(), String::new(), Some(0)));
    }
    if let Some(other) = sum_of(&folder.join("librefiner.a")) {
        assert_eq!(sum, other);
    }
}

/// An empty folder for one test.
fn folder(test: &str) -> PathBuf {
    let folder = Path::new(env!("CARGO_TARGET_TMPDIR")).join("version");
    let folder = folder.join(test);
    if folder.exists() {
        fs::remove_dir_all(&folder).expect("a test may empty its folder");
    }
    fs::create_dir_all(&folder).expect("a test may make its folder");
    folder
}

/// Runs `tools/kit` in a tree of its own, by a kit that only says its version.
fn record_by(test: &str, version: &str) -> (Option<i32>, Option<String>) {
    let root = folder(test);
    for below in ["tools", "bin", "crates/refiner/out"] {
        fs::create_dir_all(root.join(below)).expect("a folder");
    }
    let script = Path::new(env!("CARGO_MANIFEST_DIR")).join("../tools/kit");
    fs::copy(script, root.join("tools/kit")).expect("tools/kit is there");
    fs::write(root.join("crates/refiner/out/librefiner.a"), b"abc").expect("a file");
    let rt = root.join("bin/rt");
    fs::write(
        &rt,
        format!("#!/bin/sh\n[ \"$1\" = version ] && {version}\n"),
    )
    .expect("a file");
    fs::set_permissions(&rt, fs::Permissions::from_mode(0o755)).expect("a program");
    let path = env::var("PATH").unwrap_or_default();
    let path = format!("{}:{path}", root.join("bin").display());
    let mut run = Command::new(root.join("tools/kit"));
    let output = run.env("PATH", path).output().expect("tools/kit runs");
    let record = fs::read_to_string(root.join("crates/refiner/out").join(RECORD));
    (output.status.code(), record.ok())
}

#[test]
fn the_record_is_what_the_kit_says() {
    let (status, record) = record_by("kit", "echo kit-5; ");
    assert_eq!(status, Some(0));
    let record = record.expect("a record");
    assert_eq!(record, format!("{SUM}  librefiner.a\nkit-5\n"));
    assert_eq!(kit(&record, SUM), Some("kit-5"));
    let (_, record) = record_by("lines", "printf 'kit-5\\nlogic 7\\n'");
    assert_eq!(kit(&record.unwrap_or_default(), SUM), Some("kit-5 logic 7"));
}

#[test]
fn a_kit_that_says_nothing_leaves_no_record() {
    for (test, version) in [("silent", "true"), ("failing", "false")] {
        let (status, record) = record_by(test, version);
        assert_ne!(status, Some(0));
        assert_eq!(record, None);
    }
}
