//! `make install`, `make uninstall` and `make dist`.

use crate::building::{archive, folder, is_there, root, said, STRICT};
use crate::example;
use std::collections::BTreeSet;
use std::fs;
use std::path::{Path, PathBuf};
use std::process::Command;

const REFINE: &str = env!("CARGO_BIN_EXE_refine");

/// What is installed, below the prefix.
const INSTALLED: [&str; 5] = [
    "bin/refine",
    "include/refiner.h",
    "lib/librefiner.a",
    "share/man/man1/refine.1",
    "lib/pkgconfig/refiner.pc",
];

/// `make` with a target, on the archive and the program that are there.
fn make(target: &str, variables: &[(&str, &Path)]) {
    let mut make = Command::new("make");
    make.arg("-C").arg(root()).arg(target);
    for (name, path) in [("ARCHIVE", &*archive()), ("REFINE", REFINE.as_ref())] {
        make.arg(format!("{name}={}", path.display()));
    }
    for (name, path) in variables {
        make.arg(format!("{name}={}", path.display()));
    }
    said(make.env_remove("MAKEFLAGS"));
}

fn has_make() -> bool {
    is_there(Command::new("make").arg("--version"))
}

/// The files below a folder.
fn files(folder: &Path) -> BTreeSet<PathBuf> {
    let entries = fs::read_dir(folder).expect("a folder");
    let paths = entries.map(|entry| entry.expect("an entry").path());
    let below = |path: PathBuf| match path.is_dir() {
        true => files(&path),
        false => BTreeSet::from([path]),
    };
    paths.flat_map(below).collect()
}

/// The flags of `refiner.pc`, with its variables put in.
fn flags(prefix: &Path) -> Vec<String> {
    let package = fs::read_to_string(prefix.join("lib/pkgconfig/refiner.pc"));
    let package = package.expect("refiner.pc is installed");
    let field = |name| package.lines().find_map(|line| line.strip_prefix(name));
    let [cflags, libs] = ["Cflags: ", "Libs: "].map(|name| field(name).expect("a field"));
    let mut flags = format!("{cflags} {libs}");
    for (name, value) in package.lines().filter_map(|line| line.split_once('=')) {
        flags = flags.replace(&format!("${{{name}}}"), value);
    }
    flags.split(' ').map(String::from).collect()
}

/// Builds the example by these flags alone, and runs it.
fn check_flags(program: &Path, flags: &[String]) {
    let mut gcc = Command::new("gcc");
    gcc.args(STRICT).arg(root().join("examples/place.c"));
    said(gcc.args(flags).arg("-o").arg(program));
    example::check(program);
}

#[test]
fn what_is_installed_is_enough_to_build_the_example() {
    if !has_make() {
        return;
    }
    let folder = folder("install");
    let prefix = folder.join("prefix");
    make("install", &[("PREFIX", &prefix)]);
    let placed = INSTALLED.map(|name| prefix.join(name));
    assert_eq!(files(&prefix), BTreeSet::from(placed.clone()));
    let sources = [
        PathBuf::from(REFINE),
        root().join("importer/include/refiner.h"),
        archive(),
        root().join("docs/refine.1"),
    ];
    for (placed, source) in placed.iter().zip(sources) {
        assert_eq!(fs::read(placed).ok(), fs::read(source).ok());
    }
    assert!(said(Command::new(&placed[0]).arg("help")).contains("refine score "));

    check_flags(&folder.join("place"), &flags(&prefix));
    if is_there(Command::new("pkg-config").arg("--version")) {
        let mut package = Command::new("pkg-config");
        package.env("PKG_CONFIG_PATH", prefix.join("lib/pkgconfig"));
        let told = said(package.args(["--cflags", "--libs", "refiner"]));
        let told: Vec<String> = told.split_whitespace().map(String::from).collect();
        check_flags(&folder.join("place_by_package"), &told);
    }

    make("uninstall", &[("PREFIX", &prefix)]);
    assert_eq!(files(&prefix), BTreeSet::new());
}

#[test]
fn a_package_is_staged_below_another_root() {
    if !has_make() {
        return;
    }
    let stage = folder("stage");
    let variables = [("DESTDIR", &*stage), ("PREFIX", Path::new("/opt/refiner"))];
    make("install", &variables);
    let placed = INSTALLED.map(|name| stage.join("opt/refiner").join(name));
    assert_eq!(files(&stage), BTreeSet::from(placed));
    let expected = ["-I/opt/refiner/include", "-L/opt/refiner/lib", "-lrefiner"];
    assert_eq!(flags(&stage.join("opt/refiner")), expected);
    make("uninstall", &variables);
    assert_eq!(files(&stage), BTreeSet::new());
}

#[test]
fn the_package_has_the_version_of_the_header() {
    if !has_make() {
        return;
    }
    let prefix = folder("version");
    make("install", &[("PREFIX", &prefix)]);
    let package = fs::read_to_string(prefix.join("lib/pkgconfig/refiner.pc"));
    let version = concat!("\nVersion: ", env!("CARGO_PKG_VERSION"), "\n");
    assert!(package.is_ok_and(|text| text.contains(version)));
}

#[test]
fn a_missing_archive_is_told_and_not_built() {
    if !has_make() {
        return;
    }
    let prefix = folder("missing");
    let mut make = Command::new("make");
    make.arg("-C")
        .arg(root())
        .args(["install", "ARCHIVE=no/such/file"]);
    make.arg(format!("REFINE={REFINE}"));
    let output = make.arg(format!("PREFIX={}", prefix.display())).output();
    let output = output.expect("make ends");
    let notes = String::from_utf8_lossy(&output.stderr).into_owned();
    assert!(
        !output.status.success() && notes.contains("no/such/file is missing"),
        "{notes}"
    );
    assert_eq!(files(&prefix), BTreeSet::new());
}

#[test]
fn a_tarball_has_the_tracked_files_and_its_sum() {
    let mut tracked = Command::new("git");
    tracked.arg("-C").arg(root());
    tracked.args(["ls-tree", "-r", "--name-only", "--full-tree", "HEAD"]);
    if !has_make() || !is_there(&mut tracked) {
        return;
    }
    let folder = folder("dist");
    make("dist", &[("DIST", &folder)]);
    let name = concat!("refiner-", env!("CARGO_PKG_VERSION"));
    let tarball = format!("{name}.tar.gz");
    let sum = Command::new("sha256sum")
        .args(["-c", "SHA256SUMS"])
        .current_dir(&folder)
        .output();
    let sum = String::from_utf8(sum.expect("sha256sum ends").stdout);
    assert_eq!(sum, Ok(format!("{tarball}: OK\n")));
    let packed = said(Command::new("tar").arg("-tzf").arg(folder.join(tarball)));
    let packed: BTreeSet<&str> = packed
        .lines()
        .filter(|path| !path.ends_with('/'))
        .filter_map(|path| path.strip_prefix(name)?.strip_prefix('/'))
        .collect();
    let tracked = said(&mut tracked);
    assert_eq!(packed, tracked.lines().collect());
}
