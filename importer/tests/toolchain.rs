//! The lock file is of a version that old cargos read too, Debian 12's among them.

const LOCK: &str = include_str!("../Cargo.lock");

#[test]
fn the_lock_file_is_of_version_3() {
    let mut lines = LOCK.lines();
    let version = lines.find_map(|line| line.strip_prefix("version = "));
    assert_eq!(version, Some("3"));
}
