//! The archive in C programs: one without the C library, and the first program of the README.

use std::process::Command;

#[test]
fn links_and_runs_freestanding() {
    let script = concat!(env!("CARGO_MANIFEST_DIR"), "/../scripts/boot");
    let output = Command::new(script).output().unwrap();
    let said = String::from_utf8_lossy(&output.stderr);
    assert!(output.status.success(), "{said}");
}

#[test]
fn the_first_program_runs() {
    let root = concat!(env!("CARGO_MANIFEST_DIR"), "/..");
    let program = concat!(env!("CARGO_TARGET_TMPDIR"), "/first");
    let built = Command::new("cc")
        .args(["-Wall", "-Wextra", "-Werror", "-Iinclude", "host/c/first.c"])
        .args(["include/librudderfig.a", "-o", program])
        .current_dir(root)
        .status();
    assert!(built.unwrap().success());
    let output = Command::new(program).output().unwrap();
    let said = String::from_utf8_lossy(&output.stdout);
    assert_eq!(
        said.lines().collect::<Vec<_>>(),
        [
            "written: write replies 0",
            "worn: look replies 0, by block 8 0 0 1 0 0 0 0; take replies 0, data as written: yes",
            "ruined: look replies 9 for block 5, by block 8 0 0 1 0 ruined 0 0; take replies 9",
            "never written: look replies 0, by block erased:0 erased:0 erased:0 erased:1 erased:0 erased:0 erased:0 erased:0",
        ]
    );
}
