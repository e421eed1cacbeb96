//! The C programs and the archive: the example prints what is expected, a call
//! takes as much stack as docs/IMAGE.md says, and the archive wants little.

use checks::{c, page};
use std::fs;
use std::process::Command;

const FOLDER: &str = env!("CARGO_TARGET_TMPDIR");

/// The most stack that a call may take, in bytes.
const STACK: usize = 16 * 1024;

/// How far the page may be off: another C compiler's frames around the call.
const NEAR: usize = 128;

#[test]
fn the_c_example_prints_what_is_expected() {
    let ran = c::run("host/example/four_controllers.c", FOLDER);
    let listing = c::root().join("host/example/four_controllers.stdout");
    let expected = fs::read(listing).expect("a listing");
    assert_eq!(
        String::from_utf8_lossy(&ran.stdout),
        String::from_utf8_lossy(&expected)
    );
}

/// The bytes in the row that begins so.
fn said_of(rows: &[Vec<String>], first: &str) -> usize {
    let row = rows.iter().find(|row| row[0] == first).expect(first);
    row[1].replace(',', "").parse().expect("a number of bytes")
}

#[test]
fn a_call_takes_as_much_stack_as_the_page_says() {
    let ran = c::run("host/stack/stack.c", FOLDER);
    let rows = page::rows(&page::text("IMAGE.md"), "## Compile and link");
    let printed = String::from_utf8_lossy(&ran.stdout);
    assert_eq!(printed.lines().count(), 11, "a line for each call");
    for line in printed.lines() {
        println!("stack: {line}");
        let (name, bytes) = line.split_once(' ').expect("a name and bytes");
        let bytes: usize = bytes.parse().expect("a number of bytes");
        let said = match name {
            "controller_start" | "controller_tray" | "controller_frame" => {
                said_of(&rows, &format!("`{name}`"))
            }
            _ => said_of(&rows, "the calls that show a state, each"),
        };
        assert!(0 < bytes && bytes < STACK, "{line}");
        assert!(
            bytes.abs_diff(said) <= NEAR,
            "{line}, and the page says {said}"
        );
    }
}

#[test]
fn the_archive_wants_memcpy_and_memset_alone() {
    let ran = Command::new("nm").arg("-u").arg(c::archive()).output();
    let ran = ran.expect("nm, which comes with the C compiler");
    assert!(ran.status.success());
    let printed = String::from_utf8_lossy(&ran.stdout);
    let wanted: Vec<&str> = printed
        .lines()
        .filter_map(|line| line.trim().strip_prefix("U "))
        .collect();
    assert_eq!(wanted, ["memcpy", "memset"]);
}
