//! Where the output goes, and what is said when it cannot go there.

mod running;

use std::fs::{self, OpenOptions, Permissions};
use std::os::unix::fs::{symlink, PermissionsExt};
use std::os::unix::io::OwnedFd;
use std::os::unix::net::UnixStream;
use std::process::{Command, Stdio};

use running::{ended, fault, line_of, made, workshop, Folder};

const CELLS: &[u8] = b"#.\n.#\n";

/// On a full device, and where nobody reads.
#[test]
fn standard_output_that_cannot_be_written() {
    for arguments in [&["cut"][..], &["sheet", "-o", "-"][..], &["--help"][..]] {
        let full = OpenOptions::new().write(true).open("/dev/full").unwrap();
        let (reader, writer) = UnixStream::pair().unwrap();
        drop(reader);
        for output in [Stdio::from(full), Stdio::from(OwnedFd::from(writer))] {
            let child = workshop(arguments).stdout(output).spawn().unwrap();
            let said = line_of(&ended(child, CELLS));
            assert!(
                said.starts_with("cannot write standard output: "),
                "{}",
                said
            );
        }
    }
}

/// Nobody hears of it, but the status says so.
#[test]
fn a_fault_that_cannot_be_said() {
    let full = OpenOptions::new().write(true).open("/dev/full").unwrap();
    let child = workshop(&["sheet"]).stderr(full).spawn().unwrap();
    let output = ended(child, b"?");
    assert_eq!((output.status.code(), output.stdout.len()), (Some(1), 0));
}

#[test]
fn a_file_that_cannot_be_written() {
    let folder = Folder::new("a_file_that_cannot_be_written");
    for target in [
        folder.file("no such folder/new"),
        folder.file("."),
        folder.file(""),
    ] {
        let said = fault(&["sheet", "-o", &target], CELLS);
        assert!(
            said.starts_with(&format!("cannot write {}: ", target)),
            "{}",
            said
        );
    }
    assert!(folder.names().is_empty());
}

/// Where there is no room for all of it, there is nothing of it.
#[test]
fn a_file_that_is_broken_off() {
    let folder = Folder::new("a_file_that_is_broken_off");
    let old = folder.holding("old", b"as it was");
    for target in [&old, &folder.file("new")] {
        let child = without_room(&workshop(&["sheet", "-o", target])).spawn();
        let said = line_of(&ended(child.unwrap(), CELLS));
        assert!(
            said.starts_with(&format!("cannot write {}: ", target)),
            "{}",
            said
        );
    }
    assert_eq!(fs::read(&old).unwrap(), b"as it was");
    assert_eq!(folder.names(), ["old"]);
}

/// The command where no file may grow.
fn without_room(command: &Command) -> Command {
    let limit = "trap '' XFSZ; ulimit -f 0; exec \"$@\"";
    let mut limited = Command::new("sh");
    limited.args(["-c", limit, "sh"]).arg(command.get_program());
    limited.args(command.get_args()).stdin(Stdio::piped());
    limited.stdout(Stdio::piped()).stderr(Stdio::piped());
    limited
}

/// It is written whole, has the permissions that it had, and nothing is left
/// beside it.
#[test]
fn a_file_that_is_there_already() {
    let folder = Folder::new("a_file_that_is_there_already");
    let sheet = made(&["sheet"], CELLS);
    let file = folder.holding("sheet.txt", &[b'9'; 10_000]);
    fs::set_permissions(&file, Permissions::from_mode(0o640)).unwrap();
    assert_eq!(made(&["sheet", "-o", &file], CELLS), "");
    assert_eq!(fs::read_to_string(&file).unwrap(), sheet);
    let mode = fs::metadata(&file).unwrap().permissions().mode();
    assert_eq!(mode & 0o777, 0o640);
    assert_eq!(folder.names(), ["sheet.txt"]);
}

/// A file may be read and written by the same command.
#[test]
fn over_its_own_picture() {
    let folder = Folder::new("over_its_own_picture");
    let file = folder.holding("art", CELLS);
    made(&["sheet", &file, "-o", &file], b"");
    assert_eq!(fs::read_to_string(&file).unwrap(), made(&["sheet"], CELLS));
}

/// A link leads to the new file as it led to the old one.
#[test]
fn through_a_link() {
    let folder = Folder::new("through_a_link");
    let (file, link) = (folder.holding("file", b"old"), folder.file("link"));
    symlink(&file, &link).unwrap();
    made(&["sheet", "-o", &link], CELLS);
    assert_eq!(fs::read_to_string(&file).unwrap(), made(&["sheet"], CELLS));
    assert!(fs::symlink_metadata(&link)
        .unwrap()
        .file_type()
        .is_symlink());
}

/// What is no plain file is written, and not replaced.
#[test]
fn into_a_pipe_by_its_name() {
    let sheet = made(&["sheet"], CELLS);
    assert_eq!(made(&["sheet", "-o", "/dev/stdout"], CELLS), sheet);
}
