//! How a roll's file is replaced: as a whole or not at all, by one process at a time.

use crate::running::{empty_roll, on_roll, run_unheard, Room, Run, TOOL};
use std::ffi::OsStr;
use std::fs::{self, File, OpenOptions, Permissions};
use std::io::{ErrorKind, Read, Write};
use std::os::unix::fs::{symlink, MetadataExt, PermissionsExt};
use std::path::Path;
use std::process::{Child, Command, Stdio};
use std::thread;

/// Enters contractor 1 from a shell that first runs other commands.
fn enter_after(commands: &str, roll: &Path) -> Run {
    Command::new("sh")
        .args(["-c", &format!("{commands}; exec \"$@\""), "sh"])
        .args([TOOL, "enter", "--contractor", "1", "--right", "2", "--roll"])
        .arg(roll)
        .output()
        .unwrap()
        .into()
}

/// Whether files of this process belong to root, for whom no directory is read-only.
fn is_root(path: &Path) -> bool {
    fs::metadata(path).unwrap().uid() == 0
}

#[test]
fn a_write_that_fails_leaves_the_old_file() {
    let room = Room::new("full");
    let roll = room.roll(&[(7, 1)]);
    let before = fs::read(&roll).unwrap();
    // No file may grow: the temporary file can be made, but not filled.
    let run = enter_after("trap '' XFSZ; ulimit -f 0", &roll);
    run.stopped(&format!("--roll: {}", roll.display()));
    assert_eq!(fs::read(&roll).unwrap(), before);
    assert_eq!(room.names(), ["roll"]);
}

#[test]
fn a_read_only_directory_leaves_the_old_file() {
    let room = Room::new("read-only");
    let roll = room.roll(&[(7, 1)]);
    if is_root(&roll) {
        eprintln!("skipped: root may write everywhere");
        return;
    }
    let before = fs::read(&roll).unwrap();
    let directory = roll.parent().unwrap();
    fs::set_permissions(directory, Permissions::from_mode(0o555)).unwrap();
    let run = on_roll("enter", &roll, "--contractor 1 --right 2");
    let make = on_roll("roll make", &room.path("new"), "");
    fs::set_permissions(directory, Permissions::from_mode(0o755)).unwrap();
    run.stopped("Permission denied");
    make.stopped("Permission denied");
    assert_eq!(fs::read(&roll).unwrap(), before);
    assert_eq!(room.names(), ["roll"]);
}

#[test]
fn a_file_of_another_owner_is_left_alone() {
    let room = Room::new("owner");
    let roll = room.roll(&[]);
    if !is_root(&roll) {
        eprintln!("skipped: only root can give a file away");
        return;
    }
    let given = Command::new("chown").arg("12345").arg(&roll).status();
    assert!(given.unwrap().success());
    on_roll("enter", &roll, "--contractor 1 --right 2").stopped("belongs to user 12345");
    assert_eq!(fs::read(&roll).unwrap(), empty_roll());
    assert_eq!(fs::metadata(&roll).unwrap().uid(), 12345);
    assert_eq!(room.names(), ["roll"]);
}

#[test]
fn the_permissions_stay() {
    let room = Room::new("permissions");
    let roll = room.roll(&[]);
    for (mode, subcommand, rest) in [
        (0o600, "enter", "--right 2"),
        (0o640, "right", "--right 1"),
        (0o664, "withdraw", ""),
        (0o444, "enter", "--right 1"),
    ] {
        fs::set_permissions(&roll, Permissions::from_mode(mode)).unwrap();
        on_roll(subcommand, &roll, &format!("--contractor 1 {rest}")).done();
        let after = fs::metadata(&roll).unwrap().permissions().mode();
        assert_eq!(after & 0o777, mode);
    }
}

#[test]
fn the_old_file_is_not_written_to() {
    let room = Room::new("whole");
    let roll = room.roll(&[]);
    let mut old = File::open(&roll).unwrap();
    on_roll("enter", &roll, "--contractor 1 --right 2").done();
    let mut bytes = Vec::new();
    old.read_to_end(&mut bytes).unwrap();
    assert_eq!(bytes, empty_roll());
    assert_eq!(fs::read(&roll).unwrap()[1], 1);
}

#[test]
fn a_file_with_a_second_name_is_left_alone() {
    let room = Room::new("names");
    let roll = room.roll(&[(7, 1)]);
    let before = fs::read(&roll).unwrap();
    let (second, link) = (room.path("second"), room.path("link"));
    fs::hard_link(&roll, &second).unwrap();
    symlink("second", &link).unwrap();
    let why = "it has more than one name (hard links); the others would keep the old roll";
    for name in [&roll, &second, &link] {
        on_roll("enter", name, "--contractor 1 --right 2").stopped(why);
        on_roll("right", name, "--contractor 7 --right 1").stopped(why);
        on_roll("withdraw", name, "--contractor 7").stopped(why);
        assert_eq!(fs::read(name).unwrap(), before);
        // Reading goes on.
        let listed = on_roll("roll list", name, "").done();
        assert_eq!(listed, "contractor 7, count 1, overwriting\n");
    }
    assert_eq!(room.names(), ["link", "roll", "second"]);
    fs::remove_file(&second).unwrap();
    on_roll("withdraw", &roll, "--contractor 7").done();
}

#[test]
fn a_change_that_cannot_be_told_is_made() {
    let room = Room::new("untold");
    let roll = room.path("roll");
    let entry_after = |words: &[&str]| {
        let mut words: Vec<&OsStr> = words.iter().map(OsStr::new).collect();
        words.extend([OsStr::new("--roll"), roll.as_os_str()]);
        let run = run_unheard(&words);
        assert!(run.err.contains("standard output: "), "{run:?}");
        run.stopped(", but the change is made");
        let bytes = fs::read(&roll).unwrap();
        (bytes.len(), bytes[1], bytes[400])
    };
    assert_eq!(entry_after(&["roll", "make"]), (600, 0, 1));
    let of_1 = ["--contractor", "1"];
    let with = |subcommand, right| [&[subcommand][..], &of_1, &["--right", right]].concat();
    assert_eq!(entry_after(&with("enter", "2")), (600, 1, 2));
    assert_eq!(entry_after(&with("right", "1")), (600, 1, 1));
    assert_eq!(
        entry_after(&[&["withdraw"], &of_1[..]].concat()),
        (600, 2, 1)
    );
    fs::write(&roll, [1; 400]).unwrap();
    let convert = ["roll", "convert", "--right", "2"];
    assert_eq!(entry_after(&convert), (600, 1, 2));
}

#[test]
fn a_file_that_comes_meanwhile_is_not_replaced() {
    for turn in 0..20 {
        let room = Room::new(&format!("meanwhile-{turn}"));
        let roll = room.path("roll");
        let mut making = Command::new(TOOL)
            .args(["roll", "make", "--roll"])
            .arg(&roll)
            .stdout(Stdio::piped())
            .stderr(Stdio::piped())
            .spawn()
            .unwrap();
        let came = comes_meanwhile(&roll, &room, &mut making);
        let run = Run::from(making.wait_with_output().unwrap());
        if came {
            run.stopped("exists, and is not replaced");
            assert_eq!(fs::read(&roll).unwrap(), b"other");
        } else {
            run.done();
            assert_eq!(fs::read(&roll).unwrap(), empty_roll());
        }
        assert_eq!(room.names(), ["roll"]);
    }
}

/// Makes a file once the temporary file of the tool is there. Says whether it did: not
/// if the tool was first.
fn comes_meanwhile(path: &Path, room: &Room, making: &mut Child) -> bool {
    let is_temporary = |name: &String| name.ends_with(".tmp");
    while making.try_wait().unwrap().is_none() && !room.names().iter().any(is_temporary) {
        thread::yield_now();
    }
    match OpenOptions::new().write(true).create_new(true).open(path) {
        Ok(mut file) => {
            file.write_all(b"other").unwrap();
            true
        }
        Err(error) => {
            assert_eq!(error.kind(), ErrorKind::AlreadyExists);
            false
        }
    }
}

#[test]
fn a_link_stays_a_link() {
    let room = Room::new("links");
    let roll = room.roll(&[]);
    let link = room.path("link");
    symlink("roll", &link).unwrap();
    on_roll("enter", &link, "--contractor 1 --right 2").done();
    assert!(fs::symlink_metadata(&link).unwrap().is_symlink());
    assert_eq!(fs::read(&roll).unwrap()[1], 1);
    // The lock is on the file, whatever name it is reached by.
    room.file("roll.lock", b"");
    on_roll("withdraw", &link, "--contractor 1").stopped("roll.lock exists");
}

#[test]
fn a_lock_keeps_other_changes_off() {
    let room = Room::new("lock");
    let roll = room.roll(&[(2, 1)]);
    let before = fs::read(&roll).unwrap();
    let lock = room.file("roll.lock", b"");
    on_roll("enter", &roll, "--contractor 1 --right 2").stopped("roll.lock exists");
    on_roll("right", &roll, "--contractor 2 --right 1").stopped("roll.lock exists");
    on_roll("withdraw", &roll, "--contractor 2").stopped("roll.lock exists");
    assert_eq!(fs::read(&roll).unwrap(), before);
    assert_eq!(room.names(), ["roll", "roll.lock"]);
    // Reading goes on.
    let listed = on_roll("roll list", &roll, "").done();
    assert_eq!(listed, "contractor 2, count 1, overwriting\n");
    fs::remove_file(lock).unwrap();
    on_roll("enter", &roll, "--contractor 1 --right 2").done();
}

#[test]
fn no_change_gets_lost() {
    let room = Room::new("at-once");
    let roll = room.roll(&[]);
    thread::scope(|scope| {
        for contractor in 1..=8 {
            let roll = &roll;
            scope.spawn(move || enter_at_last(roll, contractor));
        }
    });
    let expected: String = (1..=8)
        .map(|contractor| format!("contractor {contractor}, count 1, reading\n"))
        .collect();
    assert_eq!(on_roll("roll list", &roll, "").done(), expected);
    assert_eq!(room.names(), ["roll"]);
}

/// Enters a contractor, again and again while others hold the lock.
fn enter_at_last(roll: &Path, contractor: u32) {
    loop {
        let rest = format!("--contractor {contractor} --right reading");
        let run = on_roll("enter", roll, &rest);
        if run.status == Some(0) {
            return;
        }
        run.stopped("roll.lock exists");
        thread::yield_now();
    }
}
