//! `seal` and `open`.

use crate::running::{run, run_fed, run_unheard, sealed, Room, Run, KEY, OTHER_KEY, PAGE_KEYS};
use gordzila::{encipher, open_page, seal_page, SizeBlock};
use std::fs;
use std::os::unix::fs::{symlink, PermissionsExt};
use std::path::Path;

/// The words of a subcommand on pages, under two keys.
fn words(subcommand: &str, keys: [&str; 2], rest: &str) -> Vec<String> {
    let [first, second] = keys;
    let line = format!("{subcommand} --first-key {first} --second-key {second} {rest}");
    line.split_whitespace().map(str::to_string).collect()
}

/// The words that seal page 4 of size block 300.
fn sealing(payload: &str, page: &Path) -> Vec<String> {
    let rest = format!("--rounds 10 --block 300 --page-number 4 --payload {payload}");
    let rest = format!("{rest} --page {}", page.display());
    words("seal", [KEY, OTHER_KEY], &rest)
}

/// The words that open a page.
fn opening(page: &str, payload: &Path) -> Vec<String> {
    let rest = format!("--rounds 10 --page {page} --payload {}", payload.display());
    words("open", [KEY, OTHER_KEY], &rest)
}

/// The name of a file as a word.
fn named(path: &Path) -> &str {
    path.to_str().unwrap()
}

/// Any bytes, not only text.
fn bytes(length: usize) -> Vec<u8> {
    (0..length).map(|at| (7 * at) as u8).collect()
}

#[test]
fn a_payload_is_sealed_in_a_file_and_opened_from_it() {
    for length in [0, 1, 12, 300, 491, 492] {
        let room = Room::new(&format!("page-{length}"));
        let payload = room.file("payload", &bytes(length));
        let (page, again) = (room.path("page"), room.path("again"));
        let told = format!("size block 300, page 4, {length} bytes\n");
        let printed = run(&sealing(named(&payload), &page)).done();
        assert_eq!(printed, format!("sealed: {told}"));
        assert_eq!(fs::read(&page).unwrap(), sealed(&bytes(length)));
        let opened = run(&opening(named(&page), &again)).done();
        assert_eq!(opened, format!("opened: {told}"));
        assert_eq!(fs::read(&again).unwrap(), bytes(length));
        assert_eq!(room.names(), ["again", "page", "payload"]);
    }
}

#[test]
fn payload_and_page_may_come_from_standard_input() {
    let room = Room::new("page-input");
    let (page, payload) = (room.path("page"), room.path("payload"));
    let told = "size block 300, page 4, 492 bytes\n";
    let sealed = run_fed(&sealing("-", &page), &bytes(492)).done();
    assert_eq!(sealed, format!("sealed: {told}"));
    let opened = run_fed(&opening("-", &payload), &fs::read(&page).unwrap()).done();
    assert_eq!(opened, format!("opened: {told}"));
    assert_eq!(fs::read(&payload).unwrap(), bytes(492));
}

/// The tool prints what the page says of itself: the place from which it came says nothing.
#[test]
fn a_page_says_which_it_is() {
    let room = Room::new("page-says");
    for (block, number, name) in [(1, 0, "a"), (300, 5, "b"), (u32::MAX, u16::MAX, "c")] {
        let size_block = SizeBlock::new(block).unwrap();
        let page = seal_page(PAGE_KEYS, 10, size_block, number, b"front panel").unwrap();
        let page = room.file("page", &page);
        let opened = run(&opening(named(&page), &room.path(name))).done();
        let expected = format!("opened: size block {block}, page {number}, 11 bytes\n");
        assert_eq!(opened, expected);
        assert_eq!(fs::read(room.path(name)).unwrap(), b"front panel");
    }
}

/// Seals a payload of some bytes under any two keys, for a size block.
fn sealed_under(room: &Room, keys: [&str; 2], rounds: u32, length: usize, block: u32) -> Run {
    let payload = room.file("payload", &bytes(length));
    let rest = format!("--rounds {rounds} --block {block} --page-number 2");
    let files = format!("--payload {} --page", named(&payload));
    let page = room.path("page");
    run(&words(
        "seal",
        keys,
        &format!("{rest} {files} {}", named(&page)),
    ))
}

#[test]
fn sealing_refuses_with_1_2_14_12_and_makes_no_file() {
    let room = Room::new("seal-refusals");
    let longer = &format!("{KEY}000000000000");
    let number =
        |keys, rounds, length, block| sealed_under(&room, keys, rounds, length, block).refused();
    for (length, block) in [(0, 1), (492, 1), (493, 1), (0, 0), (493, 0)] {
        assert_eq!(number(["00", OTHER_KEY], 10, length, block), 1);
        assert_eq!(number([KEY, "00"], 10, length, block), 1);
        assert_eq!(number([KEY, KEY], 10, length, block), 1);
        assert_eq!(number([KEY, longer], 10, length, block), 1);
        assert_eq!(number([longer, KEY], 14, length, block), 1);
        assert_eq!(number(["00", "00"], 12, length, block), 1);
        assert_eq!(number([KEY, OTHER_KEY], 9, length, block), 2);
        assert_eq!(number([KEY, OTHER_KEY], 12, length, block), 2);
        assert_eq!(number([KEY, KEY], 12, length, block), 1);
        assert_eq!(number([KEY, OTHER_KEY], 10, length, 0), 14);
    }
    for length in [493, 512, 5000] {
        assert_eq!(number([KEY, OTHER_KEY], 10, length, 1), 12);
        assert_eq!(number([KEY, OTHER_KEY], 10, length, 0), 14);
    }
    assert_eq!(room.names(), ["payload"]);
    // What has no end is not read to it.
    let endless = sealing("/dev/zero", &room.path("page"));
    assert_eq!(run(&endless).refused(), 12);
    assert_eq!(room.names(), ["payload"]);
}

/// The page with another used count, under a check that is right: the payload's last bytes
/// are then unused, and not zero.
fn with_count(mut page: [u8; 512], used: u8) -> [u8; 512] {
    page[6..8].copy_from_slice(&[0, used]);
    let last = page[..504].chunks(12).fold([0; 12], |previous, block| {
        let mut sum: [u8; 12] = previous;
        sum.iter_mut().zip(block).for_each(|(to, by)| *to ^= by);
        encipher(PAGE_KEYS.second, 10, &sum).unwrap()
    });
    page[504..].copy_from_slice(&last[..8]);
    page
}

#[test]
fn opening_refuses_with_1_2_11_13_and_makes_no_file() {
    let room = Room::new("open-refusals");
    let sealed = sealed(&[9; 492]);
    let number = |keys, rounds: u32, page: &[u8]| {
        let page = room.file("page", page);
        let rest = format!("--rounds {rounds} --page {}", named(&page));
        let new = room.path("new");
        run(&words(
            "open",
            keys,
            &format!("{rest} --payload {}", named(&new)),
        ))
        .refused()
    };
    let with = |at: usize, byte: u8| {
        let mut page = sealed;
        page[at] ^= byte;
        page
    };
    let (keys, other) = ([KEY, OTHER_KEY], [OTHER_KEY, KEY]);
    for page in [&sealed[..], &[]] {
        assert_eq!(number([KEY, "00"], 10, page), 1);
        assert_eq!(number([KEY, KEY], 10, page), 1);
        assert_eq!(number(keys, 12, page), 2);
    }
    for length in [0, 511] {
        assert_eq!(number(keys, 10, &sealed[..length]), 11);
    }
    assert_eq!(number(keys, 10, &[&sealed[..], &[0]].concat()), 11);
    // 493 used bytes, a zero that is none, 488 used bytes.
    assert_eq!(number(keys, 10, &with(7, 1)), 11);
    assert_eq!(number(keys, 10, &with(8, 1)), 11);
    assert_eq!(number(keys, 10, &with(7, 4)), 13);
    assert_eq!(number(keys, 10, &with(100, 1)), 13);
    assert_eq!(number(keys, 11, &sealed), 13);
    assert_eq!(number(other, 10, &sealed), 13);
    assert_eq!(number(keys, 10, &with_count(sealed, 200)), 11);
    assert_eq!(room.names(), ["page"]);
}

/// The page that is refused for its unused bytes above is one that the library takes with
/// its own count.
#[test]
fn a_count_with_its_check_is_what_was_sealed() {
    let sealed = sealed(&[9; 200]);
    assert_eq!(with_count(sealed, 200), sealed);
    let opened = open_page(PAGE_KEYS, 10, &with_count(sealed, 200));
    assert_eq!(opened.unwrap().payload, [9; 200]);
}

#[test]
fn a_file_is_not_replaced() {
    let room = Room::new("page-over");
    let payload = room.file("payload", b"front panel");
    let old = room.file("old", b"old");
    let link = room.path("link");
    symlink("nowhere", &link).unwrap();
    let page = room.file("page", &sealed(b"front panel"));
    for target in [&old, &link] {
        run(&sealing(named(&payload), target)).stopped("exists, and is not replaced");
        run(&opening(named(&page), target)).stopped("exists, and is not replaced");
    }
    // What is read is not written over either.
    run(&sealing(named(&payload), &payload)).stopped("exists, and is not replaced");
    run(&opening(named(&page), &page)).stopped("exists, and is not replaced");
    assert_eq!(fs::read(&old).unwrap(), b"old");
    assert_eq!(fs::read(&payload).unwrap(), b"front panel");
    assert_eq!(room.names(), ["link", "old", "page", "payload"]);
}

#[test]
fn a_payload_that_was_opened_is_the_owners() {
    let room = Room::new("page-mode");
    let page = room.file("page", &sealed(b"front panel"));
    let payload = room.path("payload");
    run(&opening(named(&page), &payload)).done();
    let mode = fs::metadata(&payload).unwrap().permissions().mode();
    assert_eq!(mode & 0o077, 0);
}

#[test]
fn files_that_cannot_be_used_are_named() {
    let room = Room::new("page-files");
    let (none, new) = (room.path("none"), room.path("new"));
    run(&sealing(named(&none), &new)).stopped(&format!("--payload: {}: ", named(&none)));
    run(&opening(named(&none), &new)).stopped(&format!("--page: {}: ", named(&none)));
    run(&sealing("/", &new)).stopped("--payload: /: ");
    run(&opening("/", &new)).stopped("--page: /: ");
    let nowhere = room.path("none/new");
    let named = |option: &str| format!("{option}: {}: ", nowhere.display());
    run_fed(&sealing("-", &nowhere), b"").stopped(&named("--page"));
    run_fed(&opening("-", &nowhere), &sealed(b"")).stopped(&named("--payload"));
    assert!(room.names().is_empty());
}

/// Standard output has the words, and cannot have the bytes too.
#[test]
fn what_is_written_is_a_file() {
    let output = Path::new("-");
    run_fed(&sealing("-", output), b"").stopped("--page: not to standard output");
    run_fed(&opening("-", output), b"").stopped("--payload: not to standard output");
    assert!(!Path::new("-").exists());
}

#[test]
fn a_file_that_cannot_be_told_is_made() {
    let room = Room::new("page-untold");
    let payload = room.file("payload", b"front panel");
    let (page, again) = (room.path("page"), room.path("again"));
    let untold = |words: &[String]| run_unheard(words).stopped(", but the change is made");
    untold(&sealing(named(&payload), &page));
    untold(&opening(named(&page), &again));
    assert_eq!(fs::read(&again).unwrap(), b"front panel");
}

#[test]
fn the_keys_may_stand_in_files() {
    let room = Room::new("page-key-files");
    let page = room.file("page", &sealed(b"front panel"));
    let first = room.file("first", format!("{KEY}\n").as_bytes());
    let second = room.file("second", OTHER_KEY.to_uppercase().as_bytes());
    let wrong = room.file("wrong", format!("{KEY} {KEY}").as_bytes());
    let open = |first: &Path, second: &Path, new: &str| {
        let new = room.path(new);
        let line = format!(
            "open --first-key-file {} --second-key-file {} --rounds 10 --page {} --payload {}",
            named(first),
            named(second),
            named(&page),
            named(&new)
        );
        run(&line.split(' ').collect::<Vec<_>>())
    };
    let opened = open(&first, &second, "a").done();
    assert_eq!(opened, "opened: size block 300, page 4, 11 bytes\n");
    assert_eq!(open(&second, &first, "b").refused(), 13);
    let run = open(&wrong, &second, "b");
    assert!(!run.err.contains(KEY), "{run:?}");
    run.stopped(&format!("--first-key-file: {}", named(&wrong)));
    open(&first, &wrong, "b").stopped(&format!("--second-key-file: {}", named(&wrong)));
    assert!(!room.path("b").exists());
}
