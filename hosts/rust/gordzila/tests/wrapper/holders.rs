//! The key holder: its steps and walks over all stages, and which bytes are one.

use gordzila::{stage, subkey, KeyHolder, Reason, Walked, Way, HOLDER_BYTES};

/// A key of each length.
fn keys() -> [Vec<u8>; 3] {
    [12, 18, 24].map(|length| (1..=length).collect())
}

/// Sees that a holder is at a stage of a key.
#[track_caller]
fn assert_at(holder: &KeyHolder, key: &[u8], n: u32) {
    assert_eq!(holder.key_length(), key.len());
    assert_eq!(holder.stage_number(), n);
    assert_eq!(*holder.stage(), stage(key, n).unwrap());
    assert_eq!(holder.subkey(), subkey(key, n).unwrap());
}

#[test]
fn a_holder_starts_at_stage_0() {
    for key in keys() {
        let holder = KeyHolder::new(&key).unwrap();
        assert_at(&holder, &key, 0);
        let mut expected = vec![key.len() as u8, 0];
        expected.extend(&key);
        expected.resize(HOLDER_BYTES, 0);
        assert_eq!(holder.as_bytes()[..], expected[..]);
    }
    for length in [0, 11, 13, 25, 256 + 12] {
        let refused = KeyHolder::new(&vec![1; length]);
        assert_eq!(refused, Err(Reason::KeyLength), "{length}");
    }
}

#[test]
fn steps_go_round_over_all_stages() {
    for key in keys() {
        let start = KeyHolder::new(&key).unwrap();
        let turn = key.len() as u32;
        let mut holder = start.clone();
        for n in (1..turn).chain([0]) {
            holder.forward();
            assert_at(&holder, &key, n);
        }
        assert_eq!(holder, start);
        for n in (0..turn).rev() {
            holder.back();
            assert_at(&holder, &key, n);
        }
        assert_eq!(holder, start);
    }
}

#[test]
fn a_walk_goes_the_shorter_way() {
    for key in keys() {
        let turn = key.len() as u32;
        let mut start = KeyHolder::new(&key).unwrap();
        for from in 0..turn {
            for to in 0..turn {
                let mut holder = start.clone();
                let walked = holder.walk(to).unwrap();
                assert_eq!(walked, shorter(turn, from, to), "{from} to {to}");
                assert_at(&holder, &key, to);
            }
            start.forward();
        }
    }
}

/// What reference/README.md has a walk report.
fn shorter(turn: u32, from: u32, to: u32) -> Walked {
    let (steps, way) = match (turn + to - from) % turn {
        steps if steps <= turn / 2 => (steps, Way::Forward),
        steps => (turn - steps, Way::Back),
    };
    Walked { steps, way }
}

#[test]
fn a_walk_to_no_stage_changes_nothing() {
    for key in keys() {
        let mut holder = KeyHolder::new(&key).unwrap();
        holder.back();
        let before = holder.clone();
        for n in [key.len() as u32, 25, 256, u32::MAX] {
            assert_eq!(holder.walk(n), Err(Reason::StageOrList), "{n}");
            assert_eq!(holder, before);
        }
    }
}

#[test]
fn a_holder_comes_back_from_its_bytes() {
    for key in keys() {
        let mut holder = KeyHolder::new(&key).unwrap();
        for _ in &key {
            holder.forward();
            let again = KeyHolder::from_bytes(*holder.as_bytes());
            assert_eq!(again.as_ref(), Ok(&holder));
        }
    }
}

#[test]
fn only_whole_bytes_are_a_holder() {
    for length in 0..=255 {
        for number in 0..=255 {
            let mut bytes = [0; HOLDER_BYTES];
            (bytes[0], bytes[1]) = (length, number);
            let whole = [12, 18, 24].contains(&length) && number < length;
            assert_whole(bytes, whole);
        }
    }
}

#[test]
fn a_holder_has_zeros_past_the_key() {
    for key in keys() {
        for at in 2..HOLDER_BYTES {
            let mut bytes = *KeyHolder::new(&key).unwrap().as_bytes();
            bytes[at] ^= 0x80;
            assert_whole(bytes, at < 2 + key.len());
        }
    }
}

#[track_caller]
fn assert_whole(bytes: [u8; HOLDER_BYTES], whole: bool) {
    match KeyHolder::from_bytes(bytes) {
        Ok(holder) => assert!(whole && *holder.as_bytes() == bytes, "{bytes:?}"),
        Err(reason) => assert!(!whole && reason == Reason::BrokenHolder, "{bytes:?}"),
    }
}

#[test]
fn the_stage_is_not_shown() {
    let mut holder = KeyHolder::new(&[0xab; 18]).unwrap();
    holder.walk(5).unwrap();
    let shown = format!("{holder:?}");
    assert_eq!(shown, "KeyHolder { key_length: 18, stage_number: 5, .. }");
    let lines = format!("{holder:#?}");
    assert_eq!(lines.split_whitespace().count(), shown.split(' ').count());
}
