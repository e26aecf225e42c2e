//! Each refusal of each call on a key holder, in the order of the header, and that a
//! call that refuses writes nothing.

use crate::refusals::numbered;
use gordzila::{raw, KeyHolder, Reason, Walked, Way};

#[test]
fn making_a_holder_refuses_with_1_4() {
    let number =
        |key: usize, out| numbered(out, 26, |out| raw::holder_make_number(&[1; 30][..key], out));
    for key in [0, 11, 13, 17, 19, 23, 25] {
        assert_eq!((number(key, 0), number(key, 26)), (1, 1));
    }
    for key in [12, 18, 24] {
        assert_eq!((number(key, 0), number(key, 25)), (4, 4));
        assert_eq!((number(key, 26), number(key, 27)), (0, 0));
    }
}

/// A holder of a key of 18 bytes, at stage 1.
fn holder() -> [u8; 26] {
    let mut holder = KeyHolder::new(&[1; 18]).unwrap();
    holder.forward();
    *holder.as_bytes()
}

/// Holders that are not 26 bytes, or not whole.
fn broken_holders() -> Vec<Vec<u8>> {
    let with = |at: usize, byte| {
        let mut holder = holder();
        holder[at] = byte;
        holder.to_vec()
    };
    let longer = [&holder()[..], &[0]].concat();
    let mut broken = vec![Vec::new(), holder()[..25].to_vec(), longer];
    broken.extend([with(0, 0), with(0, 12), with(0, 17), with(0, 255)]);
    broken.extend([with(1, 18), with(1, 255), with(20, 1), with(25, 128)]);
    broken
}

#[test]
fn steps_refuse_with_24() {
    for call in [raw::holder_forward_number, raw::holder_back_number] {
        for broken in broken_holders() {
            let mut after = broken.clone();
            assert_eq!((call(&mut after), &after), (24, &broken));
        }
        let mut after = holder();
        assert_eq!(call(&mut after), 0);
        assert_ne!(after, holder());
    }
    let mut after = holder();
    assert_eq!(raw::holder_forward(&mut after), Ok(()));
    assert_eq!(raw::holder_back(&mut after), Ok(()));
    assert_eq!(after, holder());
    assert_eq!(raw::holder_forward(&mut []), Err(Reason::BrokenHolder));
    assert_eq!(raw::holder_back(&mut []), Err(Reason::BrokenHolder));
}

#[test]
fn a_walk_refuses_with_24_5() {
    for broken in broken_holders() {
        for n in [0, 18, u32::MAX] {
            let mut after = broken.clone();
            assert_eq!(
                (raw::holder_walk_number(&mut after, n), &after),
                (24, &broken)
            );
        }
    }
    let mut after = holder();
    for n in [18, 257, u32::MAX] {
        assert_eq!(raw::holder_walk(&mut after, n), Err(Reason::StageOrList));
        assert_eq!(after, holder());
    }
    assert_eq!(raw::holder_walk_number(&mut after, 1), 1000);
    assert_eq!(after, holder());
    assert_eq!(raw::holder_walk_number(&mut after, 10), 1009);
    assert_eq!(raw::holder_walk_number(&mut after, 2), 2008);
    let (steps, way) = (1, Way::Back);
    assert_eq!(raw::holder_walk(&mut after, 1), Ok(Walked { steps, way }));
    assert_eq!(after, holder());
}

#[test]
fn the_subkey_of_a_holder_refuses_with_24_4() {
    let number =
        |holder: &[u8], out| numbered(out, 12, |out| raw::holder_subkey_number(holder, out));
    for broken in broken_holders() {
        assert_eq!((number(&broken, 0), number(&broken, 12)), (24, 24));
    }
    assert_eq!((number(&holder(), 0), number(&holder(), 11)), (4, 4));
    assert_eq!((number(&holder(), 12), number(&holder(), 13)), (0, 0));
    let broken = raw::holder_subkey(&[], &mut []);
    assert_eq!(broken, Err(Reason::BrokenHolder));
}
