//! Each refusal of each call, in the order of the header, and that a call that refuses
//! writes nothing.

use gordzila::{raw, Opened, Reason, Right, Roll, ROLL_BYTES};

/// A roll on which contractor 7 is in standing and may overwrite, and contractor 9 is in
/// standing and may only read.
fn roll() -> [u8; ROLL_BYTES] {
    let mut roll = Roll::empty();
    roll.enter(7, Right::Overwriting).unwrap();
    roll.enter(9, Right::Reading).unwrap();
    *roll.bytes()
}

/// The number that a call answers with an output of some length. If it is done, it has
/// written as many bytes as are said, and otherwise none: two outputs that are filled
/// differently show every byte that it writes.
pub fn numbered(length: usize, written: usize, call: impl Fn(&mut [u8]) -> u32) -> u32 {
    let (mut first, mut second) = (vec![0x55; length], vec![0xaa; length]);
    let number = call(&mut first);
    assert_eq!(call(&mut second), number);
    let changed = if number == 0 { written } else { 0 };
    assert_eq!(first[..changed], second[..changed]);
    assert!(first[changed..].iter().all(|&byte| byte == 0x55));
    assert!(second[changed..].iter().all(|&byte| byte == 0xaa));
    number
}

#[test]
fn the_cipher_refuses_with_1_2_3_4() {
    for call in [raw::encipher_number, raw::decipher_number] {
        let number = |key: usize, rounds, block: usize, out| {
            numbered(out, 12, |out| {
                call(&[1; 30][..key], rounds, &[2; 30][..block], out)
            })
        };
        assert_eq!(number(11, 0, 11, 11), 1);
        assert_eq!(number(0, 10, 12, 12), 1);
        assert_eq!(number(12, 9, 11, 11), 2);
        assert_eq!(number(12, 12, 12, 12), 2);
        assert_eq!(number(12, u32::MAX, 12, 12), 2);
        assert_eq!(number(18, 13, 12, 12), 2);
        assert_eq!(number(24, 24, 12, 12), 2);
        assert_eq!(number(12, 10, 11, 11), 3);
        assert_eq!(number(12, 10, 0, 12), 3);
        assert_eq!(number(12, 10, 13, 12), 3);
        assert_eq!(number(12, 10, 12, 11), 4);
        assert_eq!(number(12, 10, 12, 0), 4);
        assert_eq!(number(12, 10, 12, 12), 0);
        assert_eq!(number(24, 23, 12, 13), 0);
    }
}

#[test]
fn preparing_refuses_with_1_2_4() {
    for call in [
        raw::prepare_enciphering_number,
        raw::prepare_deciphering_number,
    ] {
        let number = |key: usize, rounds, written, out| {
            numbered(out, written, |out| call(&[1; 30][..key], rounds, out))
        };
        assert_eq!(number(13, 9, 0, 0), 1);
        assert_eq!(number(18, 18, 0, 0), 2);
        assert_eq!(number(24, 23, 288, 287), 4);
        assert_eq!(number(24, 23, 288, 288), 0);
        assert_eq!(number(12, 10, 132, 140), 0);
    }
}

#[test]
fn the_engine_refuses_with_5_3_4() {
    let number = |list: usize, block: usize, out| {
        numbered(out, 12, |out| {
            raw::run_number(&[1; 310][..list], &[2; 30][..block], out)
        })
    };
    for list in [0, 120, 131, 133, 289, 300] {
        assert_eq!(number(list, 11, 11), 5);
    }
    assert_eq!(number(132, 11, 11), 3);
    assert_eq!(number(132, 12, 11), 4);
    assert_eq!(number(132, 12, 12), 0);
    assert_eq!(number(288, 12, 13), 0);
}

#[test]
fn stages_and_subkeys_refuse_with_1_5_4() {
    let stage =
        |key: usize, n, out| numbered(out, 24, |out| raw::stage_number(&[1; 30][..key], n, out));
    let subkey =
        |key: usize, n, out| numbered(out, 12, |out| raw::subkey_number(&[1; 30][..key], n, out));
    assert_eq!((stage(11, 99, 0), subkey(11, 99, 0)), (1, 1));
    for key in [12, 18, 24] {
        let turn = key as u32;
        assert_eq!((stage(key, turn, 0), subkey(key, turn, 0)), (5, 5));
        assert_eq!((stage(key, u32::MAX, 0), subkey(key, u32::MAX, 0)), (5, 5));
        assert_eq!(
            (stage(key, turn - 1, 23), subkey(key, turn - 1, 11)),
            (4, 4)
        );
        assert_eq!(
            (stage(key, turn - 1, 24), subkey(key, turn - 1, 12)),
            (0, 0)
        );
        assert_eq!((stage(key, 0, 25), subkey(key, 0, 13)), (0, 0));
    }
}

#[test]
fn the_empty_roll_refuses_with_4() {
    for short in [0, 1, 399, 400, 599] {
        assert_eq!(numbered(short, 600, raw::empty_roll_number), 4, "{short}");
    }
    for enough in [600, 601, 1000] {
        assert_eq!(numbered(enough, 600, raw::empty_roll_number), 0, "{enough}");
    }
    assert_eq!(raw::empty_roll(&mut [0; 599]), Err(Reason::OutputTooShort));
}

/// The number that a call on a roll answers; if it is not 0, the roll stays.
fn on_roll(roll: &[u8], call: impl Fn(&mut [u8]) -> u32) -> u32 {
    let mut after = roll.to_vec();
    let number = call(&mut after);
    assert_eq!(number == 0, after != roll);
    number
}

#[test]
fn entering_refuses_with_3_6_7_21_22() {
    let roll = roll();
    let number = |roll: &[u8], contractor, right| {
        on_roll(roll, |roll| raw::enter_number(roll, contractor, right))
    };
    for length in [0, 399, 400, 401, 599, 601] {
        assert_eq!(number(&vec![0; length], 0, 0), 3, "{length}");
    }
    for contractor in [0, 201, 263, u32::MAX] {
        assert_eq!(number(&roll, contractor, 0), 6, "{contractor}");
    }
    // 7 comes before the state, whatever that is.
    let mut spent = roll;
    spent[14..16].copy_from_slice(&[0xff, 0xfe]);
    for right in [0, 3, 257, 258, u32::MAX] {
        assert_eq!(number(&roll, 7, right), 7, "{right}");
        assert_eq!(number(&roll, 8, right), 7, "{right}");
        assert_eq!(number(&spent, 8, right), 7, "{right}");
    }
    for right in [1, 2] {
        assert_eq!(number(&roll, 7, right), 21);
        assert_eq!(number(&roll, 9, right), 21);
        assert_eq!(number(&spent, 8, right), 22);
        assert_eq!(number(&roll, 8, right), 0);
    }
    let entered = raw::enter(&mut roll.clone(), 8, 3);
    assert_eq!(entered, Err(Reason::Right));
}

#[test]
fn changing_refuses_with_3_6_7_20() {
    let roll = roll();
    let number = |roll: &[u8], contractor, right| {
        on_roll(roll, |roll| {
            raw::change_right_number(roll, contractor, right)
        })
    };
    for length in [0, 399, 400, 401, 599, 601] {
        assert_eq!(number(&vec![0; length], 0, 0), 3, "{length}");
    }
    for contractor in [0, 201, 263, u32::MAX] {
        assert_eq!(number(&roll, contractor, 0), 6, "{contractor}");
    }
    for right in [0, 3, 257, 258, u32::MAX] {
        assert_eq!(number(&roll, 7, right), 7, "{right}");
        assert_eq!(number(&roll, 8, right), 7, "{right}");
    }
    assert_eq!((number(&roll, 8, 1), number(&roll, 8, 2)), (20, 20));
    assert_eq!((number(&roll, 7, 1), number(&roll, 9, 2)), (0, 0));
    // The right that they have already is taken, and the roll stays.
    let mut same = roll;
    assert_eq!(raw::change_right(&mut same, 7, 2), Ok(()));
    assert_eq!(raw::change_right(&mut same, 9, 1), Ok(()));
    assert_eq!(same, roll);
    assert_eq!(
        raw::change_right(&mut same, 8, 2),
        Err(Reason::NotInStanding)
    );
}

#[test]
fn withdrawing_refuses_with_3_6_20() {
    let roll = roll();
    let number =
        |roll: &[u8], contractor| on_roll(roll, |roll| raw::withdraw_number(roll, contractor));
    for length in [0, 399, 400, 401, 599, 601] {
        assert_eq!(number(&vec![0; length], 0), 3, "{length}");
    }
    assert_eq!((number(&roll, 0), number(&roll, 201)), (6, 6));
    assert_eq!(number(&roll, 8), 20);
    assert_eq!((number(&roll, 7), number(&roll, 9)), (0, 0));
    assert_eq!(
        raw::withdraw(&mut roll.clone(), 201),
        Err(Reason::Contractor)
    );
}

#[test]
fn issuing_refuses_with_1_2_3_4_6_7_14_20_25() {
    let roll = roll();
    let number = |key: usize, rounds, roll: &[u8], out, contractor, right, block| {
        numbered(out, 12, |out| {
            raw::issue_number(&[1; 30][..key], rounds, roll, contractor, block, right, out)
        })
    };
    assert_eq!(number(11, 0, &[], 0, 0, 0, 0), 1);
    assert_eq!(number(12, 0, &[], 0, 0, 0, 0), 2);
    for length in [0, 399, 400, 401, 599] {
        assert_eq!(number(12, 10, &roll[..length], 0, 0, 0, 0), 3, "{length}");
    }
    assert_eq!(number(12, 10, &[0; 601], 0, 0, 0, 0), 3);
    assert_eq!(number(12, 10, &roll, 11, 0, 0, 0), 4);
    assert_eq!(number(12, 10, &roll, 12, 0, 0, 0), 6);
    assert_eq!(number(12, 10, &roll, 12, 201, 0, 0), 6);
    assert_eq!(number(12, 10, &roll, 12, 8, 0, 0), 7);
    assert_eq!(number(12, 10, &roll, 12, 8, 3, 0), 7);
    assert_eq!(number(12, 10, &roll, 12, 8, 2, 0), 14);
    assert_eq!(number(12, 10, &roll, 12, 9, 2, 0), 14);
    assert_eq!(number(12, 10, &roll, 13, 7, 2, 0), 14);
    assert_eq!(number(12, 10, &roll, 12, 8, 2, 300), 20);
    assert_eq!(number(12, 10, &roll, 12, 9, 2, 300), 25);
    assert_eq!(number(12, 10, &roll, 12, 9, 1, 300), 0);
    assert_eq!(number(12, 10, &roll, 13, 7, 2, 300), 0);
}

#[test]
fn checking_refuses_with_1_2_3_7_14_8_9_10_20_23_25() {
    let (key, roll, mut grant, mut reading) = ([1; 12], roll(), [0; 12], [0; 12]);
    raw::issue(&key, 10, &roll, 7, 300, 2, &mut grant).unwrap();
    raw::issue(&key, 10, &roll, 7, 300, 1, &mut reading).unwrap();
    let number = |key: &[u8], rounds, roll: &[u8], grant: &[u8], block, right| {
        raw::check_number(key, rounds, roll, grant, block, right)
    };
    assert_eq!(number(&[], 0, &[], &[], 0, 0), 1);
    assert_eq!(number(&key, 0, &[], &[], 0, 0), 2);
    assert_eq!(number(&key, 10, &roll, &[], 0, 0), 3);
    for length in [0, 399, 400, 401, 599] {
        assert_eq!(number(&key, 10, &roll[..length], &grant, 0, 0), 3);
    }
    assert_eq!(number(&key, 10, &[0; 601], &grant, 0, 0), 3);
    assert_eq!(number(&key, 10, &roll, &[0; 12], 0, 0), 7);
    assert_eq!(number(&key, 10, &roll, &[0; 12], 0, 1), 14);
    assert_eq!(number(&key, 10, &[0; 600], &reading, 0, 2), 14);
    assert_eq!(number(&key, 10, &roll, &grant, 0, 2), 14);
    assert_eq!(number(&key, 10, &roll, &[0; 12], 300, 1), 8);
    assert_eq!(number(&key, 11, &roll, &grant, 300, 2), 8);
    // On a roll of zeros nobody is in standing, and nobody may overwrite.
    assert_eq!(number(&key, 10, &[0; 600], &reading, 301, 2), 9);
    assert_eq!(number(&key, 10, &[0; 600], &reading, 300, 2), 10);
    assert_eq!(number(&key, 10, &[0; 600], &grant, 300, 2), 20);
    let mut later = roll;
    (later[13], later[406]) = (3, 1);
    assert_eq!(number(&key, 10, &later, &grant, 300, 2), 23);
    later[13] = 1;
    assert_eq!(number(&key, 10, &later, &reading, 300, 2), 10);
    assert_eq!(number(&key, 10, &later, &grant, 300, 2), 25);
    assert_eq!(number(&key, 10, &later, &grant, 300, 1), 1007);
    assert_eq!(number(&key, 10, &roll, &grant, 300, 2), 2007);
    let opened = Opened {
        contractor: 7,
        right: Right::Overwriting,
    };
    assert_eq!(raw::check(&key, 10, &roll, &grant, 300, 2), Ok(opened));
}

#[test]
fn the_calls_may_be_made_from_many_threads() {
    let expected = gordzila::encipher(&[1; 24], 23, &[2; 12]);
    std::thread::scope(|scope| {
        for _ in 0..4 {
            scope.spawn(|| {
                for _ in 0..100 {
                    assert_eq!(gordzila::encipher(&[1; 24], 23, &[2; 12]), expected);
                }
            });
        }
    });
}
