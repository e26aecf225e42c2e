//! The comparison can fail: libraries that do something wrong are found out.

use std::sync::atomic::{AtomicUsize, Ordering};
use std::sync::Mutex;

use gordzila_differential::archive::archive;
use gordzila_differential::call::{Argument, Argument as A, Call};
use gordzila_differential::case::Case;
use gordzila_differential::compare::differences;
use gordzila_differential::expect::{needed, refused, Effect, Expected};
use gordzila_differential::holders::HOLDER_BYTES;
use gordzila_differential::lend::{Bytes, Lent, Library};
use gordzila_differential::random::Random;
use gordzila_differential::rolls::{FIGURES, ROLL_BYTES};
use gordzila_differential::work::{family_cases, page_cases, FAMILY};

#[path = "mutants/pages.rs"]
mod pages;
#[path = "mutants/queue.rs"]
mod queue;
#[path = "mutants/rights.rs"]
mod rights;
#[path = "mutants/zero.rs"]
mod zero;

const SEED: u64 = 7;
const FAMILIES: u64 = 200;

/// Families with pages, three of which are among the others.
const PAGE_FAMILIES: u64 = 24;

/// The cases on which all is tried. They are drawn once, by the test that comes first.
fn cases() -> &'static [(Case, Expected)] {
    static CASES: Mutex<Option<&[(Case, Expected)]>> = Mutex::new(None);
    let mut cases = CASES.lock().expect("no test panics while it draws");
    cases.get_or_insert_with(|| {
        let drawn = (0..FAMILIES).flat_map(|family| family_cases(SEED, family, FAMILY));
        let others = (3..PAGE_FAMILIES).flat_map(|paged| page_cases(SEED, paged));
        drawn.chain(others).collect::<Vec<_>>().leak()
    })
}

/// How many cases of a call differ with a library. There are more on pages than are tried here, which
/// would take long.
fn found(call: Call, library: &Library<'_>) -> usize {
    let mut random = Random::new(SEED, 0);
    let cases = cases()[..(FAMILIES * FAMILY) as usize].iter();
    cases
        .filter(|pair| pair.0.call == call)
        .filter(|(case, expected)| differs(case, &expected.effect, library, &mut random))
        .count()
}

/// Whether a case of a call differs with a library. No more cases are tried than that takes.
fn is_found(call: Call, library: &Library<'_>) -> bool {
    let mut random = Random::new(SEED, 0);
    let mut cases = cases().iter().filter(|pair| pair.0.call == call);
    cases.any(|(case, expected)| differs(case, &expected.effect, library, &mut random))
}

fn differs(case: &Case, effect: &Effect, library: &Library<'_>, random: &mut Random) -> bool {
    !differences(case, effect, library, random).is_empty()
}

/// Tries a library that says with its answer whether it did something wrong: in at least one
/// case of the call it did, and in each such case, and no other, it is found out.
fn always_found(call: Call, library: impl Fn(&Lent) -> (u64, bool) + Sync) {
    let wrong = AtomicUsize::new(0);
    let counting = |_, lent: &Lent| {
        let (answer, is_wrong) = library(lent);
        wrong.fetch_add(usize::from(is_wrong), Ordering::Relaxed);
        answer
    };
    let found = found(call, &counting);
    let wrong = wrong.into_inner();
    assert!(wrong > 0, "{} was never wrong", call.name());
    assert_eq!(found, wrong, "{}", call.name());
}

/// Changes one bit of the byte at a place counted from the start of what is lent.
fn poke(bytes: Bytes, place: isize) {
    let byte = bytes.start.wrapping_offset(place);
    // The place is in the lent bytes or in the guard bytes around them.
    unsafe { *byte ^= 1 };
}

/// A copy of what is lent.
fn copied(bytes: Bytes) -> Vec<u8> {
    unsafe { std::slice::from_raw_parts(bytes.start, bytes.length) }.to_vec()
}

/// The place just after what is lent.
fn end(bytes: Bytes) -> isize {
    bytes.length as isize
}

/// The bytes that are lent for an argument, if it is one of bytes that are not the output.
fn input(argument: Argument, lent: &Lent) -> Option<Bytes> {
    match argument {
        Argument::Key => Some(lent.key),
        Argument::SecondKey => Some(lent.second_key),
        Argument::Roll => Some(lent.roll),
        Argument::Holder => Some(lent.holder),
        Argument::List => Some(lent.list),
        Argument::Block | Argument::Grant | Argument::Grants => Some(lent.block),
        Argument::Payload | Argument::Page => Some(lent.block),
        _ => None,
    }
}

/// The calls with each argument of theirs that is an input of bytes.
fn inputs() -> impl Iterator<Item = (Call, Argument)> {
    let bytes = [
        A::Key,
        A::SecondKey,
        A::Roll,
        A::Holder,
        A::List,
        A::Block,
        A::Grant,
        A::Grants,
        A::Payload,
        A::Page,
    ];
    let all = Call::ALL.into_iter().flat_map(|call| {
        let arguments = call.arguments().iter();
        arguments.map(move |&argument| (call, argument))
    });
    all.filter(move |pair| bytes.contains(&pair.1))
}

/// The bytes that a call writes to its output where it does not refuse.
fn written(call: Call, lent: &Lent) -> usize {
    let mut case = Case::new(call);
    case.rounds = lent.rounds;
    case.block = vec![0; lent.block.length];
    needed(&case) as usize
}

/// The calls that have an output.
fn writing() -> impl Iterator<Item = Call> {
    let calls = Call::ALL.into_iter();
    calls.filter(|call| call.arguments().contains(&Argument::Out))
}

#[test]
fn the_archive_does_not_differ() {
    for call in Call::ALL {
        assert!(!is_found(call, &archive), "{}", call.name());
    }
}

#[test]
fn another_answer_is_found() {
    for call in Call::ALL {
        always_found(call, |lent| (archive(call, lent) + 1, true));
    }
}

#[test]
fn a_success_that_should_be_a_refusal_is_found() {
    for call in Call::ALL {
        always_found(call, |lent| match archive(call, lent) {
            1..=999 => (0, true),
            answer => (answer, false),
        });
    }
}

#[test]
fn a_wrong_byte_of_an_output_is_found_at_every_place() {
    for call in writing() {
        let turn = AtomicUsize::new(0);
        // As often as it takes for each place to have its turn.
        while turn.load(Ordering::Relaxed) <= ROLL_BYTES {
            always_found(call, |lent| {
                let answer = archive(call, lent);
                let is_wrong = is_done(answer) && written(call, lent) > 0;
                if is_wrong {
                    let place = turn.fetch_add(1, Ordering::Relaxed) % written(call, lent);
                    poke(lent.out, place as isize);
                }
                (answer, is_wrong)
            });
        }
    }
}

#[test]
fn a_byte_that_is_not_written_is_found() {
    for call in writing() {
        always_found(call, |lent| {
            let last = written(call, lent).wrapping_sub(1);
            let place = lent.out.start.wrapping_add(last);
            let before = (last < lent.out.length).then(|| unsafe { *place });
            let answer = archive(call, lent);
            let before = before.filter(|_| is_done(answer));
            if let Some(before) = before {
                unsafe { *place = before };
            }
            (answer, before.is_some())
        });
    }
}

#[test]
fn a_byte_written_after_the_stated_ones_is_found() {
    for call in writing() {
        always_found(call, |lent| {
            let answer = archive(call, lent);
            if is_done(answer) {
                poke(lent.out, written(call, lent) as isize);
            }
            (answer, is_done(answer))
        });
    }
}

#[test]
fn a_byte_written_past_either_end_of_an_output_is_found() {
    for call in writing() {
        for past in [-64, -1, 0, 1, 63] {
            always_found(call, |lent| {
                let answer = archive(call, lent);
                let place = if past < 0 { past } else { end(lent.out) + past };
                poke(lent.out, place);
                (answer, true)
            });
        }
    }
}

#[test]
fn an_output_written_by_a_refusal_is_found() {
    for call in writing() {
        always_found(call, |lent| {
            let answer = archive(call, lent);
            let is_wrong = !is_done(answer) && lent.out.length > 0;
            if is_wrong {
                poke(lent.out, end(lent.out) - 1);
            }
            (answer, is_wrong)
        });
    }
}

/// Pokes an input of a call, for every call and each of its inputs.
fn poked_inputs_are_found(place: impl Fn(Bytes) -> Option<isize> + Sync) {
    for (call, argument) in inputs() {
        always_found(call, |lent| {
            let answer = archive(call, lent);
            let poked = input(argument, lent).and_then(|bytes| Some((bytes, place(bytes)?)));
            if let Some((bytes, place)) = poked {
                poke(bytes, place);
            }
            (answer, poked.is_some())
        });
    }
}

#[test]
fn a_changed_input_is_found() {
    poked_inputs_are_found(|bytes| (bytes.length > 0).then_some(0));
    poked_inputs_are_found(|bytes| (bytes.length > 0).then(|| end(bytes) - 1));
}

#[test]
fn a_byte_written_past_either_end_of_an_input_is_found() {
    poked_inputs_are_found(|_| Some(-1));
    poked_inputs_are_found(|bytes| Some(end(bytes)));
}

#[test]
fn a_roll_that_is_not_changed_is_found() {
    for call in Call::ON_ROLL {
        always_found(call, |lent| {
            let before = copied(lent.roll);
            let answer = archive(call, lent);
            let is_wrong = copied(lent.roll) != before;
            put(lent.roll, &before);
            (answer, is_wrong)
        });
    }
}

#[test]
fn a_wrong_byte_of_a_roll_is_found_at_every_place() {
    for call in Call::ON_ROLL {
        let turn = AtomicUsize::new(0);
        // As often as it takes for each place to have its turn.
        while turn.load(Ordering::Relaxed) <= ROLL_BYTES {
            always_found(call, |lent| {
                let answer = archive(call, lent);
                if answer == 0 {
                    let place = turn.fetch_add(1, Ordering::Relaxed) % ROLL_BYTES;
                    poke(lent.roll, place as isize);
                }
                (answer, answer == 0)
            });
        }
    }
}

/// The calls that write to a holder.
const MOVING: [Call; 3] = [Call::HolderForward, Call::HolderBack, Call::HolderWalk];

/// The calls on a holder.
const HOLDING: [Call; 4] = [
    Call::HolderForward,
    Call::HolderBack,
    Call::HolderWalk,
    Call::HolderSubkey,
];

/// Whether an answer is no refusal.
fn is_done(answer: u64) -> bool {
    answer == 0 || answer >= 1000
}

/// How many stages the key has that is lent, or that the lent holder names.
fn stages(lent: &Lent) -> u32 {
    let named = copied(lent.holder).first().copied();
    named.map_or(lent.key.length as u32, u32::from)
}

/// Puts other bytes in place of lent ones.
fn put(bytes: Bytes, other: &[u8]) {
    assert_eq!(bytes.length, other.len());
    unsafe { bytes.start.copy_from(other.as_ptr(), other.len()) };
}

#[test]
fn a_holder_that_is_not_changed_is_found() {
    for call in MOVING {
        always_found(call, |lent| {
            let before = copied(lent.holder);
            let answer = archive(call, lent);
            let is_wrong = copied(lent.holder) != before;
            put(lent.holder, &before);
            (answer, is_wrong)
        });
    }
}

#[test]
fn a_wrong_byte_of_a_holder_is_found_at_every_place() {
    for call in MOVING {
        let turn = AtomicUsize::new(0);
        always_found(call, |lent| {
            let answer = archive(call, lent);
            if is_done(answer) {
                let place = turn.fetch_add(1, Ordering::Relaxed) % HOLDER_BYTES;
                poke(lent.holder, place as isize);
            }
            (answer, is_done(answer))
        });
        assert!(turn.into_inner() > 10 * HOLDER_BYTES);
    }
}

#[test]
fn a_holder_changed_by_a_refusal_is_found() {
    for call in HOLDING {
        let turn = AtomicUsize::new(0);
        always_found(call, |lent| {
            let answer = archive(call, lent);
            let is_wrong = !is_done(answer) && lent.holder.length > 0;
            if is_wrong {
                let place = turn.fetch_add(1, Ordering::Relaxed) % lent.holder.length;
                poke(lent.holder, place as isize);
            }
            (answer, is_wrong)
        });
        assert!(turn.into_inner() > 10 * HOLDER_BYTES);
    }
}

#[test]
fn a_key_length_and_a_number_that_changed_places_are_found() {
    let swap = |bytes: Bytes| unsafe { bytes.start.swap(bytes.start.wrapping_add(1)) };
    for call in MOVING {
        always_found(call, |lent| {
            let answer = archive(call, lent);
            if is_done(answer) {
                swap(lent.holder);
            }
            (answer, is_done(answer))
        });
    }
    always_found(Call::HolderMake, |lent| {
        let answer = archive(Call::HolderMake, lent);
        if answer == 0 {
            swap(lent.out);
        }
        (answer, answer == 0)
    });
}

#[test]
fn a_step_too_many_is_found() {
    for more in [Call::HolderForward, Call::HolderBack] {
        for call in MOVING {
            always_found(call, |lent| {
                let answer = archive(call, lent);
                if is_done(answer) {
                    archive(more, lent);
                }
                (answer, is_done(answer))
            });
        }
        always_found(Call::HolderMake, |lent| {
            let answer = archive(Call::HolderMake, lent);
            if answer == 0 {
                let mut made = *lent;
                made.holder = lent.out;
                made.holder.length = HOLDER_BYTES;
                archive(more, &made);
            }
            (answer, answer == 0)
        });
    }
}

#[test]
fn the_subkey_of_a_stage_beside_is_found() {
    for step in [Call::HolderForward, Call::HolderBack] {
        always_found(Call::HolderSubkey, |lent| {
            let mut beside = copied(lent.holder);
            let mut lent = *lent;
            lent.holder.start = beside.as_mut_ptr();
            archive(step, &lent);
            let answer = archive(Call::HolderSubkey, &lent);
            (answer, answer == 0)
        });
    }
}

/// Tries a library that walks as it has to, and answers something else: what is made of the way (1
/// forward, 2 back), the steps, and the stages of the key.
fn misreported_walks_are_found(report: impl Fn(u32, u32, u32) -> u32 + Sync) {
    always_found(Call::HolderWalk, |lent| {
        let answer = archive(Call::HolderWalk, lent);
        let reported = match is_done(answer) {
            true => report(answer as u32 / 1000, answer as u32 % 1000, stages(lent)).into(),
            false => answer,
        };
        (reported, reported != answer)
    });
}

#[test]
fn a_walk_that_reports_something_else_is_found() {
    // The other way, with its steps or those that were made.
    misreported_walks_are_found(|way, steps, stages| 1000 * (3 - way) + stages - steps);
    misreported_walks_are_found(|way, steps, _| 1000 * (3 - way) + steps);
    // One way always.
    misreported_walks_are_found(|way, steps, stages| match way {
        1 => 1000 + steps,
        _ => 1000 + stages - steps,
    });
    misreported_walks_are_found(|_, steps, _| 1000 + steps);
    misreported_walks_are_found(|_, steps, _| 2000 + steps);
    // Back, where no step is made, and where both ways are as long.
    misreported_walks_are_found(|way, steps, _| 1000 * way + steps + 1000 * u32::from(steps == 0));
    misreported_walks_are_found(|way, steps, stages| {
        1000 * way + steps + 1000 * u32::from(2 * steps == stages)
    });
    // No way.
    misreported_walks_are_found(|_, steps, _| steps);
}

/// Tries libraries that take broken holders of 26 bytes for others, which are whole in some cases.
fn broken_holders_taken_for_whole_are_found(change: impl Fn(&mut [u8]) + Sync) {
    for call in HOLDING {
        always_found(call, |lent| {
            let before = copied(lent.holder);
            let mut other = before.clone();
            if other.len() == HOLDER_BYTES {
                change(&mut other);
            }
            put(lent.holder, &other);
            let answer = archive(call, lent);
            if !is_done(answer) || call == Call::HolderSubkey {
                put(lent.holder, &before);
            }
            (answer, other != before && answer != 24)
        });
    }
}

#[test]
fn broken_holders_that_are_not_refused_are_found() {
    // The bytes past the key are not looked at.
    broken_holders_taken_for_whole_are_found(|holder| {
        let past = 2 + usize::from(holder[0].min(24));
        holder[past..].fill(0);
    });
    broken_holders_taken_for_whole_are_found(|holder| {
        if holder[0] < 24 {
            holder[2 + usize::from(holder[0])] = 0;
        }
    });
    broken_holders_taken_for_whole_are_found(|holder| {
        if holder[0] < 24 {
            holder[HOLDER_BYTES - 1] = 0;
        }
    });
    // The number is not looked at, or may be the key's length, or loses a bit.
    broken_holders_taken_for_whole_are_found(|holder| holder[1] %= holder[0].max(1));
    broken_holders_taken_for_whole_are_found(|holder| {
        holder[1] -= u8::from(holder[1] == holder[0] && holder[1] > 0);
    });
    broken_holders_taken_for_whole_are_found(|holder| holder[1] &= 0x7f);
    // The key length may be another one.
    broken_holders_taken_for_whole_are_found(|holder| {
        holder[0] += u8::from([11, 17, 23].contains(&holder[0]));
    });
    broken_holders_taken_for_whole_are_found(|holder| {
        holder[0] -= u8::from([13, 19, 25].contains(&holder[0]));
    });
    broken_holders_taken_for_whole_are_found(|holder| holder[0] = holder[0].clamp(12, 24));
}

/// Tries libraries that take an argument for something else, for each call that takes it.
#[track_caller]
fn taken_for_something_else(argument: Argument, change: impl Fn(&mut Lent) + Sync) {
    let takes = |call: &Call| call.arguments().contains(&argument);
    for call in Call::ALL.into_iter().filter(takes) {
        let library = |_, lent: &Lent| {
            let mut lent = *lent;
            change(&mut lent);
            archive(call, &lent)
        };
        assert!(is_found(call, &library), "{} {argument:?}", call.name());
    }
}

#[test]
fn numbers_cut_to_fewer_bits_are_found() {
    for mask in [0xff, 0xffff, 0xff_ffff, 0x7fff_ffff] {
        taken_for_something_else(Argument::Rounds, |lent| lent.rounds &= mask);
        taken_for_something_else(Argument::Stage, |lent| lent.stage &= mask);
        taken_for_something_else(Argument::SizeBlock, |lent| lent.size_block &= mask);
    }
    for mask in [0xff, 0xffff] {
        taken_for_something_else(Argument::Contractor, |lent| lent.contractor &= mask);
        taken_for_something_else(Argument::Right, |lent| lent.right &= mask);
    }
    for mask in [0xff, 0x7fff] {
        taken_for_something_else(Argument::PageNumber, |lent| lent.page_number &= mask);
    }
}

#[test]
fn lengths_cut_to_fewer_bits_are_found() {
    taken_for_something_else(Argument::Key, |lent| lent.key.length &= 0xff);
    taken_for_something_else(Argument::SecondKey, |lent| lent.second_key.length &= 0xff);
    taken_for_something_else(Argument::Out, |lent| lent.out.length &= 0xff);
    taken_for_something_else(Argument::Roll, |lent| lent.roll.length &= 0xffff);
    for mask in [0xff, 0xffff] {
        taken_for_something_else(Argument::Holder, |lent| lent.holder.length &= mask);
        taken_for_something_else(Argument::List, |lent| lent.list.length &= mask);
        taken_for_something_else(Argument::Block, |lent| lent.block.length &= mask);
        taken_for_something_else(Argument::Grant, |lent| lent.block.length &= mask);
        taken_for_something_else(Argument::Grants, |lent| lent.block.length &= mask);
    }
    taken_for_something_else(Argument::Scratch, |lent| lent.scratch.length &= 0x1ff);
    for mask in [0x1ff, 0xffff] {
        taken_for_something_else(Argument::Payload, |lent| lent.block.length &= mask);
        taken_for_something_else(Argument::Page, |lent| lent.block.length &= mask);
    }
}

#[test]
fn limits_that_are_off_by_one_are_found() {
    taken_for_something_else(Argument::Contractor, |lent| {
        lent.contractor -= u32::from(lent.contractor == 201);
    });
    taken_for_something_else(Argument::Contractor, |lent| {
        lent.contractor += u32::from(lent.contractor == 0);
    });
    taken_for_something_else(Argument::Right, |lent| {
        lent.right -= u32::from(lent.right == 3);
    });
    taken_for_something_else(Argument::SizeBlock, |lent| {
        lent.size_block += u32::from(lent.size_block == 0);
    });
    taken_for_something_else(Argument::SizeBlock, |lent| {
        lent.size_block -= u32::from(lent.size_block == 1);
    });
    taken_for_something_else(Argument::Stage, |lent| {
        lent.stage -= u32::from(lent.stage == stages(lent) && lent.stage > 0);
    });
    taken_for_something_else(Argument::Rounds, |lent| {
        lent.rounds -= u32::from([12, 18, 24].contains(&lent.rounds));
    });
    taken_for_something_else(Argument::Rounds, |lent| {
        lent.rounds += u32::from([9, 13, 17].contains(&lent.rounds));
    });
    taken_for_something_else(Argument::List, |lent| {
        lent.list.length -= usize::from(lent.list.length == 289);
    });
    taken_for_something_else(Argument::Holder, |lent| {
        lent.holder.length = lent.holder.length.min(HOLDER_BYTES);
    });
    taken_for_something_else(Argument::Holder, |lent| {
        lent.holder.length -= usize::from(lent.holder.length == 27);
    });
    taken_for_something_else(Argument::Holder, |lent| {
        lent.holder.length += usize::from(lent.holder.length == 25);
    });
}

#[test]
fn counts_cut_to_a_byte_are_found() {
    for call in [Call::Issue, Call::Check, Call::CheckQueue] {
        let library = |_, lent: &Lent| {
            let mut cut = copied(lent.roll);
            let counts = cut.iter_mut().take(FIGURES);
            counts.step_by(2).for_each(|high| *high = 0);
            let mut lent = *lent;
            lent.roll.start = cut.as_mut_ptr();
            archive(call, &lent)
        };
        assert!(is_found(call, &library), "{}", call.name());
    }
}

/// What a grant deciphers to that is lent for a check.
fn deciphered(lent: &Lent) -> Option<[u8; 12]> {
    let grant = copied(lent.block).try_into().ok()?;
    gordzila::decipher(&copied(lent.key), lent.rounds, &grant).ok()
}

/// What the archive answers to a check if other plain bytes stand in the grant.
fn answer_with(plain: &[u8; 12], lent: &Lent) -> u64 {
    let grant = gordzila::encipher(&copied(lent.key), lent.rounds, plain);
    let mut grant = grant.expect("what was deciphered can be enciphered");
    let mut lent = *lent;
    lent.block.start = grant.as_mut_ptr();
    archive(Call::Check, &lent)
}

/// What a library answers to a check that has another rule on rights. Where the check comes as far
/// as reason 10, `refuses` says of the right in the grant and the one asked for whether 10 is given,
/// and `answered` which right is answered if the grant opens.
fn by_other_rule(
    lent: &Lent,
    refuses: &dyn Fn(u32, u32) -> bool,
    answered: &dyn Fn(u32, u32) -> u32,
) -> u64 {
    let answer = archive(Call::Check, lent);
    let mut plain = match deciphered(lent) {
        Some(plain) if matches!(answer, 10 | 20 | 23 | 25 | 1000..) => plain,
        _ => return answer,
    };
    let (in_grant, asked) = (u32::from(plain[8]), lent.right);
    if refuses(in_grant, asked) {
        return 10;
    }
    // A grant with the right asked for shows what comes after 10.
    plain[8] = asked as u8;
    match answer_with(&plain, lent) {
        opens @ 1000.. => 1000 * u64::from(answered(in_grant, asked)) + opens % 1000,
        refusal => refusal,
    }
}

/// The 16 rules on which two rights are refused with 10. From the lowest bit on: a reading grant
/// asked for reading, and for overwriting; an overwriting grant asked for reading, and for
/// overwriting. The second bit alone is the library's rule. Of the others, which are all found, 0000
/// lets a reading grant overwrite, 0110 also refuses an overwriting grant for reading, and 0100 has
/// it the wrong way round.
#[test]
fn every_other_rule_on_rights_is_found() {
    for rule in 0..16_u32 {
        let refuses = |in_grant, asked| rule >> (2 * (in_grant - 1) + asked - 1) & 1 == 1;
        let library = |lent: &Lent| by_other_rule(lent, &refuses, &|_, asked| asked);
        match rule {
            0b0010 => assert_eq!(found(Call::Check, &|_, lent: &Lent| library(lent)), 0),
            _ => always_found(Call::Check, |lent| {
                let answer = library(lent);
                (answer, answer != archive(Call::Check, lent))
            }),
        }
    }
}

#[test]
fn an_answer_with_another_right_is_found() {
    // The grant's, the one that is not asked for, and always the same.
    let rules: [fn(u32, u32) -> u32; 4] = [
        |in_grant, _| in_grant,
        |_, asked| 3 - asked,
        |_, _| 1,
        |_, _| 2,
    ];
    for answered in rules {
        always_found(Call::Check, |lent| {
            let refuses = |in_grant, asked| in_grant == 1 && asked == 2;
            let answer = by_other_rule(lent, &refuses, &answered);
            (answer, answer != archive(Call::Check, lent))
        });
    }
}

/// Tries a library that gives 10 in another place: what is made of the answer and of the one that it
/// would be with the right asked for in the grant.
fn ten_elsewhere_is_found(place: impl Fn(u64, u64, u8) -> u64 + Sync) {
    always_found(Call::Check, |lent| {
        let answer = archive(Call::Check, lent);
        let elsewhere = match deciphered(lent) {
            Some(mut plain) if lent.right == 2 && ![3, 7].contains(&answer) => {
                let in_grant = std::mem::replace(&mut plain[8], 2);
                place(answer, answer_with(&plain, lent), in_grant)
            }
            _ => answer,
        };
        (elsewhere, elsewhere != answer)
    });
}

#[test]
fn ten_in_another_place_is_found() {
    // After 20, after 23, after 25, and before 9.
    ten_elsewhere_is_found(|answer, after, _| match (answer, after) {
        (10, 20) => 20,
        _ => answer,
    });
    ten_elsewhere_is_found(|answer, after, _| match (answer, after) {
        (10, 23) => 23,
        _ => answer,
    });
    ten_elsewhere_is_found(|answer, after, _| match (answer, after) {
        (10, 25) => 25,
        _ => answer,
    });
    ten_elsewhere_is_found(|answer, _, in_grant| match (answer, in_grant) {
        (9, 1) => 10,
        _ => answer,
    });
    // Before 8, for a byte that is no right in a grant that is whole otherwise.
    ten_elsewhere_is_found(|answer, after, in_grant| match (answer, after, in_grant) {
        (8, 9.., 0) => 10,
        _ => answer,
    });
    ten_elsewhere_is_found(|answer, after, in_grant| match (answer, after, in_grant) {
        (8, 9.., 3..) => 10,
        _ => answer,
    });
}

/// A byte that is no right is refused with 8, and not taken for a right.
#[test]
fn a_byte_taken_for_a_right_is_found() {
    for taken in [1, 2] {
        always_found(Call::Check, |lent| {
            let answer = archive(Call::Check, lent);
            let other = match deciphered(lent) {
                Some(mut plain) if answer == 8 && ![1, 2].contains(&plain[8]) => {
                    plain[8] = taken;
                    answer_with(&plain, lent)
                }
                _ => answer,
            };
            (other, other != answer)
        });
    }
}

#[test]
fn a_wrong_expectation_is_found() {
    let mut random = Random::new(SEED, 1);
    let mut tried = 0;
    for (case, expected) in cases() {
        // The second of the reasons that hold, as if their order were another.
        if let Some(&second) = expected.reasons.get(1) {
            let mut effect = refused(case, second);
            effect.scratch.truncate(case.scratch);
            assert!(differs(case, &effect, &archive, &mut random), "{case}");
            tried += 1;
        }
        if !expected.effect.written.is_empty() {
            let mut effect = expected.effect.clone();
            effect.written[0] ^= 0x80;
            assert!(differs(case, &effect, &archive, &mut random), "{case}");
            tried += 1;
        }
        if Call::ON_ROLL.contains(&case.call) && !case.roll.is_empty() {
            let mut effect = expected.effect.clone();
            *effect.roll.last_mut().expect("it is not empty") ^= 0x80;
            assert!(differs(case, &effect, &archive, &mut random), "{case}");
            tried += 1;
        }
        if !expected.effect.holder.is_empty() {
            let mut effect = expected.effect.clone();
            effect.holder[0] ^= 0x80;
            assert!(differs(case, &effect, &archive, &mut random), "{case}");
            tried += 1;
        }
        if !expected.effect.scratch.is_empty() {
            let mut effect = expected.effect.clone();
            effect.scratch[575] ^= 0x80;
            assert!(differs(case, &effect, &archive, &mut random), "{case}");
            effect.scratch.clear();
            assert!(differs(case, &effect, &archive, &mut random), "{case}");
            tried += 1;
        }
    }
    assert!(tried > 1000);
}
