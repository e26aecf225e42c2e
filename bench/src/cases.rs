//! What is timed: every operation of every implementation, as a batch of calls.

use std::hint::black_box;

use curupira_reference::cipher::{decrypt, decryption_keys, encrypt, encrypt_with};
use curupira_reference::error::Error;
use curupira_reference::generator::Generator;
use curupira_reference::holder::{holder_bytes, walk_to};
use curupira_reference::matrix::{Matrix, State};
use curupira_reference::schedule::round_subkeys;

use crate::interface::{baselines, Interface, LIBRARY};
use crate::others::{self, Other, SealedPage};
use crate::page::{Page, PAGE_BYTES, PAYLOAD_BYTES, SCRATCH_BYTES};
use crate::question::Question;
use crate::walk::{Walk, STAGE_BYTES};

const SEED: u64 = 2007;

/// The bytes of a block of the library.
const BLOCK_BYTES: usize = 12;

/// The calls in one sample.
const CALLS: usize = 256;

/// The same for the independent program, which is slow.
const INDEPENDENT_CALLS: usize = 2;

/// The grants of a queue, as many as there can be, and the calls with it in one sample.
/// Together they are as many checks as in a sample of single ones.
const QUEUE_GRANTS: usize = 64;
const QUEUE_CALLS: usize = CALLS / QUEUE_GRANTS;

/// The calls with a page in one sample. A page is 84 blocks or more.
const PAGE_CALLS: usize = 4;

/// The name of the row that has the library's single checks of the grants of a queue.
pub const SINGLES: &str = "library, 64 single checks";

/// A function that makes as many calls as it is told to.
type Batch = Box<dyn FnMut(usize)>;

#[derive(Clone, Copy, PartialEq, Eq)]
pub enum Operation {
    RunEnciphering,
    Encipher,
    RunDeciphering,
    Decipher,
    Check,
    Queue,
    PrepareEnciphering,
    PrepareDeciphering,
    /// A page with a payload of 492 bytes, and with none.
    SealFull,
    SealEmpty,
    OpenFull,
    OpenEmpty,
    /// A holder walked as far as there is in a direction, and the last stage of a key.
    WalkForward,
    WalkBack,
    StageLast,
}

impl Operation {
    pub const ALL: [Operation; 15] = [
        Operation::RunEnciphering,
        Operation::Encipher,
        Operation::RunDeciphering,
        Operation::Decipher,
        Operation::Check,
        Operation::Queue,
        Operation::PrepareEnciphering,
        Operation::PrepareDeciphering,
        Operation::SealFull,
        Operation::SealEmpty,
        Operation::OpenFull,
        Operation::OpenEmpty,
        Operation::WalkForward,
        Operation::WalkBack,
        Operation::StageLast,
    ];

    /// The operations that are little else than steps of the key schedule.
    pub const ON_STAGES: [Operation; 5] = [
        Operation::WalkForward,
        Operation::WalkBack,
        Operation::StageLast,
        Operation::PrepareEnciphering,
        Operation::PrepareDeciphering,
    ];

    /// The operations on pages.
    pub const ON_PAGES: [Operation; 4] = [
        Operation::SealFull,
        Operation::SealEmpty,
        Operation::OpenFull,
        Operation::OpenEmpty,
    ];

    /// The two lines above its column.
    pub fn heading(self) -> [&'static str; 2] {
        match self {
            Operation::RunEnciphering => ["encipher", "list"],
            Operation::Encipher => ["encipher", "key"],
            Operation::RunDeciphering => ["decipher", "list"],
            Operation::Decipher => ["decipher", "key"],
            Operation::Check => ["check", "key"],
            Operation::Queue => ["queue", "64"],
            Operation::PrepareEnciphering => ["prepare", "encipher"],
            Operation::PrepareDeciphering => ["prepare", "decipher"],
            Operation::SealFull => ["seal", "492"],
            Operation::SealEmpty => ["seal", "0"],
            Operation::OpenFull => ["open", "492"],
            Operation::OpenEmpty => ["open", "0"],
            Operation::WalkForward => ["walk", "forward"],
            Operation::WalkBack => ["walk", "back"],
            Operation::StageLast => ["stage", "last"],
        }
    }

    /// The column.
    pub fn column(self) -> usize {
        let found = Operation::ALL.iter().position(|&one| one == self);
        found.expect("every operation has a column")
    }

    /// The calls in one sample.
    fn calls(self) -> usize {
        match self {
            Operation::Queue => QUEUE_CALLS,
            _ if Operation::ON_PAGES.contains(&self) => PAGE_CALLS,
            _ => CALLS,
        }
    }

    /// The bytes that a call of the library works on.
    fn bytes(self) -> usize {
        match Operation::ON_PAGES.contains(&self) {
            true => PAGE_BYTES,
            false => BLOCK_BYTES,
        }
    }
}

/// A key size and a number of rounds.
#[derive(Clone, Copy)]
pub struct Size {
    pub key_length: usize,
    pub rounds: u32,
}

/// The shortest and the longest work.
pub const SIZES: [Size; 2] = [
    Size {
        key_length: 12,
        rounds: 10,
    },
    Size {
        key_length: 24,
        rounds: 23,
    },
];

/// One implementation of one operation.
pub struct Contender {
    pub name: String,
    /// The bytes that a call works on.
    pub block_bytes: usize,
    /// The calls in one sample.
    pub calls: usize,
    pub batch: Batch,
}

impl Contender {
    /// One that works on as many bytes as the library.
    fn new(name: &str, operation: Operation, batch: Batch) -> Self {
        Contender {
            name: name.to_string(),
            block_bytes: operation.bytes(),
            calls: operation.calls(),
            batch,
        }
    }

    /// The untimed calls before each sample.
    pub fn warm_up(&self) -> usize {
        self.calls / 8 + 1
    }
}

/// What an operation is timed with.
struct Inputs {
    block: Vec<u8>,
    question: Question,
    queue: Question,
    /// A payload that fills a page, and one of no bytes.
    full: Page,
    empty: Page,
}

/// All implementations of an operation, in the order of the table's rows. The
/// library is the first; other ciphers, which have some operations only, are last.
pub fn contenders(operation: Operation, size: Size) -> Vec<Contender> {
    let inputs = draw_inputs(size);
    let c = |name, interface| {
        let batch = c_batch(interface, operation, &inputs);
        Contender::new(name, operation, batch)
    };
    let mut all = vec![c("library", LIBRARY)];
    all.extend(baselines().iter().map(|one| c(one.name, one.interface)));
    let independent = independent_batch(operation, &inputs).expect("the size is allowed");
    all.extend(independent.map(|batch| Contender {
        calls: INDEPENDENT_CALLS,
        ..Contender::new("independent Rust", operation, batch)
    }));
    if operation == Operation::Queue {
        let batch = singles(LIBRARY, inputs.queue);
        all.push(Contender::new(SINGLES, operation, batch));
    }
    let others = others::ciphers(size.key_length);
    all.extend(others.into_iter().filter_map(|one| other(one, operation)));
    all
}

/// The inputs, which are the same for all implementations and in every run.
fn draw_inputs(size: Size) -> Inputs {
    let mut generator = Generator::new(SEED);
    let question = Question::that_opens(&mut generator, size.key_length, size.rounds);
    assert!(LIBRARY.check(&question) >= 1000, "the grant opens");
    let Size { key_length, rounds } = size;
    let queue = Question::queue_that_opens(&mut generator, key_length, rounds, QUEUE_GRANTS);
    let mut answers = [u8::MAX; QUEUE_GRANTS];
    assert_eq!(LIBRARY.check_queue(&queue, &mut answers), 0);
    assert_eq!(answers, [0; QUEUE_GRANTS], "the grants of the queue open");
    Inputs {
        block: generator.bytes(BLOCK_BYTES),
        question,
        queue,
        full: Page::to_seal(&mut generator, key_length, rounds, PAYLOAD_BYTES),
        empty: Page::to_seal(&mut generator, key_length, rounds, 0),
    }
}

fn c_batch(interface: Interface, operation: Operation, inputs: &Inputs) -> Batch {
    let (block, question) = (inputs.block.clone(), inputs.question.clone());
    let (key, rounds) = (question.key.clone(), question.rounds);
    let mut list = vec![0; BLOCK_BYTES * (rounds as usize + 1)];
    match operation {
        Operation::RunEnciphering => {
            interface.prepare_enciphering(&key, rounds, &mut list);
            c_run(interface, list, block)
        }
        Operation::RunDeciphering => {
            interface.prepare_deciphering(&key, rounds, &mut list);
            c_run(interface, list, block)
        }
        Operation::Encipher => chain(block, move |block, out| {
            interface.encipher(black_box(&key), rounds, block, out)
        }),
        Operation::Decipher => chain(block, move |block, out| {
            interface.decipher(black_box(&key), rounds, block, out)
        }),
        Operation::Check => repeat(move || interface.check(black_box(&question))),
        Operation::Queue => c_queue(interface, inputs.queue.clone()),
        Operation::PrepareEnciphering => repeat(move || {
            interface.prepare_enciphering(black_box(&key), rounds, black_box(&mut list))
        }),
        Operation::PrepareDeciphering => repeat(move || {
            interface.prepare_deciphering(black_box(&key), rounds, black_box(&mut list))
        }),
        Operation::SealFull => c_seal(interface, inputs.full.clone()),
        Operation::SealEmpty => c_seal(interface, inputs.empty.clone()),
        Operation::OpenFull => c_open(interface, inputs.full.sealed()),
        Operation::OpenEmpty => c_open(interface, inputs.empty.sealed()),
        Operation::WalkForward => c_walk(interface, Walk::forward(&key)),
        Operation::WalkBack => c_walk(interface, Walk::back(&key)),
        Operation::StageLast => c_stage(interface, key),
    }
}

/// A payload that is sealed.
fn c_seal(interface: Interface, page: Page) -> Batch {
    let (mut scratch, mut out) = ([0; SCRATCH_BYTES], [0; PAGE_BYTES]);
    assert_eq!(interface.seal_page(&page, &mut scratch, &mut out), 0);
    repeat(move || {
        let (scratch, out) = (black_box(&mut scratch), black_box(&mut out));
        interface.seal_page(black_box(&page), scratch, out)
    })
}

/// A page that opens.
fn c_open(interface: Interface, page: Page) -> Batch {
    let (mut scratch, mut out) = ([0; SCRATCH_BYTES], [0; PAYLOAD_BYTES]);
    assert!(interface.open_page(&page, &mut scratch, &mut out) >= 1 << 63);
    repeat(move || {
        let (scratch, out) = (black_box(&mut scratch), black_box(&mut out));
        interface.open_page(black_box(&page), scratch, out)
    })
}

/// A holder that is walked from the same start each time.
fn c_walk(interface: Interface, walk: Walk) -> Batch {
    walk_batch(walk, move |holder, to| interface.holder_walk(holder, to))
}

/// The last stage, straight from the key.
fn c_stage(interface: Interface, key: Vec<u8>) -> Batch {
    let (last, mut out) = (key.len() as u32 - 1, [0; STAGE_BYTES]);
    assert_eq!(interface.stage(&key, last, &mut out), 0);
    repeat(move || interface.stage(black_box(&key), last, black_box(&mut out)))
}

/// The engine over a list, whichever direction it is for.
fn c_run(interface: Interface, list: Vec<u8>, block: Vec<u8>) -> Batch {
    chain(block, move |block, out| {
        interface.run(black_box(&list), block, out)
    })
}

/// A queue, all of it in each call.
fn c_queue(interface: Interface, queue: Question) -> Batch {
    let mut answers = [0; QUEUE_GRANTS];
    repeat(move || interface.check_queue(black_box(&queue), black_box(&mut answers)))
}

/// The grants of a queue checked one by one, all of them for each call of a queue.
fn singles(interface: Interface, queue: Question) -> Batch {
    repeat(move || {
        for grant in black_box(&queue).grants.chunks(BLOCK_BYTES) {
            black_box(interface.check_one(black_box(&queue), grant));
        }
    })
}

/// The independent program. It is not timed on a queue, where it checks the grants one
/// by one, nor on a page, where it does block by block what it does in other columns.
fn independent_batch(operation: Operation, inputs: &Inputs) -> Result<Option<Batch>, Error> {
    let question = inputs.question.clone();
    let block = inputs.block.clone();
    let (key, rounds) = (question.key.clone(), question.rounds as usize);
    Ok(Some(match operation {
        Operation::RunEnciphering => independent_run(round_subkeys(&key, rounds)?, &block)?,
        Operation::RunDeciphering => {
            independent_run(decryption_keys(&round_subkeys(&key, rounds)?)?, &block)?
        }
        Operation::Encipher => chain(block, move |block, out| {
            *out = encrypt(black_box(&key), rounds, block).expect("the size is allowed");
        }),
        Operation::Decipher => chain(block, move |block, out| {
            *out = decrypt(black_box(&key), rounds, block).expect("the size is allowed");
        }),
        Operation::Check => {
            let roll = question.independent_roll().expect("the roll is one");
            repeat(move || black_box(&question).independent_answer(black_box(&roll)))
        }
        Operation::PrepareEnciphering => repeat(move || round_subkeys(black_box(&key), rounds)),
        Operation::PrepareDeciphering => repeat(move || {
            round_subkeys(black_box(&key), rounds).and_then(|subkeys| decryption_keys(&subkeys))
        }),
        Operation::WalkForward => independent_walk(Walk::forward(&key)),
        Operation::WalkBack => independent_walk(Walk::back(&key)),
        Operation::StageLast => repeat(move || holder_bytes(black_box(&key), key.len() - 1)),
        _ => return Ok(None),
    }))
}

/// The independent program's engine over a list.
fn independent_run(subkeys: Vec<State>, block: &[u8]) -> Result<Batch, Error> {
    let state: State = Matrix::from_bytes(block).ok_or(Error::BlockLength(block.len()))?;
    Ok(chain(state, move |state, out| {
        *out = encrypt_with(black_box(&subkeys), state).expect("the list is long enough");
    }))
}

/// The independent program's walk.
fn independent_walk(walk: Walk) -> Batch {
    walk_batch(walk, |holder, to| walk_to(to as usize, holder))
}

/// A cipher of libtomcrypt, if it is timed for this operation.
fn other(other: Other, operation: Operation) -> Option<Contender> {
    let name = format!("{}, {}-byte block", other.name, other.block_bytes);
    let block_bytes = match Operation::ON_PAGES.contains(&operation) {
        true => PAGE_BYTES,
        false => other.block_bytes,
    };
    let batch = other_batch(other, operation)?;
    Some(Contender {
        name,
        block_bytes,
        calls: operation.calls(),
        batch,
    })
}

/// It stands in the columns for prepared lists, and, if it is Khazad or AES, in those for
/// a full page.
fn other_batch(other: Other, operation: Operation) -> Option<Batch> {
    let block = Generator::new(SEED).bytes(other.block_bytes);
    let of_pages = other.name.starts_with("Khazad") || other.name.starts_with("AES");
    let (mut page, mut sealed): ([u8; PAGE_BYTES], SealedPage) = ([7; PAGE_BYTES], [0; 528]);
    assert_eq!(other.seal(&page, &mut sealed), 0);
    match operation {
        Operation::RunEnciphering => Some(chain(block, move |block, out| {
            black_box(&other).encipher(block, out)
        })),
        Operation::RunDeciphering => Some(chain(block, move |block, out| {
            black_box(&other).decipher(block, out)
        })),
        Operation::SealFull if of_pages => Some(repeat(move || {
            black_box(&other).seal(black_box(&page), black_box(&mut sealed))
        })),
        Operation::OpenFull if of_pages => Some(repeat(move || {
            black_box(&other).open(black_box(&sealed), black_box(&mut page))
        })),
        _ => None,
    }
}

/// A batch in which the block that comes out of a call goes into the next one. It is
/// not copied in between.
fn chain<B, A, F>(start: B, mut call: F) -> Batch
where
    B: Clone + 'static,
    F: FnMut(&B, &mut B) -> A + 'static,
{
    let mut block = start.clone();
    let mut out = start;
    Box::new(move |count| {
        for _ in 0..count {
            black_box(call(&block, &mut out));
            std::mem::swap(&mut block, &mut out);
        }
        black_box(&block);
    })
}

/// A batch in which a holder is walked from the same start each time. The copy of the
/// start is timed with the walk, and is the same for all.
fn walk_batch<F>(walk: Walk, mut call: F) -> Batch
where
    F: FnMut(&mut [u8], u32) -> u32 + 'static,
{
    let mut holder = walk.start;
    assert_eq!(call(&mut holder, walk.to), walk.answer);
    repeat(move || {
        holder.copy_from_slice(black_box(&walk.start));
        call(black_box(&mut holder), walk.to)
    })
}

/// A batch in which all calls are the same.
fn repeat<A, F>(mut call: F) -> Batch
where
    F: FnMut() -> A + 'static,
{
    Box::new(move |count| {
        for _ in 0..count {
            black_box(call());
        }
    })
}
