//! The calls of the C interface, and what the header says of each: what it is given, and the order
//! of its reasons for refusing.

use crate::order::{self, LATE_11};

/// A call.
#[derive(Clone, Copy, Debug, PartialEq, Eq, PartialOrd, Ord, Hash)]
pub enum Call {
    Encipher,
    Decipher,
    PrepareEnciphering,
    PrepareDeciphering,
    Run,
    Issue,
    Check,
    CheckQueue,
    EmptyRoll,
    Enter,
    ChangeRight,
    Withdraw,
    Stage,
    Subkey,
    HolderMake,
    HolderForward,
    HolderBack,
    HolderWalk,
    HolderSubkey,
    SealPage,
    OpenPage,
}

/// What a call can be given.
#[derive(Clone, Copy, Debug, PartialEq, Eq)]
pub enum Argument {
    /// The key, and the first of the two keys for a page.
    Key,
    SecondKey,
    Rounds,
    Stage,
    Roll,
    Holder,
    List,
    Block,
    Grant,
    Grants,
    Contractor,
    SizeBlock,
    Right,
    PageNumber,
    Payload,
    Page,
    Scratch,
    Out,
}

use Argument as A;

/// What the sealing of a page is given.
const SEALING: [Argument; 8] = [
    A::Key,
    A::SecondKey,
    A::Rounds,
    A::SizeBlock,
    A::PageNumber,
    A::Payload,
    A::Scratch,
    A::Out,
];

impl Call {
    /// All calls.
    pub const ALL: [Call; 21] = [
        Call::Encipher,
        Call::Decipher,
        Call::PrepareEnciphering,
        Call::PrepareDeciphering,
        Call::Run,
        Call::Issue,
        Call::Check,
        Call::CheckQueue,
        Call::EmptyRoll,
        Call::Enter,
        Call::ChangeRight,
        Call::Withdraw,
        Call::Stage,
        Call::Subkey,
        Call::HolderMake,
        Call::HolderForward,
        Call::HolderBack,
        Call::HolderWalk,
        Call::HolderSubkey,
        Call::SealPage,
        Call::OpenPage,
    ];

    /// The calls on pages. They take two keys and a scratch.
    pub const ON_PAGES: [Call; 2] = [Call::SealPage, Call::OpenPage];

    /// The calls that write to a lent roll.
    pub const ON_ROLL: [Call; 3] = [Call::Enter, Call::ChangeRight, Call::Withdraw];

    /// The place among all calls.
    pub fn place(self) -> usize {
        let found = Call::ALL.iter().position(|&other| other == self);
        found.expect("every call is among all calls")
    }

    /// The name, without the prefix that all have.
    pub fn name(self) -> &'static str {
        match self {
            Call::Encipher => "encipher",
            Call::Decipher => "decipher",
            Call::PrepareEnciphering => "prepare_enciphering",
            Call::PrepareDeciphering => "prepare_deciphering",
            Call::Run => "run",
            Call::Issue => "issue",
            Call::Check => "check",
            Call::CheckQueue => "check_queue",
            Call::EmptyRoll => "empty_roll",
            Call::Enter => "enter",
            Call::ChangeRight => "change_right",
            Call::Withdraw => "withdraw",
            Call::Stage => "stage",
            Call::Subkey => "subkey",
            Call::HolderMake => "holder_make",
            Call::HolderForward => "holder_forward",
            Call::HolderBack => "holder_back",
            Call::HolderWalk => "holder_walk",
            Call::HolderSubkey => "holder_subkey",
            Call::SealPage => "seal_page",
            Call::OpenPage => "open_page",
        }
    }

    /// What the call is given.
    pub fn arguments(self) -> &'static [Argument] {
        match self {
            Call::Encipher | Call::Decipher => &[A::Key, A::Rounds, A::Block, A::Out],
            Call::PrepareEnciphering | Call::PrepareDeciphering => &[A::Key, A::Rounds, A::Out],
            Call::Run => &[A::List, A::Block, A::Out],
            Call::Issue => &[
                A::Key,
                A::Rounds,
                A::Roll,
                A::Contractor,
                A::SizeBlock,
                A::Right,
                A::Out,
            ],
            Call::Check => &[A::Key, A::Rounds, A::Roll, A::Grant, A::SizeBlock, A::Right],
            Call::CheckQueue => &[
                A::Key,
                A::Rounds,
                A::Roll,
                A::Grants,
                A::SizeBlock,
                A::Right,
                A::Out,
            ],
            Call::EmptyRoll => &[A::Out],
            Call::Enter | Call::ChangeRight => &[A::Roll, A::Contractor, A::Right],
            Call::Withdraw => &[A::Roll, A::Contractor],
            Call::Stage | Call::Subkey => &[A::Key, A::Stage, A::Out],
            Call::HolderMake => &[A::Key, A::Out],
            Call::HolderForward | Call::HolderBack => &[A::Holder],
            Call::HolderWalk => &[A::Holder, A::Stage],
            Call::HolderSubkey => &[A::Holder, A::Out],
            Call::SealPage => &SEALING,
            Call::OpenPage => &[A::Key, A::SecondKey, A::Rounds, A::Page, A::Scratch, A::Out],
        }
    }

    /// The reasons for which the call refuses, in their order.
    pub fn reasons(self) -> &'static [u32] {
        order::of(self)
    }

    /// The reasons that can hold together, the one that is given first.
    pub fn pairs(self) -> Vec<(u32, u32)> {
        let reasons = self.reasons().iter().enumerate();
        let all = reasons.flat_map(|(place, &first)| {
            let later = self.reasons()[place + 1..].iter();
            later.map(move |&other| (first, other))
        });
        all.filter(|&(one, other)| !self.silences(one, other) && !self.silences(other, one))
            .collect()
    }

    /// Whether a reason has no meaning where another holds: without a right key length no round
    /// count and no stage is wrong, nothing is deciphered that is not whole, and without a roll and
    /// a contractor nobody is in standing or has a highest right. And nobody in standing has a count
    /// that is spent, and who asks for no right does not ask for overwriting. Two keys for a page can
    /// be wrong for being equal, and everything else is then wrong or not as it is with other keys.
    /// 14 looks at the size block that is asked for alone, so that it can hold with every other reason.
    fn silences(self, holding: u32, other: u32) -> bool {
        let silent: &[u32] = match (self, holding) {
            (Call::Check, 1) => &[2, 8, 9, 10, 20, 23, 25],
            (Call::Check, 2 | 3) => &[8, 9, 10, 20, 23, 25],
            (Call::Check, 7) => &[10, 25],
            (Call::Check, 8) => &[9, 10, 20, 23, 25],
            (Call::OpenPage, 2) => &[13, LATE_11],
            (Call::SealPage | Call::OpenPage, _) => &[],
            (_, 1) => &[2, 5],
            (_, 3 | 6) => &[20, 21, 22, 25],
            (_, 7) => &[25],
            (_, 21) => &[22],
            _ => &[],
        };
        silent.contains(&other)
    }
}
