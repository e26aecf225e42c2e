//! The subcommands. Each reads its options, makes its calls and says what to print.

use crate::failure::{Answer, Failure};
use crate::options::{
    Options, BLOCK, CONTRACTOR, FIRST_KEY, FIRST_KEY_FILE, FROM, GRANT, GRANTS, KEY, KEY_FILE,
    PAGE, PAGE_NUMBER, PAYLOAD, RIGHT, ROLL, ROUNDS, SECOND_KEY, SECOND_KEY_FILE, STAGE, TO,
};
use crate::printing::Done::{self, Changed, Told};
use crate::{help, hex, pages, rolls};
use gordzila::{
    raw, KeyHolder, PageKeys, Reason, Right, Roll, Walked, BLOCK_BYTES, CONTRACTORS, PAGE_BYTES,
    ROLL_BYTES, SCRATCH_BYTES,
};
use std::ffi::{OsStr, OsString};

/// A call that writes 12 bytes under a key, for a block of 12 bytes.
type CipherCall = fn(&[u8], u32, &[u8], &mut [u8]) -> Result<(), Reason>;

/// A call that gives a contractor on a roll a highest right.
type RightCall = fn(&mut [u8], u32, u32) -> Result<(), Reason>;

/// Runs the subcommand that a word names, on the words after it.
pub fn run(name: &OsStr, words: &[OsString]) -> Result<Done, Failure> {
    let name = known(name)?;
    if asks_for_help(words) {
        return Ok(Told(help::of(name)));
    }
    match name {
        "issue" => issue(words).map(Told),
        "check" => check(words).map(Told),
        "queue" => queue(words).map(Told),
        "seal" => seal(words).map(Changed),
        "open" => open(words).map(Changed),
        "encipher" => cipher(words, raw::encipher).map(Told),
        "decipher" => cipher(words, raw::decipher).map(Told),
        "stage" => stage(words).map(Told),
        "walk" => walk(words).map(Told),
        "enter" => give_right(words, "entered", raw::enter).map(Changed),
        "right" => give_right(words, "changed", raw::change_right).map(Changed),
        "withdraw" => withdraw(words).map(Changed),
        _ => roll(words),
    }
}

/// The subcommand that a word names.
pub fn known(name: &OsStr) -> Result<&'static str, Failure> {
    help::NAMES
        .into_iter()
        .find(|known| name == OsStr::new(known))
        .ok_or_else(|| Failure::usage(format!("`{}` is no subcommand", name.to_string_lossy())))
}

/// No option takes a value that starts with `--`, so that `--help` is never one.
fn asks_for_help(words: &[OsString]) -> bool {
    words.iter().any(|word| word == "--help") || words.first().map_or(false, |word| word == "help")
}

fn issue(words: &[OsString]) -> Answer {
    let allowed = [KEY, KEY_FILE, ROUNDS, ROLL, CONTRACTOR, BLOCK, RIGHT];
    let options = Options::parse(words, &allowed)?;
    let mut grant = [0; BLOCK_BYTES];
    raw::issue(
        &options.key()?,
        options.number(ROUNDS)?,
        options.roll()?.bytes(),
        options.number(CONTRACTOR)?,
        options.number(BLOCK)?,
        options.right()?,
        &mut grant,
    )?;
    Ok(line_of(&grant))
}

fn check(words: &[OsString]) -> Answer {
    let allowed = [KEY, KEY_FILE, ROUNDS, ROLL, GRANT, BLOCK, RIGHT];
    let options = Options::parse(words, &allowed)?;
    let opened = raw::check(
        &options.key()?,
        options.number(ROUNDS)?,
        options.roll()?.bytes(),
        &options.bytes(GRANT)?,
        options.number(BLOCK)?,
        options.right()?,
    )?;
    let (contractor, right) = (opened.contractor, opened.right);
    Ok(format!("opens: contractor {contractor}, {right}\n"))
}

/// The words are read before the grants, which may come from someone who types them.
fn queue(words: &[OsString]) -> Answer {
    let allowed = [KEY, KEY_FILE, ROUNDS, ROLL, GRANTS, BLOCK, RIGHT];
    let options = Options::parse(words, &allowed)?;
    let (key, rounds) = (options.key()?, options.number(ROUNDS)?);
    let (block, right) = (options.number(BLOCK)?, options.right()?);
    let (roll, grants) = (options.roll()?, options.grants()?);
    // A byte that the library did not write would open nothing.
    let mut answers = vec![u8::MAX; grants.len() / BLOCK_BYTES];
    raw::check_queue(
        &key,
        rounds,
        roll.bytes(),
        &grants,
        block,
        right,
        &mut answers,
    )?;
    let lines = (1..).zip(answers).map(|(n, byte)| verdict_on(n, byte));
    Ok(lines.collect())
}

/// The words are read before the payload, which may come from another program. Size block 0
/// goes on to the library, as every number does, so that it refuses it in its order.
fn seal(words: &[OsString]) -> Answer {
    let keys = [FIRST_KEY, FIRST_KEY_FILE, SECOND_KEY, SECOND_KEY_FILE];
    let others = [ROUNDS, BLOCK, PAGE_NUMBER, PAYLOAD, PAGE];
    let options = Options::parse(words, &[&keys[..], &others].concat())?;
    let [first, second] = &options.page_keys()?;
    let (rounds, block) = (options.number(ROUNDS)?, options.number(BLOCK)?);
    let (number, target) = (options.page_number()?, options.new_file(PAGE)?);
    let payload = options.payload()?;
    let keys = PageKeys { first, second };
    let (scratch, mut page) = (&mut [0; SCRATCH_BYTES], [0; PAGE_BYTES]);
    raw::seal_page(keys, rounds, block, number, &payload, scratch, &mut page)?;
    pages::write_page(target, &page)?;
    Ok(format!("sealed: {}", line_on_page(block, number, &payload)))
}

/// The words are read before the page. Which page it is, it says itself: whether it is the
/// one that was wanted, the reader of the line sees.
fn open(words: &[OsString]) -> Answer {
    let keys = [FIRST_KEY, FIRST_KEY_FILE, SECOND_KEY, SECOND_KEY_FILE];
    let options = Options::parse(words, &[&keys[..], &[ROUNDS, PAGE, PAYLOAD]].concat())?;
    let [first, second] = &options.page_keys()?;
    let (rounds, target) = (options.number(ROUNDS)?, options.new_file(PAYLOAD)?);
    let page = options.page()?;
    let opened = gordzila::open_page(PageKeys { first, second }, rounds, &page)?;
    pages::write_payload(target, &opened.payload)?;
    let (block, number) = (opened.size_block, opened.page_number);
    Ok(format!(
        "opened: {}",
        line_on_page(block, number, &opened.payload)
    ))
}

fn cipher(words: &[OsString], call: CipherCall) -> Answer {
    let options = Options::parse(words, &[KEY, KEY_FILE, ROUNDS, BLOCK])?;
    let mut block = [0; BLOCK_BYTES];
    call(
        &options.key()?,
        options.number(ROUNDS)?,
        &options.bytes(BLOCK)?,
        &mut block,
    )?;
    Ok(line_of(&block))
}

fn stage(words: &[OsString]) -> Answer {
    let options = Options::parse(words, &[KEY, KEY_FILE, STAGE])?;
    let (key, n) = (options.key()?, options.number(STAGE)?);
    let (stage, subkey) = (gordzila::stage(&key, n)?, gordzila::subkey(&key, n)?);
    Ok(lines_of(n, &stage, &subkey))
}

fn walk(words: &[OsString]) -> Answer {
    let options = Options::parse(words, &[KEY, KEY_FILE, FROM, TO])?;
    let (key, from, to) = (options.key()?, options.number(FROM)?, options.number(TO)?);
    let mut holder = KeyHolder::new(&key)?;
    holder.walk(from)?;
    let Walked { steps, way } = holder.walk(to)?;
    let lines = lines_of(holder.stage_number(), holder.stage(), &holder.subkey());
    Ok(format!("steps: {steps} {way}\n{lines}"))
}

fn give_right(words: &[OsString], done: &str, call: RightCall) -> Answer {
    let options = Options::parse(words, &[ROLL, CONTRACTOR, RIGHT])?;
    let (contractor, right) = (options.number(CONTRACTOR)?, options.right()?);
    let roll = rolls::change(options.roll_path()?, |roll| call(roll, contractor, right))?;
    Ok(format!("{done}: {}", line_on(&roll, contractor)))
}

/// What the highest right is after a withdrawal is not printed: it lets nobody in.
fn withdraw(words: &[OsString]) -> Answer {
    let options = Options::parse(words, &[ROLL, CONTRACTOR])?;
    let contractor = options.number(CONTRACTOR)?;
    let roll = rolls::change(options.roll_path()?, |roll| raw::withdraw(roll, contractor))?;
    let count = roll.count(contractor).unwrap_or_default();
    Ok(format!(
        "withdrawn: contractor {contractor}, count {count}\n"
    ))
}

fn roll(words: &[OsString]) -> Result<Done, Failure> {
    let (verb, rest) = words
        .split_first()
        .ok_or_else(|| Failure::usage("roll needs `make`, `list` or `convert`"))?;
    match verb.to_str() {
        Some("make") => make(rest).map(Changed),
        Some("list") => list(rest).map(Told),
        Some("convert") => convert(rest).map(Changed),
        _ => Err(Failure::usage(format!(
            "roll needs `make`, `list` or `convert`, not `{}`",
            verb.to_string_lossy()
        ))),
    }
}

fn make(words: &[OsString]) -> Answer {
    let options = Options::parse(words, &[ROLL])?;
    rolls::make(options.roll_path()?)?;
    Ok("made: a roll on which nobody was ever entered\n".to_string())
}

fn list(words: &[OsString]) -> Answer {
    let roll = Options::parse(words, &[ROLL])?.roll()?;
    let lines: String = in_standing(&roll)
        .map(|contractor| line_on(&roll, contractor))
        .collect();
    if lines.is_empty() {
        return Ok("nobody is in standing\n".to_string());
    }
    Ok(lines)
}

/// No call of the library takes an old roll, so that a number that is no right is refused
/// here, as the calls refuse it.
fn convert(words: &[OsString]) -> Answer {
    let options = Options::parse(words, &[ROLL, RIGHT])?;
    let right = Right::from_number(options.right()?).ok_or(Reason::Right)?;
    let roll = rolls::convert(options.roll_path()?, right)?;
    let number = in_standing(&roll).count();
    Ok(format!(
        "converted: {ROLL_BYTES} bytes, contractors in standing: {number}, highest right: {right}\n"
    ))
}

/// The contractors who are in standing.
fn in_standing(roll: &Roll) -> impl Iterator<Item = u32> + '_ {
    (1..=CONTRACTORS).filter(|&contractor| roll.in_standing(contractor))
}

fn line_of(bytes: &[u8]) -> String {
    hex::digits_of(bytes) + "\n"
}

fn lines_of(n: u32, stage: &[u8], subkey: &[u8]) -> String {
    let (stage, subkey) = (hex::digits_of(stage), hex::digits_of(subkey));
    format!("stage {n}: {stage}\nsubkey {n}: {subkey}\n")
}

/// What a byte of the queue's answers says of a grant. A number that has no words here
/// refuses too.
fn verdict_on(n: usize, byte: u8) -> String {
    match (byte, Reason::from_number(byte.into())) {
        (0, _) => format!("{n}: opens\n"),
        (_, Some(reason)) => format!("{n}: refused with {byte}: {reason}\n"),
        (_, None) => format!("{n}: refused with {byte}\n"),
    }
}

fn line_on_page(block: u32, number: u16, payload: &[u8]) -> String {
    let used = payload.len();
    format!("size block {block}, page {number}, {used} bytes\n")
}

/// What a roll has on a contractor, who has to be one.
fn line_on(roll: &Roll, contractor: u32) -> String {
    let count = roll.count(contractor).unwrap_or_default();
    let right = roll.highest_right(contractor).unwrap_or(Right::Reading);
    format!("contractor {contractor}, count {count}, {right}\n")
}

#[cfg(test)]
mod tests {
    use super::verdict_on;

    #[test]
    fn only_a_byte_of_0_opens() {
        assert_eq!(verdict_on(1, 0), "1: opens\n");
        assert_eq!(
            verdict_on(64, 20),
            "64: refused with 20: contractor not in standing\n"
        );
        assert_eq!(verdict_on(2, 255), "2: refused with 255\n");
        for byte in 1..=u8::MAX {
            let refused = format!("3: refused with {byte}");
            assert!(verdict_on(3, byte).starts_with(&refused), "{byte}");
        }
    }
}
