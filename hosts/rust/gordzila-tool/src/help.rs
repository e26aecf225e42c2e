//! What `help` and `--help` print.

use crate::commands;
use crate::failure::{Answer, Failure};
use std::ffi::OsString;

/// The subcommands.
pub const NAMES: [&str; 13] = [
    "issue", "check", "queue", "seal", "open", "encipher", "decipher", "stage", "walk", "enter",
    "right", "withdraw", "roll",
];

/// The help that the words after `help` ask for.
pub fn wanted(words: &[OsString]) -> Answer {
    match words {
        [] => Ok(TOOL.to_string()),
        [name] => commands::known(name).map(of),
        _ => Err(Failure::usage("help takes one subcommand")),
    }
}

/// The help of a subcommand.
pub fn of(name: &str) -> String {
    let text = match name {
        "issue" => ISSUE,
        "check" => CHECK,
        "queue" => QUEUE,
        "seal" => SEAL,
        "open" => OPEN,
        "encipher" => ENCIPHER,
        "decipher" => DECIPHER,
        "stage" => STAGE,
        "walk" => WALK,
        "enter" => ENTER,
        "right" => RIGHT,
        "withdraw" => WITHDRAW,
        _ => ROLL,
    };
    text.to_string()
}

const TOOL: &str = "\
Asks the proved access-control library of the pattern store.

usage: gordzila SUBCOMMAND OPTIONS

  issue      issue a grant
  check      check a grant
  queue      check up to 64 grants for one size block
  seal       seal up to 492 bytes of a size block in a page
  open       open a page
  encipher   encipher one block
  decipher   decipher one block
  stage      show a stage of a key and its subkey
  walk       walk a key holder from one stage to another
  enter      enter a contractor on a roll, with a highest right
  right      change the highest right of a contractor on a roll
  withdraw   withdraw a contractor on a roll
  roll       make an empty roll, list who is in standing, or convert an old roll

  gordzila help SUBCOMMAND   the options of a subcommand
  gordzila --version         the version of the tool

Options stand in any order, each with its value as the next word. Keys, blocks
and grants are hexadecimal digits with nothing between them; size blocks go by
number, and numbers are decimal. Pages and their payloads are files of bytes.
A key on the command line is seen by others on the machine: use --key-file, and
for pages --first-key-file and --second-key-file.

exit status: 0 done, or the grant or the page opens; 1 refused, with the number
and the reason on standard error; 2 bad usage, or a file, standard input or
standard output that cannot be used. With `queue`, 0 says that each grant has
its verdict, not that one opens.
";

const ISSUE: &str = "\
Issues a grant and prints its 12 bytes. A grant for overwriting also opens its
size block for reading. Overwriting is refused with 25 where the roll lets the
contractor only read, and size block 0, as a blank form sends it, with 14.

usage: gordzila issue OPTIONS

  --key HEX         the maker's key, 12, 18 or 24 bytes
  --key-file FILE   the same, from a file of hexadecimal digits
  --rounds N        10 to 11, 14 to 17 or 18 to 23, by the key's length
  --roll FILE       the roll, 600 bytes
  --contractor N    1 to 200, in standing
  --block N         the number of the size block, not 0
  --right R         reading or overwriting, or 1 or 2
";

const CHECK: &str = "\
Checks a grant; if it opens, prints its contractor and the right asked for. A
grant for overwriting also opens its size block for reading; one for reading
does not open it for overwriting. Where the roll lets the contractor only read,
a grant for overwriting opens for reading, and overwriting is refused with 25.
Size block 0, as a blank form sends it, is refused with 14, which says nothing
of the grant. Grants that were issued for 0, before version 0.7, open nothing.

usage: gordzila check OPTIONS

  --key HEX         the maker's key, 12, 18 or 24 bytes
  --key-file FILE   the same, from a file of hexadecimal digits
  --rounds N        10 to 11, 14 to 17 or 18 to 23, by the key's length
  --roll FILE       the roll, 600 bytes
  --grant HEX       the grant, 12 bytes
  --block N         the number of the size block asked for, not 0
  --right R         the right asked for: reading or overwriting, or 1 or 2
";

const QUEUE: &str = "\
Checks 0 to 64 grants for one size block and one right, and prints a line with
a verdict for each, in their order: `1: opens`, or `2: refused with 20:
contractor not in standing`. The verdicts are those of `check`. A grant for
overwriting also opens its size block for reading. Where the roll lets its
contractor only read, it opens for reading, and overwriting is refused with 25.

usage: gordzila queue OPTIONS

  --key HEX         the maker's key, 12, 18 or 24 bytes
  --key-file FILE   the same, from a file of hexadecimal digits
  --rounds N        10 to 11, 14 to 17 or 18 to 23, by the key's length
  --roll FILE       the roll, 600 bytes
  --grants FILE     the grants, one a line in hexadecimal digits, as `issue`
                    prints them; - stands for standard input
  --block N         the number of the size block asked for, not 0
  --right R         the right asked for: reading or overwriting, or 1 or 2

Blank lines are left out and get no number. Without grants nothing is printed.
Exit status 0 says that each grant has its verdict, and not that one opens:
read the lines. Where the whole queue is refused, as more than 64 grants are
with 3 and size block 0 is with 14, the status is 1 and there is no verdict. A
line that is not the 12 bytes of a grant, or a text of more than 65,536 bytes,
cannot be used: status 2.
";

const SEAL: &str = "\
Seals a page of 512 bytes: enciphers a payload of 0 to 492 bytes under the
first key, and makes the check under the second. Prints the numbers of the size
block and the page, and how many bytes the payload has. These three stand in
the page for all to read.

usage: gordzila seal OPTIONS

  --first-key HEX          a key for pages, 12, 18 or 24 bytes
  --first-key-file FILE    the same, from a file of hexadecimal digits
  --second-key HEX         another key for pages, of the same length
  --second-key-file FILE   the same, from a file of hexadecimal digits
  --rounds N               10 to 11, 14 to 17 or 18 to 23, by the keys' length
  --block N                the number of the size block, not 0
  --page-number N          the number of the page, 0 to 65535
  --payload FILE           the payload, as bytes; - stands for standard input
  --page FILE              the page, which is written

The page is a new file: one that exists is not replaced. Where it is refused, as
more than 492 bytes are with 12 and size block 0 is with 14, no file is made,
nor is one with status 2 unless the message says that the change is made.
";

const OPEN: &str = "\
Opens a page and writes its payload, without the unused bytes. Prints the
numbers of the size block and the page that it was sealed with, and how many
bytes the payload has.

usage: gordzila open OPTIONS

  --first-key HEX          the first key that the page was sealed with
  --first-key-file FILE    the same, from a file of hexadecimal digits
  --second-key HEX         the second key
  --second-key-file FILE   the same, from a file of hexadecimal digits
  --rounds N               10 to 11, 14 to 17 or 18 to 23, by the keys' length
  --page FILE              the page, as bytes; - stands for standard input
  --payload FILE           the payload, which is written

A page is not bound to its place: see that the numbers are those that you
wanted. An older page with the same numbers opens too. So does one that was
sealed for size block 0, before version 0.7; no new one is. To keep what it
holds up to date, seal that for another size block.
The payload is a new file, which its owner alone may open: one that exists is
not replaced. Where the page is refused, no file is made, nor is one with
status 2 unless the message says that the change is made.
";

const ENCIPHER: &str = "\
Enciphers one block and prints its 12 bytes.

usage: gordzila encipher OPTIONS

  --key HEX         the key, 12, 18 or 24 bytes
  --key-file FILE   the same, from a file of hexadecimal digits
  --rounds N        10 to 11, 14 to 17 or 18 to 23, by the key's length
  --block HEX       the block, 12 bytes
";

const DECIPHER: &str = "\
Deciphers one block and prints its 12 bytes.

usage: gordzila decipher OPTIONS

  --key HEX         the key, 12, 18 or 24 bytes
  --key-file FILE   the same, from a file of hexadecimal digits
  --rounds N        10 to 11, 14 to 17 or 18 to 23, by the key's length
  --block HEX       the block, 12 bytes
";

const STAGE: &str = "\
Shows a stage of a key, 24 bytes with zeros past the key's length, and the
stage's subkey, 12 bytes.

usage: gordzila stage OPTIONS

  --key HEX         the key, 12, 18 or 24 bytes
  --key-file FILE   the same, from a file of hexadecimal digits
  --stage N         the number of the stage, below the key's length in bytes
";

const WALK: &str = "\
Walks a key holder from one stage to another, the shorter way; forward where
both are as long. Prints how many steps it went and which way, then the stage
it came to, 24 bytes with zeros past the key's length, and the stage's subkey,
12 bytes.

usage: gordzila walk OPTIONS

  --key HEX         the key, 12, 18 or 24 bytes
  --key-file FILE   the same, from a file of hexadecimal digits
  --from N          the stage it goes from, below the key's length in bytes
  --to N            the stage it goes to, likewise

Forward it goes from the last stage to stage 0, and back from stage 0 to the
last.
";

const ENTER: &str = "\
Enters a contractor on the roll in a file, with the highest right that they
have from then on. Prints the contractor, the count and the right.

usage: gordzila enter OPTIONS

  --roll FILE       the roll, 600 bytes; it is replaced as a whole
  --contractor N    1 to 200, not in standing
  --right R         the highest right: reading or overwriting, or 1 or 2

With reading, the contractor gets no grant for overwriting. `gordzila right`
changes it later.
While it works there is a file FILE.lock, and no other change of the roll
starts. A process that was killed may leave it; remove it if you are sure that
no change is under way.
A file with a second name (hard link) is not changed. With status 2 the roll is
as it was, unless the message says that the change is made.
";

const RIGHT: &str = "\
Changes the highest right of a contractor on the roll in a file: to reading,
which demotes, or to overwriting, which raises. Prints the contractor, the count
and the right. The right that they have already is taken too.

usage: gordzila right OPTIONS

  --roll FILE       the roll, 600 bytes; it is replaced as a whole
  --contractor N    1 to 200, in standing
  --right R         the highest right: reading or overwriting, or 1 or 2

Who is demoted stays in standing. Their grants open for reading, those for
overwriting too; overwriting is refused with 25.
A demotion ends no grant: once the contractor is raised, grants for overwriting
from before overwrite again. To end them, withdraw the contractor and enter
them again.
While it works there is a file FILE.lock, and no other change of the roll
starts. A process that was killed may leave it; remove it if you are sure that
no change is under way.
A file with a second name (hard link) is not changed. With status 2 the roll is
as it was, unless the message says that the change is made.
";

const WITHDRAW: &str = "\
Withdraws a contractor on the roll in a file. No grant that was issued to them
before opens on it any more, and their highest right becomes reading.

usage: gordzila withdraw OPTIONS

  --roll FILE       the roll, 600 bytes; it is replaced as a whole
  --contractor N    1 to 200, in standing

While it works there is a file FILE.lock, and no other change of the roll
starts. A process that was killed may leave it; remove it if you are sure that
no change is under way.
A file with a second name (hard link) is not changed. With status 2 the roll is
as it was, unless the message says that the change is made.
";

const ROLL: &str = "\
Makes a roll on which nobody was ever entered; lists those in standing, with
their counts and highest rights; or converts a roll from before version 0.6.

usage: gordzila roll make --roll FILE
       gordzila roll list --roll FILE
       gordzila roll convert --roll FILE --right R

  --roll FILE       the roll, 600 bytes; 400 bytes before it is converted
  --right R         the highest right that all in standing get: reading or
                    overwriting, or 1 or 2

`make` does not replace a file: on a roll that starts anew, revoked grants may
open again.
`convert` replaces a file of 400 bytes by one of 600, as a whole. The counts
stay, and who is not in standing gets reading. With overwriting, each grant
opens for what it opened for. With reading, none overwrites until `gordzila
right` raises its contractor.
Hosts from before version 0.6 refuse the converted file with 3. To go back, cut
it to its first 400 bytes; then all who were demoted overwrite again.
While `make` or `convert` works there is a file FILE.lock, and no other change
of the roll starts. A process that was killed may leave it; remove it if you are
sure that no change is under way.
A file with a second name (hard link) is not converted. With status 2 the roll
is as it was, unless the message says that the change is made.
";
