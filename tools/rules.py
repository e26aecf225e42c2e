"""What the scripts of the stored outputs share: document 01's table and rules, the orders of tools/orders.txt, and how the rows of numbers
on which a test program makes its calls are chosen.

A row has a number for each input of a call. It is made from a row for which no reason holds by changing some of its numbers, so that a
reason holds, or two do, or a number lies at a limit. The test programs read the rows (crates/*/stdin).
"""
import itertools
import pathlib
import sys

# key bytes: least and most rounds
ROUNDS = {12: (10, 11), 18: (14, 17), 24: (18, 23)}

# what the plain bytes of a grant end with
MARK = 0x475244

# size blocks that may be asked for: numbers that are 0, or 300, where they are cut to one byte, two or three; and the ends
BLOCKS = (1, 255, 256, 556, 65536, 65836, 2**24, 2**24 + 300, 2**32 - 1)


def orders():
    """The order of each call by value, from tools/orders.txt."""
    found = {}
    for line in pathlib.Path(__file__).with_name("orders.txt").read_text(encoding="utf-8").splitlines():
        if line and not line.startswith("#"):
            name, by_value, _ = (part.strip() for part in line.split("|"))
            if by_value != "-":
                numbers = [int(number) for number in by_value.split()]
                found[name] = [late(n) if n in numbers[:place] else n for place, n in enumerate(numbers)]
    return found


def late(number):
    """A reason that is tried a second time, after another: 11 after 13."""
    return f"late {number}"


def number_of(reason):
    return int(str(reason).removeprefix("late "))


ORDERS = orders()


def first(call, holds):
    """The number of the first of a call's reasons that holds, or 0; holds says of each of them whether it does."""
    if {*ORDERS[call]} != {*holds}:
        raise ValueError(f"{call} has the reasons {ORDERS[call]} in tools/orders.txt, and {[*holds]} here")
    return next((number_of(reason) for reason in ORDERS[call] if holds[reason]), 0)


def on_roll(contractor):
    return 1 <= contractor <= 200


def wrong_key(key):
    return key not in ROUNDS


def wrong_rounds(key, rounds):
    """Outside the row of the table; for a key that has none, outside every row."""
    rows = [ROUNDS[key]] if key in ROUNDS else ROUNDS.values()
    return not any(least <= rounds <= most for least, most in rows)


def wrong_stage(key, stage):
    """No stage of a key of that length; for a key of a wrong one, of no key at all."""
    return stage >= (key if key in ROUNDS else max(ROUNDS))


def stands(count):
    return count % 2 == 1 and count < 65535


def above_highest(right, figure):
    """Whether a right asked for is above the highest that a stored figure means: every figure but 2 means reading only."""
    return right == 2 and figure != 2


def plain_reasons(now, figure, asked, right, contractor, written, block, granted, mark):
    """What holds of a grant's plain bytes, asked for a size block and a right, where its contractor has the count now and the figure."""
    return {
        8: mark != MARK or not on_roll(contractor) or granted not in (1, 2),
        9: block != asked,
        10: granted == 1 and right == 2,
        20: not stands(now),
        23: written != now,
        25: above_highest(right, figure),
    }


def rows(right, reasons, faults, limits):
    """The right row; a row for each fault, and one for each two that can be made together; and the rows at the limits. No row twice.

    A row is given, and a fault or a limit described, by the inputs' names and numbers; reasons says which reasons hold of a row.
    """
    if set(faults) != set(reasons(**right)) or any(reasons(**right).values()):
        raise ValueError(f"faults for {[*faults]}, and in the right row {reasons(**right)}")
    chosen = [right]
    for reason in sorted(faults, key=number_of):
        chosen.append({**right, **faults[reason]})
        if not reasons(**chosen[-1])[reason]:
            raise ValueError(f"the fault for {reason} does not make it hold")
    for pair in itertools.combinations(sorted(faults, key=number_of), 2):
        # two faults may give one input different numbers; which of the two it gets decides whether both hold
        made = [{**right, **faults[one], **faults[other]} for one, other in (pair, pair[::-1])]
        chosen += [both for both in made if all(reasons(**both)[reason] for reason in pair)][:1]
    return distinct(chosen + [{**right, **limit} for limit in limits])


def distinct(chosen):
    return [dict(row) for row in dict.fromkeys(tuple(row.items()) for row in chosen)]


def at(name, *numbers):
    """Rows in which one input has one of some numbers."""
    return [{name: number} for number in numbers]


def run(calls):
    """Prints what a test program has to print, or with the word `rows` what it has to read: how many rows there are, and the rows, each with
    the place of its call among these before its numbers.

    A call has its rows, and the line that the program prints for one.
    """
    if sys.argv[1:] == ["rows"]:
        print(sum(len(table) for table, _ in calls))
    for place, (table, line) in enumerate(calls, 1):
        for row in table:
            print(*((place, *row.values()) if sys.argv[1:] == ["rows"] else line(**row)))
