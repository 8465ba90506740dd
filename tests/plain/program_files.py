"""What the two programs read and have to print when they are built.

Document 01: "Program `plan-order` reads an order file on standard input. For C
[..] it prints exactly". Document 02, §3: "`plan-order` is compared with these
numbers." §1: "`try-bound` prints this line after its `tight` line and is compared
with that form from now on."; it reads A at -1. §4: "In document 01's cases the
maker is 1."

    program_files.py --compare  compare what is stored with what is made anew
    program_files.py --write    make it anew and store it
"""

import pathlib
import struct
import sys

import answers
import flow
import join
import known_orders
import least
import order_file

CRATES = pathlib.Path(__file__).resolve().parents[2] / "crates"


def plan_order(order):
    """The lines of plan-order, for an order whose amounts are forced."""
    bound = least.least(order)
    rows = join.plan(order, bound, flow.amounts(order, bound))
    return [f"least {bound}",
            *(" ".join(map(str, ("piece", *row))) for row in rows),
            f"end {len(rows)}"]


def text(lines):
    return "".join(line + "\n" for line in lines).encode()


def files():
    """What each file has to hold, as {its name: bytes}."""
    a, c = known_orders.A, known_orders.C
    return {"plan_order/stdin": order_file.encode(c),
            "plan_order/stdout": text(plan_order(c)),
            "try_bound/stdin": struct.pack("<i", -1) + order_file.encode(a),
            "try_bound/stdout": text(answers.try_bound(a, -1))}


def main(arguments):
    made = files()
    if arguments == ["--write"]:
        for name, data in made.items():
            (CRATES / name).write_bytes(data)
    elif arguments != ["--compare"]:
        sys.exit("program_files.py: --compare or --write")
    differ = [name for name, data in made.items()
              if (CRATES / name).read_bytes() != data]
    for name in differ:
        print(f"{name}: differs from what is made anew")
    if not differ:
        print(f"{len(made)} files, stored and made anew alike")
    return 1 if differ else 0


if __name__ == "__main__":
    sys.exit(main(sys.argv[1:]))
