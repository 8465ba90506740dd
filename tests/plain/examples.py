"""The examples: each text and its file agree.

Document 01, "Orders to try", and the refusal table's row 12. Document 02, §4: "In
document 01's cases the maker is 1." §7: "From an accepted table and a list of lengths
the jobs' needs are filled in": a text may leave needs to the table of its name.

    examples.py --compare       compare the files with the texts
    examples.py --write         make the files anew from the texts
"""

import pathlib
import sys

import known_needs
import known_orders
import needs_text
import order_file
import order_text

FOLDER = pathlib.Path(__file__).resolve().parents[2] / "examples"
NAMED = {**known_orders.NAMED, "sessions": known_needs.SESSIONS}


def broken_file():
    """C's file with the job list's place one byte too far: 5 in place of 4."""
    data = order_file.encode(known_orders.C)
    return data[:-8] + (5).to_bytes(4, "little") + data[-4:]


def order_of(text):
    """The order of a text, by the table of its name where there is one."""
    table = text.with_suffix(".needs")
    if not table.exists():
        return order_text.parse(text.read_text())
    return needs_text.order(text.read_text(), needs_text.parse(table.read_text()))


def files():
    """What each file has to hold, as {file name: bytes}."""
    made = {f"{text.stem}.bin": order_file.encode(order_of(text))
            for text in sorted(FOLDER.glob("*.order"))}
    made["broken.bin"] = broken_file()
    return made


def wrong():
    """What is wrong with the examples, a line each."""
    made = files()
    for name, data in made.items():
        file = FOLDER / name
        if not file.exists() or file.read_bytes() != data:
            yield f"{name}: does not hold what its text says"
    for kind in ("*.bin", "*.needs"):
        for file in FOLDER.glob(kind):
            if f"{file.stem}.bin" not in made:
                yield f"{file.name}: has no text"
    for name, order in NAMED.items():
        if order_file.read(made.get(f"{name}.bin", b"")) != order:
            yield f"{name}.order: is not the order of this name"
    if order_file.read(made["broken.bin"]) != order_file.REFUSED_12:
        yield "broken.bin: is not refused 12"


def main(arguments):
    if arguments == ["--write"]:
        for name, data in files().items():
            (FOLDER / name).write_bytes(data)
    elif arguments != ["--compare"]:
        sys.exit("examples.py: --compare or --write")
    said = list(wrong())
    for line in said:
        print(line)
    if not said:
        print(f"{len(files())} files agree with their texts")
    return 1 if said else 0


if __name__ == "__main__":
    sys.exit(main(sys.argv[1:]))
