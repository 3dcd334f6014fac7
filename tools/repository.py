"""What the tools know of the repository: where it is, and its crates."""
import os

TOP = os.path.dirname(os.path.dirname(os.path.abspath(__file__)))
# A comment of `crates.txt` that begins with these words is a line like the others: these crates name a library only to be proved behind it.
ORDER = "# order alone: "


def lines_of_crates():
    """Each line of `crates.txt` as names, names of libraries, and whether it is about the order alone."""
    with open(os.path.join(TOP, "crates.txt"), encoding="utf-8") as file:
        for line in file:
            names, colon, below = line.removeprefix(ORDER).split("#")[0].partition(":")
            if colon:
                yield names.split(), below.split(), line.startswith(ORDER)


def read_crates():
    """The crates and the libraries that they use, in the order of the file, without those that they name for the order alone."""
    crates, behind = {}, set()
    for names, below, is_order in lines_of_crates():
        if is_order:
            behind.update((name, other) for name in names for other in below)
        else:
            crates[names[0]] = below
    return {name: [other for other in below if (name, other) not in behind] for name, below in crates.items()}


def order_alone():
    """The crates that are proved behind others which they don't use: each with those."""
    return {name: below for names, below, is_order in lines_of_crates() if is_order for name in names}
