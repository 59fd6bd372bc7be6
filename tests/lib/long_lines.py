"""The longest lines, names and sets, each line with the reply that it must get."""

from lib.full_books import address
from lib.made_rows import name_text


def many_strings():
    """A TXT of 40 strings, and one of as many octets as a line has room for."""
    short = [f"s{place}" for place in range(40)]
    long = [chr(97 + place % 26) * 23 for place in range(38)]
    for name, strings in (("a.", short), ("b.", long)):
        text = " ".join(f'"{string}"' for string in strings)
        yield f"admit 4 {name} 60 TXT {text}", "taken"
        yield f"look {name} TXT", f"found 4 60 {name} TXT {text}"


def longest_lines():
    """Lines of 1,024 octets are obeyed, and one octet more is too much."""
    for line, told in (("admit 4 a. 60 TXT", "taken"), ("local_data b. 60 TXT", "ok 1")):
        strings = ["x" * 255] * 3
        strings.append("y" * (1_024 - len(" ".join([line, *(f'"{string}"' for string in strings), '""']))))
        text = " ".join(f'"{string}"' for string in strings)
        assert len(f"{line} {text}") == 1_024
        yield f"{line} {text}", told
        yield f"{line} {text} ", "error too_long"
        name = line.split()[-3]
        yield f"look {name} TXT", f"found 4 60 a. TXT {text}" if name == "a." else f"local 60 b. TXT {text}"


def many_data():
    """Sets of 40 data, of which one occurs twice and is kept once."""
    addresses = [address(place) for place in range(40)]
    yield "admit 4 a. 60 A " + " | ".join(addresses), "taken"
    yield "look a. A", "found 4 60 a. A " + " | ".join(addresses)
    yield "admit 4 a. 60 A " + " | ".join(addresses + addresses[:20]), "taken"
    yield "look a. A", "found 4 60 a. A " + " | ".join(addresses)
    texts = [f'"{place:02} {"x" * 12}"' for place in range(40)]
    yield "admit 4 a. 60 TXT " + " | ".join(texts), "taken"
    yield "look a. TXT", "found 4 60 a. TXT " + " | ".join(texts)


def escaped_names():
    """Names of 255 octets, all escaped: 1,004 octets of text, in lines that may have 1,024."""
    octets = [*range(128, 256), *range(33), *range(127, 216)]
    name = name_text(octets[at : at + 63] for at in range(0, 250, 63))
    yield f"look {name} A", "unknown"
    yield f"admit 4 {name[:-1]} 6 A 1.2.3.4", "taken"
    yield f"look {name} A", f"found 4 6 {name} A 1.2.3.4"
    yield f"flush_type {name} A", "ok 1"
    yield f"look {name} A", "unknown"
    yield "undo", "undone 1"
    yield f"look {name} A", f"found 4 6 {name} A 1.2.3.4"
    yield f"look \\000{name} A", "error bad_name"
