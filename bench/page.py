"""page: the text of RESULTS.md from what was counted."""
import re

# The calls that are counted beside the Rust: what each is called here, its op and flag.
CALLS = [("events", "E", 0), ("parentheticals", "P", 0), ("unescape, Text", "U", 0), ("unescape, Text in HTML", "U", 1),
         ("unescape, label", "U", 2), ("unescape, math", "U", 3), ("check", "C", 0)]
# What room is counted for: the ops and flags that are lent some; and the check without a bibliography.
ROOMS = [(op, flag) for _, op, flag in CALLS] + [("C", 1), ("H", 0)]
WITHOUT = ("C", "without")
# Links: at most the events' count, and so many instructions a label and a byte of its text.
A_LABEL, A_LABEL_BYTE = 900, 12
# Ours over the Rust's: at most, and the aim.
GOALS = {("E", 0): (0.5, 0.25), ("P", 0): (0.2, 0.1), ("U", 0): (0.8, 0.4), ("C", 0): (0.8, 0.5)}
# A third of a second at 400 MHz.
PAGE = 133_000_000
# The cost a byte at 65,536 bytes over that at 16,384.
GROWTH = 1.2
# The strict reading's count over that of the Rust's reading.
STRICT = 1.05

# Each public call (docs/CALLS.md), the C function that stands for it, and what is lent to it: the buffer of the comment, room for
# the records or text of an op and flag, tables by number, or words.
BUFFER = "buffer"
PUBLIC = [
    ("is_valid_label", "call_is_valid_label", ["the label"]),
    ("is_reserved_name", "call_is_reserved_name", ["the name"]),
    ("unescape, Escape::Text", "call_unescape_text", [BUFFER, ("U", 0)]),
    ("unescape, Escape::Label", "call_unescape_label", [BUFFER, ("U", 2)]),
    ("unescape, Escape::Math", "call_unescape_math", [BUFFER, ("U", 3)]),
    ("ParserState::next", "call_next", [BUFFER]),
    ("ParserState::unescape, Form::Text", "call_own_unescape_text", [BUFFER, ("U", 0)]),
    ("ParserState::unescape, Form::Label", "call_own_unescape_label", [BUFFER, ("U", 2)]),
    ("ParserState::unescape, Form::Math", "call_own_unescape_math", [BUFFER, ("U", 3)]),
    ("events", "call_events", [BUFFER, ("E", 0)]),
    ("ParentheticalState::new", "call_parenthetical_new", [BUFFER]),
    ("ParentheticalState::next", "call_parenthetical_next", [BUFFER]),
    ("parentheticals", "call_parentheticals", [BUFFER, ("P", 0)]),
    ("Discouragements::new", "call_discouragements", [BUFFER]),
    ("lookup, in the labels", "call_lookup", [2, "the name"]),
    ("verify_markup, Bibliography::Lent", "call_verify_markup", [BUFFER, ("C", 0), 1, 2, 3]),
    ("verify_markup, Bibliography::NotLent", "call_verify_markup_without_bibliography", [BUFFER, WITHOUT, 1, 2]),
    ("verify_markup, Bibliography::NoTagLookup", "call_verify_markup_no_tag_lookup", [BUFFER, ("C", 1), 1, 2]),
    ("links", "call_links", [BUFFER, ("H", 0), 2]),
    ("events_by_view; in it advance, View::open, View::next_item", "call_events_by_view", [BUFFER, ("E", 0)]),
    ("put_decimal", "call_put_decimal", ["at most 20 bytes of room"]),
    ("read_date", "call_read_date", ["the date"]),
    ("write_date", "call_write_date", ["at most 13 bytes of room"]),
    ("compare", "call_compare", []),
    ("is_calendar", "call_is_calendar", []),
]
WIDTHS = {"E": 20, "P": 28, "C": 20, "H": 12, "U": 1}
# What is counted of one comment: four calls, the check of the comment check's tables, and that of the links' labels.
PARTS = ["events", "parentheticals", "check", "links", "tables' check", "labels' check"]
SHOWN = {"\n ": "LF and space", "`a": "`` `a ``", "<html>_ _\n\n": "`<html>_ _` and two LF"}


def table(head, rows):
    """A table in Markdown; all columns but the first to the right."""
    rows = [[*row, *[""] * (len(head) - len(row))] for row in rows]
    lines = [head, ["---"] + ["---:"] * (len(head) - 1), *rows]
    return "\n".join("| " + " | ".join(map(str, line)) + " |" for line in lines) + "\n"


def rust_line(date, rustc):
    """The line that says when and with what the Rust was counted."""
    return f"The Rust was counted on {date} with rustc {rustc}, on x86-64."


def rust_of(text):
    """The Rust's counts as a page has them, and the line that says when they were made."""
    section = text.split("\n## All comments of set.mm\n")[1].split("\n## ")[0]  # other tables have rows of the same names
    first = {line.split(" | ")[0].removeprefix("| "): line.split(" | ")[1] for line in section.splitlines() if line.startswith("| ") and line.count(" | ") > 1}
    square = next(line for line in text.splitlines() if line.startswith("The Rust's events on the first: "))
    return {"rows": {(op, flag): float(first[call]) for call, op, flag in CALLS},
            "square": int(square.split(": ")[1].rstrip(".").replace(",", "")),
            "line": re.search(r"^The Rust was counted on .*?, on x86-64\.", text, re.M)[0]}


def set_mm(facts):
    made = []
    for call, op, flag in CALLS:
        if op == "C":
            rust, ours, *written = facts["check"][0], *map(sum, facts["check"][1:])
        else:
            rust, ours, *written = facts["rows"][op, flag]
        most, aim = GOALS.get((op, flag), (None, None))
        goal = "" if most is None else f"{most} ({aim})"
        met = "" if most is None else "aim reached" if ours / rust <= aim else "reached" if ours / rust <= most else "**missed**"
        made.append([call, f"{rust:.2f}", f"{ours:.2f}", f"{ours / rust:.3f}", goal, met, *(part for w in written for part in (f"{w:.2f}", f"{w / rust:.3f}"))])
    return table(["call", "the Rust", "ours, room 0", "over the Rust's", "at most (aim)", "", "ours, room enough", "over the Rust's"], made)


def lent(facts, parts):
    """What is lent to a call for the largest comment: the sum, and what it is made of."""
    total, said = 0, []
    for part in parts:
        if part == BUFFER:
            total += facts["largest"]
            said.append(f"buffer {facts['largest']:,}")
        elif isinstance(part, tuple):
            width, count = WIDTHS[part[0]], facts["needed"][part]
            total += width * count
            said.append(f"room {count:,}" if width == 1 else f"room {count:,} × {width}")
        elif isinstance(part, int):
            total += facts["tables"][part - 1]
            said.append(f"{['symbols', 'labels', 'bibliography'][part - 1]} {facts['tables'][part - 1]:,}")
        else:
            said.append(part)
    return f"{total:,}" if total else "", ", ".join(said) or "nothing"


def stack_rows(facts):
    return [[f"`{name}`" if " " not in name else name, f"{facts['stacks'][symbol]:,}", *lent(facts, parts)] for name, symbol, parts in PUBLIC]


def under(total):
    return f"{PAGE - total:,} under" if total < PAGE else f"**{total - PAGE:,} over**"


def links_rows(facts):
    """The links, at either room, beside the events at room 0, which have no lines in them: instructions a byte, and the most that they may be."""
    labels, text = facts["labels"]
    events = facts["rows"]["E", 0][1]
    more = (A_LABEL * labels + A_LABEL_BYTE * text) / facts["bytes"]
    made = []
    for room, parts in facts["links"].items():
        ours = sum(parts)
        a_label = ((ours - events) * facts["bytes"] - A_LABEL_BYTE * text) / labels
        made.append([room, f"{events:.2f}", *(f"{part:.2f}" for part in parts), f"{ours:.2f}", f"{events + more:.2f}",
                     "reached" if ours <= events + more else "**missed**", f"{a_label:.0f}"])
    return made


def big_rows(big):
    return [[room, *(f"{n:,}" for n in parts), f"{sum(parts):,}", under(sum(parts)), f"{PAGE / sum(parts):.1f}"] for room, parts in big.items()]


def growth(small, large):
    """The greatest of the four calls: the cost a byte at four times the length, over that at the length."""
    return max(l / s / 4 for s, l in zip(small[:4], large[:4]))


def square_rows(squares):
    made = []
    for pattern, small, large, few_written, written in squares:
        grown = max(growth(small, large), growth(few_written, written))
        said = "" if sum(large) < PAGE and sum(written) < PAGE and grown <= GROWTH else "**missed**"
        made.append([SHOWN.get(pattern, f"`{pattern}`"), *(f"{n:,}" for n in large), f"{sum(large):,}", f"{grown:.3f}", f"{sum(written):,}", said])
    return made


def strict_rows(facts):
    """The strict reading beside the Rust's on set.mm: instructions a byte at either room."""
    check = [sum(parts) for parts in facts["check"][1:]]
    rows = {"E": facts["rows"]["E", 0][1:], "P": facts["rows"]["P", 0][1:], "C": check, "H": [sum(parts) for parts in facts["links"].values()]}
    made = []
    for name, op in zip(PARTS, "EPCH"):
        over = [strict / rust for rust, strict in zip(rows[op], facts["stricts"][op])]
        cells = [cell for rust, strict, times in zip(rows[op], facts["stricts"][op], over) for cell in (f"{rust:.2f}", f"{strict:.2f}", f"{times:.3f}")]
        made.append([name, *cells, "reached" if max(over) <= STRICT else "**missed**"])
    return made


def strict_square_rows(facts):
    """The same on the hostile texts: the strict reading's count over the Rust's, the greater of the two rooms, and its growth."""
    made = []
    for (pattern, _, large, _, enough), (few, whole, few_written, written) in zip(facts["squares"], facts["strict_squares"]):
        over = [max(whole[k] / large[k], written[k] / enough[k]) for k in range(4)]
        grown = max(growth(few, whole), growth(few_written, written))
        said = "" if max(over) <= STRICT and grown <= GROWTH else "**missed**"
        made.append([SHOWN.get(pattern, f"`{pattern}`"), *(f"{n:,}" for n in whole), *(f"{times:.3f}" for times in over), f"{grown:.3f}", said])
    return made


def written(facts):
    symbols, labels, tags = facts["entries"]
    squares = facts["squares"]
    worst = max(max(sum(large), sum(enough)) for _, _, large, _, enough in squares)
    grown = max(max(growth(small, large), growth(few_enough, enough)) for _, small, large, few_enough, enough in squares)
    _, (few, added), (few_enough, added_enough) = facts["check"]
    return f"""# Instructions, beside the Rust

Written by `{facts['command']}` on {facts['date']}, with qemu {facts['qemu']}, on {facts['machine']}. Executed x86-64 instructions, counted by qemu-user with `count.c`: exact, and the same at each run and on each machine
(but the Rust's check: its tables are hashed with a random key, and its counts move by some thousand).
{facts['rust']} The library was proved and compiled with the kit `{facts['kit']}`.

## All comments of set.mm

{facts['comments']:,} comments, {facts['bytes']:,} bytes. Instructions a byte, net of the same cases with an empty span: so reading the cases is not in it, nor, for the check, the check of the tables.
The Rust and ours at room 0 are whole programs (the oracle and `replay`). At room 0 ours counts what it would write. The Rust always makes its list or text in memory of its own, so its one figure stands against both of ours.
Ours with room enough (655,360 words or 65,536 bytes) is the call alone, made from C (`calls.c`), with all records or the text written.

{set_mm(facts)}
The check: with set.mm's {symbols:,} symbols, {labels:,} labels and a bibliography of {tags} tags. Each of our calls checks the tables anew ({facts['big']['room 0'][4]:,} instructions), too much for as many calls as there are comments. So ours is counted in two parts:
{few:.2f} a byte on all comments with one label in {facts['few']}, and {added:.2f} that the other labels add, on one comment in {facts['every']} ({facts['sample']:,} of them, {facts['sample_bytes']:,} bytes); with room enough {few_enough:.2f} and {added_enough:.2f}.

## Links

The links of all comments to the {labels:,} labels, counted in the same two parts. set.mm has {facts['labels'][0]:,} Label events, whose texts have {facts['labels'][1]:,} bytes. The Rust has no such call.
At most: the events' count at room 0, which has no lines in it, and {A_LABEL} instructions a label and {A_LABEL_BYTE} a byte of its text. The last column is what a label takes beside the events and those {A_LABEL_BYTE}.

{table(["", "events", "one label in " + str(facts['few']), "the others add", "links", "at most", "", "a label"], links_rows(facts))}
## A page

The largest comment of set.mm before a theorem ({facts['largest']:,} bytes), with the tables above. A third of a second at 400 MHz is {PAGE:,} instructions.

{table(["", *PARTS, "together", "", "times under"], big_rows(facts["big"]))}
## No square

65,536 bytes of each, repeated. Growth: the cost a byte over that at 16,384 bytes, the greatest of the four calls at room 0 and with room enough, the tables' checks apart; at most {GROWTH}. The most of any is {worst:,}: {under(worst)} the page's {PAGE:,}. The greatest growth is {grown:.3f}.

{table(["bytes", *PARTS, "together", "growth", "room enough, together", ""], square_rows(squares))}
The Rust's events on the first: {facts['rust_square']:,}.

## The strict reading

The same comments in the strict reading, beside the Rust's reading above; at most {STRICT} times its count. The answers at room 0 are held against the crate's text with three changes (oracle/README.md).

{table(["", "the Rust's, room 0", "strict", "over it", "the Rust's, room enough", "strict", "over it", ""], strict_rows(facts))}
The hostile texts, 65,536 bytes of each: instructions in the strict reading at room 0; over those in the Rust's reading, the greater of the two rooms; and growth.

{table(["bytes", *PARTS[:4], *(part + ", over" for part in PARTS[:4]), "growth", ""], strict_square_rows(facts))}
## Stack and lent bytes

For the largest comment. Stack: the most that the compiled code can take on any input, return address included, arguments that the caller passes on the stack not (`stacks.py`). Lent bytes: all that the caller lends; the work area has 65,536.

{table(["call", "stack", "lent", "of these"], stack_rows(facts))}
`View::unescape` is `ParserState::unescape`, of the same form.
"""
