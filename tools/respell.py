#!/usr/bin/env python3
"""Turns this repository's own names to the spelling of today's Rattle, once, after the toolchain's port.py: definitions, lemmas, fields and local names of
.antt files, and the same names where .rt files cite them, go from `camelCase` and `kebab-case` to `snake_case`. Types, modules and what the code itself is
named stay. Names that would fall together with another one in a file get a further word (APART).

usage: tools/respell.py    at the top of the repository; it writes the files of crates/*/specs, crates/*/proofs and crates/*/src, and the edits that must be refused
"""

import glob
import re
import sys

# What would fall together with a definition of the same words in one file. Left of a dot or alone; after a dot stands what the code named, or a field.
APART = {
    "same-stream": "same_stream_law",
    "as-node": "as_node_law",
    "one-omission": "one_omission_law",
    "pending-in": "pending_in_law",
    "tick-slot": "tick_slot_law",
    "gave-out": "gave_out_here",
    "may-send": "may_send_law",
    "parts-agree": "parts_agree_law",
    "set-ups": "set_ups_law",
    "in-turn": "in_turn_here",
    "was-full": "was_full_here",
    "was-sent": "was_sent_here",
    "sent-again": "sent_again_law",
    "new-book": "new_book_here",
    "two-message": "two_message_on_bench",
    "is-live-in": "is_live_in_law",
    "is-done": "is_done_here",
    "is-next": "is_next_here",
    "after-call": "after_call_here",
    "no-frame": "no_frame_law",
    "with-entry": "with_entry_law",
    "refused-settings": "refused_settings_law",
    "is-node": "is_node_law",
    "is-slot": "is_slot_law",
    "record-in": "record_in_window",
    "no-slot": "no_slot_law",
    "lowest-code": "lowest_code_law",
    "payload-code": "payload_code_law",
    "is-of": "is_of_law",
    "with-slots": "with_slots_here",
    "payload-row": "payload_row_here",
    "no-node": "no_node_law",
    "new-frame": "new_frame_here",
    "all-if-full": "all_if_full_law",
    "all-or-none": "all_or_none_law",
    "cause-keep": "cause_keep_here",
    "cause-new": "cause_new_here",
    "cause-over": "cause_over_here",
    "no-flaw": "no_flaw_here",
    "conf-new": "conf_new_here",
    "notDue": "if_not_due",
    "notLate": "if_not_late",
    "tick-room": "tick_room_law",
    "hear-room": "hear_room_law",
    "is-over": "is_over_here",
    "in-range": "in_range_law",
    "table-of": "table_of_law",
    "stream-at": "stream_at_law",
    "with-stream": "with_stream_law",
    "record-length": "record_length_law",
    "set-up": "set_up_call",
    "next-frame": "next_frame_call",
    "heard-at": "heard_at_law",
}
# The same, in one file only: names that the toolchain's script had turned already.
APART_IN = {
    "crates/bench/proofs/message/Judgement.antt": {"is_live": "is_live_here"},
    "crates/bench/proofs/message/RulesSeen.antt": {"in_reach": "in_reach_here", "not_full": "not_full_here"},
    "crates/heard/proofs/WrittenThenRead.antt": {"by_answer": "by_answer_here"},
}
# Fields whose name stands in APART.
FIELDS = {"record-in"}

# Crates of this repository: what is imported from elsewhere keeps its name.
OWN = {line.split(":")[0].strip() for line in open("crates.txt", encoding="utf-8") if ":" in line and not line.startswith("#")}
IMPORT = re.compile(r"(?m)^\s*(?:pub |ghost )*use ([^\s;{}]+?)\.\{([^}]*)\}")
DECLARED = re.compile(r"(?m)^\s*(?:pub |abbrev |unfoldable |opaque |private |syntax )*([a-z][\w'-]*) :(?!:)")


def from_elsewhere(text):
    """the names that a file imports and this repository does not declare"""
    names = set()
    for path, inside in IMPORT.findall(text):
        parts = path.split(".")
        if parts[0] == "Rattle" and len(parts) > 1 and parts[1] in OWN and "Tie" not in parts and "Symbol" not in parts and "Statement" not in parts:
            continue
        for word in inside.split(","):
            names.add(word.strip().split(" as ")[-1].strip())
    return names


def own_names():
    names = set()
    for path in glob.glob("crates/*/specs/**/*.antt", recursive=True) + glob.glob("crates/*/proofs/**/*.antt", recursive=True):
        with open(path, encoding="utf-8") as f:
            names |= set(DECLARED.findall(f.read()))
    return names


WORD = re.compile(r"(?<![\w'◌-])([a-z][\w']*(?:-[\w']+)*)(?![\w'◌])")


def snake(word):
    word = word.replace("-", "_")
    if re.search(r"[a-z0-9][A-Z]", word):
        word = re.sub(r"([a-z0-9])([A-Z])", lambda m: m.group(1) + "_" + m.group(2), word).lower()
    return word


def turn(path, text, kebab, kept, own):
    """text with its names turned; kebab: whether `a-b` is a name there; kept: names of the library; own: all that this repository declares"""
    apart = APART_IN.get(path, {})

    def one(m):
        word = m.group(1)
        dotted = m.start() > 0 and text[m.start() - 1] == "."
        if "-" in word and not kebab:
            return word
        if word in kept:
            return word
        if dotted and word not in FIELDS:
            return snake(word) if word in own and "Statement" not in text[m.start() - 12 : m.start()] else word
        return apart.get(word) or APART.get(word) or snake(word)

    return WORD.sub(one, text)


def code_and_comment(line, mark):
    """a line cut before its comment; a comment of .antt begins a line or follows a blank"""
    if mark == "--":
        m = re.search(r"(^|\s)--(\s|$)", line)
        return (line, "") if not m else (line[: m.start()], line[m.start() :])
    at, quoted = 0, False
    while at < len(line):
        c = line[at]
        if c == "\\" and quoted:
            at += 2
            continue
        if c == '"':
            quoted = not quoted
        if not quoted and line.startswith("//", at):
            return line[:at], line[at:]
        at += 1
    return line, ""


def antt(path, text, own, kept=None):
    kept = from_elsewhere(text) if kept is None else kept
    out = []
    for line in text.split("\n"):
        code, comment = code_and_comment(line, "--")
        out.append(turn(path, code, True, kept, own) + comment)
    return "\n".join(out)


def rt(path, text, own, kept=None):
    """Only names in camelCase: the code has none, and its clauses have no others. What stands in quotes stays."""
    kept = from_elsewhere(text) if kept is None else kept
    out = []
    for line in text.split("\n"):
        code, comment = code_and_comment(line, "//")
        parts = re.split(r'(b?"(?:[^"\\]|\\.)*")', code)
        out.append("".join(p if i % 2 else turn(path, p, False, kept, own) for i, p in enumerate(parts)) + comment)
    return "\n".join(out)


def edit(path, text, own):
    """An edit names files of its crate; a line `expect:` a fact of one."""
    crate = path.split("/")[1] if path.startswith("crates/") else path.split("/")[2]
    file, out = None, []
    for line in text.split("\n"):
        m = re.match(r"(file|old|new|expect|crate):( ?)(.*)$", line)
        if not m:
            out.append(line)
            continue
        key, blank, value = m.groups()
        if key == "crate":
            crate = value
        elif key == "file":
            file = value
        elif key == "expect" and value.startswith("proofs/"):
            place, _, fact = value.partition(" ")
            value = place + " " + turn("crates/" + crate + "/" + place, fact, True, set(), own)
        elif key in ("old", "new") and file:
            whole = "crates/" + crate + "/" + file
            try:
                with open(whole, encoding="utf-8") as f:
                    kept = from_elsewhere(f.read())
            except OSError:
                kept = set()
            value = antt(whole, value, own, kept) if file.endswith(".antt") else rt(whole, value, own, kept)
        out.append(key + ":" + blank + value)
    return "\n".join(out)


def main():
    n, own = 0, own_names()
    sources = ("crates/*/specs/**/*.antt", "crates/*/proofs/**/*.antt", "crates/*/src/**/*.rt", "crates/*/must-fail/*.edit", "tests/refused/*/*.edit")
    # the edits first: they ask what the files import from elsewhere
    for path in sorted((p for s in sources for p in glob.glob(s, recursive=True)), key=lambda p: (not p.endswith(".edit"), p)):
        with open(path, encoding="utf-8") as f:
            old = f.read()
        turned = edit if path.endswith(".edit") else antt if path.endswith(".antt") else rt
        new = turned(path, old, own)
        if new != old:
            with open(path, "w", encoding="utf-8") as f:
                f.write(new)
            n += 1
    print(f"respell: {n} files")


if __name__ == "__main__":
    sys.exit(main())
