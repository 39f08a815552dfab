#!/usr/bin/env python3
"""Checks that the code says that memory is wanting only where a growth was refused.

No clause can say when a growth is refused, so a function that answered `NoMemory` for a number would be proved. So this looks at the
text. `NoMemory` comes from an error of the kit by `?` and `From`, is handed on by a `match` that names it, or is answered again by what
has failed; any other function that names it is listed here, once for each time, with the reason.
"""
import re
import sys
from collections import Counter
from pathlib import Path

TOP = Path(__file__).resolve().parent.parent
LISTED = {
    "a call of the kit was refused, and what was done before it is taken back": """cb_branch/bound.rt:add cb_groups/linked_groups.rt:take
        cb_rules/rule_table.rt:push cb_knowledge_base/globals.rt:push cb_knowledge_base/groups.rt:push""",
    "an error that can only be a refusal is handed on": """cb_io/putting.rt:put_text cb_session/session.rt:execute_last
        cb_command_line/arguments.rt:given_words cb_command_line/arguments.rt:given_words
        cb_command_line/arguments.rt:run_and_report cb_command_line/reports.rt:no_memory cb_command_line/reports.rt:refused""",
    "a number would not fit 32 bits, or 64": """cb_alpha/candidates.rt:insert cb_alpha/numbering.rt:add
        cb_alpha_network/network.rt:enter_first cb_beta/filing.rt:insert cb_beta/memory.rt:numbers cb_branch/tracing.rt:source cb_constraints/segments.rt:add_ones
        cb_constraints/segments.rt:add_segment cb_facts/multifield.rt:from_vec cb_facts/relation_counts.rt:one_more
        cb_groups/linked_groups.rt:add cb_groups/linked_groups.rt:add cb_groups/lists.rt:push_to cb_groups/lists.rt:push_to
        cb_knowledge_base/groups.rt:next_number cb_match_index/branches.rt:reach_branch cb_match_index/match_index.rt:put""",
    "what is looked for is always there": "cb_constraints/taken.rt:read_at cb_eval/constants.rt:made",
    "a session counts as failed while a call is under way":
        "cb_session/session.rt:end cb_session/session.rt:feed_byte cb_session/session.rt:feed_run",
}
KNOWN = Counter(place for places in LISTED.values() for place in places.split())
# Imports, the type itself, and how errors of the kit become it.
LEFT_OUT = re.compile(r"(?ms)^(?:pub(?:\(crate\))? )?use [^;]*;|^pub struct \w+;|^impl\b[^\n]*\bFrom<.*?^}")
# What is no value: in comments, in types, in clauses, as a variant.
NO_VALUE = re.compile(r"//.*|, (?:NoMemory|AllocError)>|\.NoMemory\b|^\s*NoMemory,$")
NAMED = re.compile(r"\b(?:NoMemory|AllocError)\b|\bno_memory\(rt\)")
HANDED_ON = re.compile(r"NoMemory\)? =>|\bif [\w.]*failed(?:\(\))? \{")


def opener(lines, at):
    """The line that begins the block in which this one stands."""
    indent = len(lines[at]) - len(lines[at].lstrip())
    return next((line for line in lines[at::-1] if line.strip() and len(line) - len(line.lstrip()) < indent), "")


def places(path):
    """The functions of a file that name it, as in the list, one for each time."""
    lines, function = LEFT_OUT.sub(lambda it: "\n" * it[0].count("\n"), path.read_text()).split("\n"), ""
    for at, line in enumerate(lines):
        function = (re.findall(r"\bfn (\w+)", line) or [function])[0]
        if NAMED.search(NO_VALUE.sub("", line)) and not HANDED_ON.search(line) and not HANDED_ON.search(opener(lines, at)):
            yield f"{path.relative_to(TOP).parts[1]}/{path.name}:{function}"


def main():
    files = [path for path in sorted(TOP.glob("crates/*/src/**/*.rt")) if "_tests/" not in str(path)]
    found = Counter(place for path in files for place in places(path))
    for place in sorted(found - KNOWN):
        print(f"refusals: {place} says that memory is wanting, and isn't listed in tools/refusals.py, or more often than there")
    for place in sorted(KNOWN - found):
        print(f"refusals: {place} is listed in tools/refusals.py, and doesn't say that memory is wanting, or not as often")
    return 1 if found != KNOWN else 0


if __name__ == "__main__":
    sys.exit(main())
