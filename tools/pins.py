"""What pins each word of the theorems, told by the texts of the clauses. `tools/schedules.py --pins` prints it.

A word is a definition in specs/ of the model or of the schedules that a clause of the seven theorems cites. Its place in a clause tells what that says of it:

- `is`: it stands in an equation or an equivalence that the clause concludes. So the clause says what it is, where its premises hold.
- `holds`: the clause concludes it. So it is true often enough, or a number is large enough.
- `implies`: it is a premise. So it isn't true too often, or a number is small enough.

A word with `holds` or with `implies` alone has one side alone: a definition that is true more often, or less often, passes every clause. Clauses of the
theorems count, laws of the model, and what is said of single steps. Whether the equations of a word cover all cases isn't told.
"""

import glob
import os
import re

TOP = os.path.dirname(os.path.dirname(os.path.realpath(__file__)))
CRATES = ("thread_local_base", "thread_local_schedule")

# Operators that take formulas and hold where these do more often.
LOGIC = {"IsTrue", "IsSome", "IsSomeAnd", "IfSome", "IfOk", "MatchOption", "AllByRecursion", "IsOk", "Contains"}


# How a definition of specs/ begins, a record with its parameters.
WORD = re.compile(r"^(?:abbrev |unfoldable |data |record )*pub (?:abbrev |unfoldable |record )?([A-Za-z_]\w*)(?: [{(].*)? :", re.M)


def defined():
    """The words, each with the file that defines it."""
    words = {}
    for crate in CRATES:
        for path in sorted(glob.glob(f"{TOP}/crates/{crate}/specs/*.antt")):
            with open(path, encoding="utf-8") as it:
                for name in WORD.findall(it.read()):
                    words[name] = os.path.relpath(path, f"{TOP}/crates")
    return words


def braced(text, at):
    """The text between the brace at that place and its partner, and the place behind that."""
    depth = 0
    for end in range(at, len(text)):
        depth += {"{": 1, "}": -1}.get(text[end], 0)
        if depth == 0:
            return text[at + 1 : end], end + 1
    raise ValueError("a brace has no partner")


def clauses():
    """The clauses of functions with an empty body: (`function::clause`, text)."""
    for crate in CRATES:
        for path in sorted(glob.glob(f"{TOP}/crates/{crate}/src/*.rt")):
            with open(path, encoding="utf-8") as it:
                text = re.sub(r"^\s*//.*$", "", it.read(), flags=re.M)
            for found in re.finditer(r"^pub fn (\w+)", text, re.M):
                end = text.find("\npub fn ", found.end())
                part = text[found.start() : end if end > 0 else len(text)]
                for it in re.finditer(r"\bensures (\w+ )?\{", part):
                    inside, _ = braced(part, it.end() - 1)
                    yield f"{found[1]}::{(it[1] or found[1]).strip()}", " ".join(inside.split())


def split(text, operator):
    """The parts of a formula at an operator that stands outside of all brackets."""
    parts, depth, begin = [], 0, 0
    for at, it in enumerate(text):
        depth += {"(": 1, "{": 1, "[": 1, ")": -1, "}": -1, "]": -1}.get(it, 0)
        if depth == 0 and text.startswith(f" {operator} ", at):
            parts.append(text[begin:at].strip())
            begin = at + len(operator) + 2
    return [*parts, text[begin:].strip()]


def unwrapped(text):
    """The formula without brackets around all of it."""
    text = text.strip()
    while text.startswith("("):
        depth = 0
        for end, it in enumerate(text):
            depth += {"(": 1, ")": -1}.get(it, 0)
            if depth == 0:
                break
        if end != len(text) - 1:
            return text
        text = text[1:-1].strip()
    return text


def groups(text):
    """An application's words and bracketed parts."""
    parts, depth, begin = [], 0, None
    for at, it in enumerate(text + " "):
        depth += {"(": 1, "{": 1, "[": 1, ")": -1, "}": -1, "]": -1}.get(it, 0)
        if it == " " and depth == 0:
            if begin is not None:
                parts.append(text[begin:at])
            begin = None
        elif begin is None:
            begin = at
    return parts


def is_binder(text):
    return all(re.fullmatch(r"\([\w ]+ : .*\)", it) for it in groups(text)) and text != ""


def read(text, sign, note):
    """Reads a formula. `sign` is 1 where the clause concludes it, and -1 where that is a premise; `note(word, how)` is told what is seen."""
    text = unwrapped(text)
    if found := re.match(r"let (\w+)(?: : [^=]*)? = ", text):
        # The end of the bound term is the `in` outside of all brackets.
        bound, *rest = split(text[found.end() :], "in")
        return read(re.sub(rf"\b{found[1]}\b", lambda _: f"({bound})", " in ".join(rest)), sign, note)
    if found := re.match(r"λ [^.]*\. ", text):
        return read(text[found.end() :], sign, note)
    text = text.removeprefix("→ ")
    for operator in ("→", "⊎", "∨₁", "×"):
        parts = split(text, operator)
        if len(parts) > 1:
            for it in parts[:-1]:
                if not is_binder(it):
                    read(it, -sign if operator == "→" else sign, note)
            return read(parts[-1], sign, note)
    if len(parts := split(text, "↔")) > 1:
        for it in parts:
            for one in (1, -1):
                read(it, one, note)
        return None
    for operator in ("≡", "≢"):
        parts = split(text, operator)
        if len(parts) > 1:
            if parts[-1] in ("true", "false"):
                return read(parts[0], sign if (parts[-1] == "true") == (operator == "≡") else -sign, note)
            how = "is" if sign == 1 and operator == "≡" else None
            return mention(" ".join(parts), how, note)
    for operator in ("<", "≤"):
        parts = split(text, operator)
        if len(parts) > 1:
            mention(parts[0], "implies" if sign == 1 else None, note)
            return mention(parts[1], "holds" if sign == 1 else None, note)
    head, *rest = groups(text) or [""]
    if head in LOGIC:
        for it in rest:
            if it.startswith("{"):
                continue
            read(it, sign, note)
        return None
    note(head, "holds" if sign == 1 else "implies")
    return mention(" ".join(rest), None, note)


def mention(text, how, note):
    """Notes each word of a term."""
    for word in re.findall(r"(?<![\w.])[A-Za-z_]\w*", text):
        note(word, how)


def pins():
    """For each word that a clause cites, the clauses by what they say of it."""
    words, told = defined(), {}
    cited = set()
    for name, text in clauses():
        bound = {it for group in re.findall(r"\(([\w ]+) : |λ ([\w ]+)\.", text) for part in group for it in part.split()}

        def note(word, how, bound=bound, name=name):
            if word in words and word not in bound:
                by = told.setdefault(word, {"is": [], "holds": [], "implies": []})
                if name.split("::")[0] in THEOREMS:
                    cited.add(word)
                if how and name not in by[how]:
                    by[how].append(name)
        read(text, 1, note)
    return {word: told[word] for word in sorted(cited)}


# The theorems whose words are looked at.
THEOREMS = {"headline", "every_schedule", "every_walk", "events_say", "events_change", "steps_happen", "words_say"}


def sides(by):
    """How many sides a word is pinned from."""
    return 2 if by["is"] or (by["holds"] and by["implies"]) else 1 if by["holds"] or by["implies"] else 0


# Words that need less than two sides, and why.
NEEDS_LESS = {
    "next_step": "a step of a walk that is enabled, whichever it is",
    "after_walking": "a core of one schedule, which is computed",
    "after_next": "a core of one schedule, which is computed",
}


def main():
    """Prints the list, and last the words with one side alone. Answers the status: 1 where one of them needs both."""
    found = pins()
    for word, by in found.items():
        print(f"{word}: " + "; ".join(f"{how} by {', '.join(some)}" for how, some in by.items() if some))
    left = [word for word, by in found.items() if sides(by) < 2]
    for word in left:
        how = next((f"only {it}" for it, some in found[word].items() if some), "only cited")
        print(f"one side alone: {word}, which is {how}" + (f": {NEEDS_LESS[word]}" if word in NEEDS_LESS else ""))
    print(f"{len(found)} words, {len(left)} of them with one side alone")
    return 1 if set(left) - set(NEEDS_LESS) else 0
