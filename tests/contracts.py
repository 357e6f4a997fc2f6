#!/usr/bin/env python3
"""The contracts of the functions in crates/*/src: how long they are, how many parameters there are, and which clauses stand again and again.

  contracts.py                                    prints the figures
  contracts.py --repeated                         prints each clause that stands three times or more, and where
  contracts.py PUBLIC_LINES PARAMETERS REPEATED   ends with status 1 where a public function has more lines of clauses (a command 25, the call of
                                                  the whole program 20), a function has more parameters or a nested tuple for a result, a body is one
                                                  call whose clauses are its own again, or the clauses that stand three times or more have more
                                                  characters

It reads the products: no crate whose name begins with trials_ or bench_, and no module of tests. A clause is `requires`, `ensures` or `ghost`, starred or
not, between the signature of a function and its body; those of closures don't count, and a line of comment is no line of a clause. Two clauses are the
same where they differ at most in label, white space and comments. A function is public if it is `pub`, as a method if its type is `pub` too; a method of
a trait is as public as the trait, or the type that has it. Whether a module is public isn't asked. `self` is a parameter.
"""

from __future__ import annotations

import collections
import dataclasses
import pathlib
import re
import sys
from collections.abc import Iterator

ROOT = pathlib.Path(__file__).resolve().parent.parent
NOT_CODE = re.compile(
    r"(?P<comment>//[^\n]*|/\*.*?\*/)"
    r'|\bb?r(?P<hashes>#*)".*?"(?P=hashes)|"(?:\\.|[^"\\])*"'
    r"|(?<![\w'])b?'(?:\\.[^'\n]*|[^'\\\n])'",
    re.DOTALL,
)
HIDDEN = re.compile(r"#\[cfg\(test\)\]\s*mod\s+(\w+)\s*;")
TYPE = re.compile(r"\bpub\s+(?:struct|enum|union|trait)\s+(\w+)")
HOME = re.compile(
    r"^[ \t]*(?P<test>#\[cfg\(test\)\]\s*)?(?:pub(?:\([^)]*\))?\s+)?(?:unsafe\s+)?(?P<kind>impl|trait|mod)\b(?P<head>[^{};]*)\{",
    re.MULTILINE,
)
FUNCTION = re.compile(r"(?:\b(?P<pub>pub)\s+)?(?:\b(?:const|unsafe)\s+)*\bfn\s+(?P<name>\w+)\s*")
CLAUSE = re.compile(r"\s*(?P<kind>(?:requires|ensures|ghost)\b\*?)\s*(?:\w+\s*)?[:=]?\s*(?=\{)")
BODY = re.compile(r"\s*(?=\{)")
CALL = re.compile(r"(?P<path>(?:\w+::)*)(?:(?P<receiver>\w+)\.)?(?P<name>\w+)(?:::<[^()]*>)?\((?P<arguments>[^()]*)\);?")
CLOSING = {"(": ")", "[": "]", "{": "}", "<": ">"}
COMMAND_LINES = 25
PROGRAM_LINES = 20


@dataclasses.dataclass(frozen=True, eq=False)
class Function:
    place: str
    home: str  # the type or trait of a method
    name: str
    public: bool
    parameters: list[str]
    result: str
    clauses: list[str]
    lines: int
    body: str

    def __str__(self) -> str:
        return f"{self.place}: {self.name}"


def blanked(text: str, strings: bool) -> str:
    """Returns the text with spaces in place of its comments, and in place of its strings and characters where these are meant too."""
    return NOT_CODE.sub(lambda it: re.sub(r"[^\n]", " ", it[0]) if strings or it["comment"] else it[0], text)


def end_of(text: str, start: int) -> int:
    """Returns the place behind the bracket that closes the one which stands there. The `>` of an arrow closes none."""
    opens, closes, depth = text[start], CLOSING[text[start]], 0
    for at in range(start, len(text)):
        if text[at] == opens:
            depth += 1
        elif text[at] == closes and not (closes == ">" and text[at - 1] in "-="):
            depth -= 1
            if not depth:
                return at + 1
    raise ValueError(f"the bracket isn't closed: {text[start : start + 80]}")


def parts_of(text: str) -> list[str]:
    """Returns what stands between the commas of a list, each part on one line."""
    parts, depth = [""], 0
    for before, it in zip(" " + text, text):
        if it in CLOSING:
            depth += 1
        elif it in CLOSING.values() and not (it == ">" and before in "-="):
            depth -= 1
        if it == "," and not depth:
            parts.append("")
        else:
            parts[-1] += it
    return [" ".join(it.split()) for it in parts if it.strip()]


def tuples_of(kind: str) -> list[str]:
    """Returns the tuples in a type, with those that stand in others."""
    groups = (kind[it.start() : end_of(kind, it.start())] for it in re.finditer(r"(?<!\w)\(", kind))
    return [it for it in groups if len(parts_of(it[1:-1])) > 1]


def is_nested(result: str) -> bool:
    """Whether a tuple stands in a tuple of the type, or both what Ok has and what Err has are tuples."""
    if any(len(tuples_of(it)) > 1 for it in tuples_of(result)):
        return True
    results = (parts_of(result[it.end() : end_of(result, it.end() - 1) - 1]) for it in re.finditer(r"\bResult<", result))
    return any(len(it) == 2 and all(side in tuples_of(side) for side in it) for it in results)


def result_of(text: str, start: int) -> tuple[str, int]:
    """Returns the type behind the arrow that may stand there, and where the clauses begin, or the body, or the end of a line that has none."""
    depth, end = 0, -1
    for it in re.finditer(r"[(\[\])]|[{;]|\b(?:requires|ensures|ghost|where)\b", text[start:]):
        if it[0] in "()[]":
            depth += 1 if it[0] in "([" else -1
        elif not depth:
            end = it.start() if end < 0 else end
            if it[0] != "where":
                return " ".join(text[start : start + end].strip().removeprefix("->").split()), start + it.start()
    raise ValueError(f"the signature has no end: {text[start : start + 80]}")


def functions_of(path: pathlib.Path, public_types: set[str]) -> Iterator[Function]:
    text = path.read_text(encoding="utf-8")
    plain, code = blanked(text, strings=False), blanked(text, strings=True)
    homes = [(it, end_of(code, it.end() - 1)) for it in HOME.finditer(code)]
    for found in FUNCTION.finditer(code):
        around = [it for it, end in homes if it.start() < found.start() < end]
        if any(it["test"] for it in around):
            continue
        public, home = bool(found["pub"]), ""
        if around and around[-1]["kind"] != "mod":
            head = around[-1]["head"].strip()
            head = head[end_of(head, 0) :] if head.startswith("<") else head
            of_trait, _, kind = head.rpartition(" for ")
            named = re.match(r"\s*(?:&\s*)?(?:\w+::)*(\w+)", kind)
            home = named[1] if named else ""
            public = home in public_types and (public or bool(of_trait) or around[-1]["kind"] == "trait")
        opens = end_of(code, found.end()) if code[found.end()] == "<" else found.end()
        behind = end_of(code, opens)
        parameters = [it.partition(":")[0].split()[-1].lstrip("&") for it in parts_of(code[opens + 1 : behind - 1])]
        result, start = result_of(code, behind)
        clauses: list[str] = []
        end = start
        while clause := CLAUSE.match(code, end):
            end = end_of(code, clause.end())
            clauses.append(f"{clause['kind']} {' '.join(plain[clause.end() : end].split())}")
        lines = sum(bool(it.strip()) for it in plain[start:end].split("\n"))
        body = BODY.match(code, end)
        inner = code[body.end() + 1 : end_of(code, body.end()) - 1] if body else ""
        place = f"{path.relative_to(ROOT)}:{code.count(chr(10), 0, found.start('name')) + 1}"
        yield Function(place, home, found["name"], public, parameters, result, clauses, lines, inner)


def functions() -> Iterator[Function]:
    """Returns the functions of all products."""
    for crate in sorted((ROOT / "crates").iterdir()):
        if crate.name.startswith(("trials_", "bench_")):
            continue
        codes = {it: blanked(it.read_text(encoding="utf-8"), strings=True) for it in sorted(crate.glob("src/**/*.rt"))}
        tests = {"tests", *(name for it in codes.values() for name in HIDDEN.findall(it))}
        products = [it for it in codes if not tests & set(it.relative_to(crate).with_suffix("").parts)]
        public_types = {name for it in products for name in TYPE.findall(codes[it])}
        for path in products:
            yield from functions_of(path, public_types)


def called_by(caller: Function, every: list[Function]) -> list[Function]:
    """Returns the functions that the body may call, where it is one call with the function's own parameters alone."""
    call = CALL.fullmatch(re.sub(r"\s*(::|[.(),;])\s*", r"\1", caller.body.strip()))
    if not call:
        return []
    arguments = [re.sub(r"^(?:&\s*(?:mut\s+)?|\*)", "", it) for it in [call["receiver"] or "", *parts_of(call["arguments"])] if it]
    if not set(arguments) <= set(caller.parameters):
        return []
    owner = call["path"].split("::")[-2] if call["path"] else ""
    owner = caller.home if owner == "Self" else owner if owner[:1].isupper() else ""
    named = [it for it in every if it.name == call["name"] and len(it.parameters) == len(arguments) and it is not caller]
    return [it for it in named if (it.home if call["receiver"] else it.home == owner)]


def room_of(it: Function, lines: int) -> int:
    """Returns how many lines of clauses the function may have, where a public one may have so many."""
    if it.place.startswith("crates/monitor/") and it.name == "monitor":
        return min(lines, PROGRAM_LINES)
    return min(lines, COMMAND_LINES) if it.name.endswith("_command") else lines


def said_again(every: list[Function]) -> list[tuple[Function, Function]]:
    """Returns the functions whose body is one call, where the clauses of that are among theirs, with the called one."""
    counts = {it: collections.Counter(it.clauses) for it in every}
    return [(it, other) for it in every if it.clauses for other in called_by(it, every) if other.clauses and counts[other] <= counts[it]]


def tell(every: list[Function], repeated: dict[str, list[Function]]) -> None:
    """Prints the figures, and the functions that stand out."""
    bound = [it for it in every if it.clauses]
    print(f"contracts: {len(every)} functions, {len(bound)} with clauses, of which {sum(it.public for it in bound)} are public")
    print(f"contracts: {sum(len(it.clauses) for it in bound)} clauses of {sum(it.lines for it in bound)} lines")
    print("contracts: the longest in lines")
    for it in sorted(bound, key=lambda it: -it.lines)[:20]:
        print(f"  {it.lines:4} {it}{' (public)' if it.public else ''}")
    wide = sorted((it for it in every if len(it.parameters) > 7), key=lambda it: -len(it.parameters))
    print(f"contracts: {len(wide)} functions have more than seven parameters", *(f"  {len(it.parameters):4} {it}" for it in wide), sep="\n")
    often = list(repeated.items())[:10]
    places, text = sum(map(len, repeated.values())), sum(len(clause) * len(at) for clause, at in repeated.items())
    print(f"contracts: {len(repeated)} clauses stand three times or more, at {places} places, {text} characters in all; most often")
    print(*(f"  {len(at):4} {clause}" for clause, at in often), sep="\n")
    nested = [it for it in every if is_nested(it.result)]
    print(f"contracts: {len(nested)} results have nested tuples", *(f"       {it} -> {it.result}" for it in nested), sep="\n")
    calls = sum(bool(called_by(it, every)) for it in bound)
    again = said_again(every)
    same = sum(len(it.clauses) == len(other.clauses) for it, other in again)
    print(f"contracts: {calls} bodies are one call; {same} have that call's clauses again, {len(again) - same} these and more")
    for it, other in again:
        print(f"       {it} has {len(it.clauses)}, and calls {other.name}, which has {len(other.clauses)} of them")


def main(words: list[str]) -> int:
    every = list(functions())
    places: dict[str, list[Function]] = collections.defaultdict(list)
    for it in every:
        for clause in it.clauses:
            places[clause].append(it)
    repeated = {clause: at for clause, at in sorted(places.items(), key=lambda it: -len(it[1])) if len(at) >= 3}
    if words == ["--repeated"]:
        for clause, at in repeated.items():
            print(f"{len(at)} times {clause}", *(f"    {it}" for it in at), sep="\n")
        return 0
    if not words:
        tell(every, repeated)
        return 0
    lines, parameters, most = (int(it) for it in words)
    longest, widest = max(it.lines for it in every if it.public), max(len(it.parameters) for it in every)
    found, text = sum(len(clause) * len(at) for clause, at in repeated.items()), sum(len(clause) for it in every for clause in it.clauses)
    print(f"contracts: at most {longest} lines of clauses at a public function and {widest} parameters; {found} of {text} characters repeated")
    faults = [
        f"{it} has {it.lines} lines of clauses, where at most {room_of(it, lines)} may be"
        for it in every
        if it.public and it.lines > room_of(it, lines)
    ]
    faults += [f"{it} has {len(it.parameters)} parameters, where at most {parameters} may be" for it in every if len(it.parameters) > parameters]
    faults += [f"{it} has a tuple in a tuple for a result" for it in every if is_nested(it.result)]
    faults += [
        f"{it} is one call of {other.name}, and has its clauses again" for it, other in said_again(every) if len(it.clauses) == len(other.clauses)
    ]
    if found > most:
        faults.append(f"clauses of {found} characters stand three times or more, where at most {most} may; --repeated prints them")
    for fault in faults:
        print(f"contracts: {fault}")
    return 1 if faults else 0


if __name__ == "__main__":
    sys.exit(main(sys.argv[1:]))
