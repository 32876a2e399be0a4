#!/usr/bin/env python3
"""Holds README.md and docs/ to the crates, and every contract to the theorem that it leaves one result. Every link's file must be there, and
where the link's words are a name in backquotes, the file must say that name. Every must-fail edit must have a link from docs/, and each of
its old texts must stand once in its file. Every public function must have its row in docs/CONTRACTS.md and a contract that asks nothing and
has one equation for its result (a check: for its number) and one for each part lent as &mut, with a right side that speaks of the arguments
alone; what says more must stand under the page's Exceptions. What reads or writes must say, word by word, what is written here of it, and a
conversion what it gives. The theorem of its row must be the general law for that many equations, or one of its own that says, word
by word and by the same definitions, that two results and contents of which the equations hold are equal. Last line 'N passed, M failed';
exit status 1 on any failure."""
import collections
import pathlib
import re
import sys

ROOT = pathlib.Path(__file__).resolve().parent.parent
CRATES = ROOT / "crates"
PAGE = ROOT / "docs/CONTRACTS.md"
LINK = re.compile(r"\[(`?)([^\]]+?)`?\]\(([^)#\s]+)(?:#[^)]*)?\)")
FUNCTION = re.compile(r'\s*pub (?:extern "C" )?fn (\w+)')
HEADER = re.compile(FUNCTION.pattern + r"(?:<[^>]*>)?\(([^)]*)\)(?: -> ([^\n{]+?))?(?: \{$|\n(.*?)^ *\{$)", re.S | re.M)
COMPARISON = re.compile(r"[\w′ .()+*/%-]+ [≡<≤] [\w′ .()+*/%&-]+")
# The equality of a contract and that of a theorem are one, which the library passes on under other names.
EQUALITY = dict.fromkeys(["Rattle.std.specs.Prelude", "Rattle.std.proofs.Common"], "mathlib.Core.Path")
LAWS = {"one": 1, "two": 2, "three": 3, "four": 4}
LAWS_FILE = "crates/purse/proofs/Unique.antt"
# The law of a check: its contract gives the number of its result, and each reason to refuse has its own.
ANSWER, ANSWER_FILE = "one_answer", "crates/purse/proofs/Reasons.antt"
NO_CONTRACT = [("crates/stream/src/failure.rt", "tell")]
# What reads or writes is no equation: it asks nothing, and says just this of bytes that are known.
STREAMS = {
    ("crates/stream/src/lib.rt", "fill"): [
        "IfOk result (λ n. n ≤ length bytes′)",
        "length bytes′ ≡ length bytes",
        "IfOk result (λ n. Consumes (R.remaining from) (R.remaining from′) (take n bytes′))",
        "IfOk result (λ n. n < length bytes′ → IsAtEnd (R.remaining from′))",
    ],
    ("crates/stream/src/lib.rt", "list"): ["OnOk result (Lists (R.remaining from) (W.contents to) (W.contents to′))"],
}
# A conversion: what it gives, by what it is told alone.
CONVERSION = re.compile(r"^    ghost from_gives = \{ λ (\w+) (\w+)\. \2 ≡ (?!.*\b\2\b)[\w .()]+ \};$", re.M)

# A function's parameters, the left sides that its equations must have, its equations, what it compares besides, and all else in its contract.
Contract = collections.namedtuple("Contract", "parameters wanted equations besides rest")


def links():
    """What is wrong with each link, or None."""
    for page in [ROOT / "README.md", *sorted((ROOT / "docs").glob("*.md")), *sorted((ROOT / "tests").glob("*.md"))]:
        for match in LINK.finditer(page.read_text()):
            ticked, words, target = match.groups()
            if "://" in target:
                continue
            path = (page.parent / target).resolve()
            fault = None
            if not path.exists():
                fault = "no such file"
            elif ticked and path.is_file() and not re.search(r"(?<![\w-])" + re.escape(words) + r"(?![\w-])", path.read_text()):
                fault = f"the file does not say {words}"
            yield fault and f"{page.relative_to(ROOT)}: {match.group(0)}: {fault}"


def unplaced(edit):
    """An old text of a must-fail edit that does not stand once in its file, or None."""
    text = old = path = None
    texts = {}
    for line in edit.read_text().splitlines():
        word, _, rest = line.partition(": ")
        if word == "file":
            path = edit.parent.parent / rest
        elif word == "old":
            old, text = rest, texts.get(path) or path.read_text()
        elif word == "new":
            if text.count(old) != 1:
                return old
            texts[path] = text.replace(old, rest)
    return None


def edits():
    """What is wrong with each must-fail edit, or None: no page links it, or an old text does not stand once in its file."""
    pages = "".join(page.read_text() for page in sorted((ROOT / "docs").glob("*.md")))
    for edit in sorted(CRATES.glob("*/must-fail/*.edit")):
        file = str(edit.relative_to(ROOT))
        if f"(../{file})" not in pages:
            yield f"docs/: no link to {file}"
        else:
            old = unplaced(edit)
            yield old and f"{file}: stands not once in its file: {old}"


def public(library):
    """The public functions of a library, each as its file, its name and the file's text from there on: those of lib.rt and of its public
    modules, those that it uses publicly, the methods of its types and of its public traits, which every impl meets, and its conversions."""
    text = library.read_text()
    used = {
        (module, name)
        for module, names in re.findall(r"^pub use (\w+)::(\w+|\{[^}]*\});", text, re.M)
        for name in re.findall(r"\w+", names)
    }
    modules = [("lib", True)] + [(name, bool(is_public)) for is_public, name in re.findall(r"^(pub )?mod (\w+);", text, re.M)]
    for module, is_public in modules:
        path = library.parent / f"{module}.rt"
        in_impl = in_trait = False
        lines = path.read_text().splitlines()
        for at, line in enumerate(lines):
            in_trait = line.startswith("pub trait ") or (in_trait and not line.startswith("}"))
            method = in_trait and re.match(r"    fn (\w+)", line)
            if method:
                end = next(to for to in range(at, len(lines)) if lines[to].endswith(";"))
                yield path, method.group(1), "\n".join(["pub " + line.strip(), *lines[at + 1 : end + 1]]).rstrip(";").replace("\n    ", "\n") + "\n{"
            in_impl = bool(re.match(r"impl\b", line)) or (in_impl and not line.startswith("}"))
            if line.startswith("impl From<"):
                yield path, "from", "\n".join(lines[at : lines.index("}", at)])
            match = FUNCTION.match(line)
            if match and (is_public or in_impl or (module, match.group(1)) in used):
                yield path, match.group(1), "\n".join(lines[at:])


def parts(text, sign):
    """The pieces of a text between the signs that stand in no parentheses."""
    pieces, depth = [""], 0
    for letter in text:
        depth += (letter == "(") - (letter == ")")
        if letter == sign and depth == 0:
            pieces.append("")
        else:
            pieces[-1] += letter
    return [piece.strip() for piece in pieces]


def terms(text):
    """The names and signs of a text, without fields and numbers."""
    return {term for term in re.split(r"[\s().]+", re.sub(r"(?<=[\w)])\.\w+", "", text)) if term and not term.isdigit()}


def lent(argument):
    """How a parameter is lent: "&", "&mut", or not at all."""
    found = re.search(r"&(?:'\w+ )?(mut\b)?", argument)
    return found and "&" + (found[1] or "")


def plain(text, parameters):
    """A text on one line, with x for `x.now` and `x.old` and x′ for `x.new` of a lent x."""
    text = " ".join(re.sub(r"//.*", "", text).split())
    for name, argument in parameters.items():
        for word, mark in {None: {}, "&": {"now": ""}, "&mut": {"old": "", "new": "′"}}[lent(argument)].items():
            text = re.sub(rf"(?<![\w.]){name}\.{word}\b", name + mark, text)
    return text


def clauses_of(text):
    """The facts of the `ensures` clauses of a text on one line, with names or without, and the words of all else."""
    facts, rest = [], []
    while text:
        head = re.match(r"ensures (?:\w+ )?\{ ", text)
        depth, end = 0, 0
        for end, letter in enumerate(text, 1):
            depth += (letter == "{") - (letter == "}")
            if letter == "}" and depth == 0:
                break
        if head and text[:end].endswith(" }"):
            facts.append(text[head.end() : end - 2])
        else:
            rest.append(text[:end])
        text = text[end:].lstrip()
    return facts, rest


def uses(path):
    """The names that a file uses of specs, proofs and libraries, each with its module."""
    found = re.findall(r"^(?:ghost )?use ([^\s{]+)\.\{([^}]*)\}", path.read_text(), re.M)
    return {name.strip().strip("◌"): module for module, names in found for name in names.split(",")}


def conjuncts(fact, used):
    """The conjuncts of a fact, an abbreviation of the specs written out."""
    name, *arguments = parts(fact, " ")
    if name.startswith("(") and not arguments:
        return conjuncts(fact[1:-1], used)
    pieces = parts(fact, "×")
    if len(pieces) > 1:
        return [conjunct for piece in pieces for conjunct in conjuncts(piece, used)]
    path = CRATES / (used.get(name, "").removeprefix("Rattle.").replace(".", "/") + ".antt")
    short = path.exists() and re.search(rf"^abbrev pub {name} : .*\n{name} ([\w' ′]+) = (.*)$", path.read_text(), re.M)
    if not short:
        return [fact]
    values = dict(zip(short[1].split(), arguments))
    return conjuncts(re.sub(r"[^\s()]+", lambda word: values.get(word[0], word[0]), short[2]), used)


def equation(fact):
    """Both sides of a fact that says by the arguments alone what the result, a field of it or a lent part is; None of another fact."""
    left, *right = parts(fact, "≡")
    is_left = re.fullmatch(r"(?:answer_of )?result|result\.\w+|\w+′", left)
    is_right = len(right) == 1 and re.fullmatch(r"[\w .()+*/%&-]+", right[0]) and "result" not in terms(right[0])
    is_right = is_right and not re.search(r"\.(now|old|new)\b", right[0])
    return (left, right[0]) if is_left and is_right else None


def fields(struct):
    """The names of a struct's fields, or their numbers where they have none."""
    for path in sorted(CRATES.glob("*/src/*.rt")):
        named = re.search(rf"^pub struct {re.escape(struct)} \{{(.*?)^\}}", path.read_text(), re.S | re.M)
        if named:
            return re.findall(r"^ *(?:pub )?(\w+):", named[1], re.M)
        numbered = re.search(rf"^pub struct {re.escape(struct)}\((.*)\);", path.read_text(), re.M)
        if numbered:
            return [str(place) for place in range(len(numbered[1].split(",")))]
    return []


def parameters_of(arguments):
    """Each parameter's name, and how it stands in the head."""
    return {re.findall(r"\w+", argument.split(":")[0])[-1]: argument for argument in arguments.split(",") if argument.strip()}


def contract(path, text):
    """The contract of the function that starts a text, out of its file."""
    _, arguments, result, clauses = HEADER.match(text).groups()
    parameters = parameters_of(arguments)
    said, others = clauses_of(plain(clauses or "", parameters))
    facts = [conjunct for fact in said for conjunct in conjuncts(fact, uses(path))]
    equations = [equation(fact) for fact in facts if equation(fact)]
    besides = [fact for fact in facts if not equation(fact) and COMPARISON.fullmatch(fact)]
    rest = [fact for fact in facts if not COMPARISON.fullmatch(fact)] + others
    wanted = ["result"] if result else []
    if result and any(left.startswith("result.") for left, _ in equations):
        wanted = [f"result.{field}" for field in fields(result)]
    wanted += [f"{name}′" for name, argument in parameters.items() if lent(argument) == "&mut"]
    return Contract(list(parameters), wanted, equations, besides, " ".join(rest))


def statement(file, name):
    """A theorem's parameters, its hypotheses and its conclusion."""
    path = ROOT / file
    found = path.exists() and re.search(rf"^pub {name} : (.*?)\n{name} ", path.read_text(), re.S | re.M)
    return parts(" ".join(found[1].split()), "→") if found else [""]


def equal(pairs):
    """The words of a theorem that each pair is equal."""
    equations = [f"{left} ≡ {right}" for left, right in pairs]
    return equations[0] if len(equations) == 1 else " × ".join(f"({each})" for each in equations)


def laws():
    """What is wrong with each general law, or None."""
    for name, number in LAWS.items():
        parameters, *claims = statement(LAWS_FILE, name)
        groups = re.findall(r"\{(\w+) (\w+) (\w+) : (\w)\}", parameters)
        meant = [equal((r, x) for x, r, s, _ in groups), equal((s, x) for x, r, s, _ in groups), equal((r, s) for x, r, s, _ in groups)]
        is_law = len(set(sum(groups, ()))) == 4 * number and claims == meant
        yield None if is_law else f"{LAWS_FILE}: {name} is not the law of so many equations: {number}"
    is_law = statement(ANSWER_FILE, ANSWER) == ["{n : ℕ} {r s : Result Unit Refusal}", "answer_of r ≡ n", "answer_of s ≡ n", "r ≡ s"]
    yield None if is_law else f"{ANSWER_FILE}: {ANSWER} is not the law of a check"


def own(path, said, file, name):
    """What is wrong with a function's own theorem, or None."""
    parameters, *claims = statement(file, name)
    names = [word for group in re.findall(r"\(([^():]*) : ", parameters) for word in group.split()]
    given, results = names[: len(said.parameters)], names[len(said.parameters) :]
    subjects = list(dict.fromkeys(left.split(".")[0] for left, _ in said.equations))
    cited = terms(" ".join(right for _, right in said.equations)) - set(given)
    if given != said.parameters or len(results) != 2 * len(subjects) or set(results) & cited:
        return f"{name} is not about the parameters and two of each: {', '.join(subjects)}"

    def held_by(results):
        values = dict(zip(subjects, results))
        return equal((re.sub(r"^[\w′]+", lambda word: values[word[0]], left), right) for left, right in said.equations)

    if claims != [held_by(results[::2]), held_by(results[1::2]), equal(zip(results[::2], results[1::2]))]:
        return f"{name} does not say the contract"
    ours, theirs = uses(path), uses(ROOT / file)
    for used in (ours, theirs):
        used.update({"≡": EQUALITY.get(used["≡"], used["≡"])} if "≡" in used else {})
    others = [term for term in sorted(cited | {"≡"}) if term not in ours or ours[term] != theirs.get(term)]
    return f"{name} has another {others[0]}" if others else None


def faults(path, name, text, rows, exceptions):
    """What is wrong with a public function, its row and its theorem."""
    file = str(path.relative_to(ROOT))
    is_excepted = f"[`{name}`](../{file})" in exceptions
    if (file, name) in NO_CONTRACT:
        if not is_excepted:
            yield "has no contract and does not stand under Exceptions"
        return
    if (file, name) in STREAMS:
        head = HEADER.match(text)
        if not is_excepted or not head or clauses_of(plain(head[4] or "", parameters_of(head[2]))) != (STREAMS[file, name], []):
            yield "reads or writes, and has another contract or does not stand under Exceptions"
        return
    if text.startswith("impl From<"):
        if not CONVERSION.search(text):
            yield "does not say what it gives"
        if not any(f"`{name}`" in functions and f"(../{file})" in functions and "[`one`]" in cell for functions, cell in rows):
            yield "has no row with a theorem"
        return
    if not HEADER.match(text):
        yield "has a head in another layout"
    said = contract(path, text)
    lefts = [left for left, _ in said.equations]
    if said.rest:
        yield f"asks or says something else: {said.rest}"
    is_check = lefts == ["answer_of result"]
    if not lefts or sorted(lefts) != sorted(said.wanted) and not (is_check and said.wanted == ["result"]):
        yield f"has equations for: {', '.join(lefts)}; must have: {', '.join(said.wanted)}"
    if said.besides and not is_excepted:
        yield f"says besides, and does not stand under Exceptions: {said.besides[0]}"
    theorems = [link for functions, cell in rows if f"`{name}`" in functions and f"(../{file})" in functions for link in LINK.findall(cell)]
    if not theorems:
        yield "has no row with a theorem"
    for _, law, place in theorems:
        place = place.removeprefix("../")
        if is_check:
            yield None if (law, place) == (ANSWER, ANSWER_FILE) else f"is a check; its row has {law} of {place}"
        elif law not in LAWS:
            yield own(path, said, place, law)
        elif place != LAWS_FILE or LAWS[law] != len(lefts):
            yield f"has so many equations: {len(lefts)}; its row has {law} of {place}"


def contracts():
    """The first thing wrong with each public function, or None."""
    tables, _, exceptions = PAGE.read_text().partition("\n## Exceptions\n")
    rows = [line.split(" | ")[0:3:2] for line in tables.splitlines() if line.startswith("| ")]
    for library in sorted(CRATES.glob("*/src/lib.rt")):
        for path, name, text in public(library):
            fault = next(filter(None, faults(path, name, text, rows, exceptions)), None)
            yield fault and f"{path.relative_to(ROOT)}: {name}: {fault}"


def main():
    passed, failed = 0, 0
    for fault in [*links(), *edits(), *laws(), *contracts()]:
        if fault:
            print(fault)
            failed += 1
        else:
            passed += 1
    print(f"{passed} passed, {failed} failed")
    sys.exit(1 if failed else 0)


if __name__ == "__main__":
    main()
