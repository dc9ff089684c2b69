"""Which functions a crate's texts have, by the prover's names, and the same crate with most of their bodies left out."""
import re

# The first line of a function, as `rt fmt` lays it out: of its own, or in an impl.
FUNCTION = re.compile(r"( {4})?(?:pub(?:\([^)]*\))? )?(?:const )?(?:unsafe )?(?:extern \"C\" )?fn (\w+)")
IMPL = re.compile(r"impl\b(?:<[^{]*?>)? *([^{]*)")
TYPE = re.compile(r"^(?:pub(?:\([^)]*\))? )?(?:struct|enum) (\w+)", re.M)
CONSTANT = re.compile(r"(?:pub(?:\([^)]*\))? )?(?:const|static) (\w+):")
TEST_MODULE = re.compile(r"^#\[cfg\(test\)\]\n(?:pub(?:\([^)]*\))? )?mod (\w+);", re.M)


def module_of(path):
    parts = path[len("src/") : -len(".rt")].split("/")
    return [part for part in parts if part not in ("lib", "main", "mod")]


def types_in(texts):
    """The modules that have a type of each name."""
    types = {}
    for path, text in texts.items():
        if path.startswith("src/"):
            for name in TYPE.findall(text):
                types.setdefault(name, []).append(module_of(path))
    return types


def function_at(path, lines, types):
    """The function that the last of these first lines of a file is in, or None. A type's own are called by where it stands."""
    if not path.startswith("src/"):
        return None
    for at in range(len(lines) - 1, -1, -1):
        found = FUNCTION.match(lines[at])
        if found:
            return function_named(path, lines, at, found, types)
        # (what ends at the margin was no function's line)
        if lines[at][:1] == "}" and at < len(lines) - 1:
            return None
    return None


def function_named(path, lines, at, found, types):
    """What the prover calls the function whose first line is this one, or None where it is of no impl."""
    if not found[1]:
        return "::".join([*module_of(path), found[2]])
    owner = owner_of(lines, at)
    return owner and "::".join([*home_of(owner, path, types), impl_name(owner), found[2]])


def owner_of(lines, at):
    """The head of the impl that a line is in, or None."""
    owner = next((IMPL.match(line) for line in reversed(lines[:at]) if line[:1].isalpha()), None)
    return owner and owner[1]


def home_of(head, path, types):
    """The module by which the prover calls an impl in a file: its type's, or the file's own where it is a trait's."""
    own = module_of(path)
    homes = [] if " for " in f" {head}" else types.get(re.match(r"\w+", head)[0], [])
    return own if own in homes or not homes else homes[0]


def impl_name(head):
    """What the prover calls an impl: by its type, and behind that, where it has one, by its trait with what that is of."""
    trait, _, owner = head.rpartition(" for ")
    words = re.findall(r"\w+", re.sub(r"'\w+", "", trait))
    return "".join([re.match(r"\w+", owner)[0], *words])


def body_of(lines, at, margin):
    """The numbers of the lines between which the body of the function at this line stands, or None where it has no body."""
    for begin in range(at, len(lines)):
        line = lines[begin]
        is_head = begin == at or line.startswith(f"{margin})")
        if line == f"{margin}{{" or is_head and line.endswith(" {"):
            return begin, lines.index(f"{margin}}}", begin)
        # (a clause of its contract ends as a body on one line does)
        if line.endswith((";", "{}")) or begin == at and line.endswith(" }") or not line:
            return None
    return None


def bodies_in(texts, types):
    """Each function with a body, free or a type's own: its name, its file, and the lines between which the body stands.
    What is there for tests alone isn't among them."""
    tests = {name for text in texts.values() for name in TEST_MODULE.findall(text)}
    for path, text in texts.items():
        if not path.startswith("src/") or tests & set(module_of(path)):
            continue
        lines = text.split("\n")
        for at, line in enumerate(lines):
            found = FUNCTION.match(line)
            if not found or found[1] and " for " in f" {owner_of(lines, at) or ''}":
                continue
            name, body = function_named(path, lines, at, found, types), body_of(lines, at, found[1] or "")
            if name and body:
                yield name, path, body


def users_of(path, lines, texts, types):
    """The functions whose bodies name the constant that the last of these first lines of a file is in."""
    margin = next((line for line in reversed(lines) if line[:1].isalpha()), "")
    constant = CONSTANT.match(margin)
    if not path.startswith("src/") or not constant:
        return set()
    named = re.compile(rf"\b{constant[1]}\b")
    bodies = ((name, texts[file].split("\n")[begin:end]) for name, file, (begin, end) in bodies_in(texts, types))
    return {name for name, body in bodies if named.search("\n".join(body))}


def emptied(crate, texts, types, functions):
    """The texts with no body but those of these functions. The proof of each other one is a hole, which the prover passes
    under --allow-holes."""
    changed, lines_of = dict(texts), {}
    for name, path, (begin, end) in bodies_in(texts, types):
        if name in functions:
            continue
        lines = lines_of.setdefault(path, texts[path].split("\n"))
        # (the numbers of lines stay)
        lines[begin + 1 : end] = [f"{re.match(' *', lines[end])[0]}    unreachable!()", *[""] * (end - begin - 2)][: end - begin - 1]
        parts = name.split("::")
        for file in ("Answers", "Invariants"):
            changed.pop(f"proofs/{'/'.join(parts)}/{file}.antt", None)
        changed[f"proofs/{'/'.join(parts)}/Proof.antt"] = (
            f"use Rattle.{crate}.proofs.{'.'.join(parts)}.Statement.{{statement}}\n\n"
            f"pub {parts[-1]}_spec : {{M : Type 1}} → statement M\n{parts[-1]}_spec = ?\n"
        )
    for path, lines in lines_of.items():
        changed[path] = "\n".join(lines)
    return changed
