"""sources: reads the code in crates/NAME/src, for the tools beside it.

A file is split into its items: functions, types, constants, traits and impl blocks, and those hold items in turn. What
stands in no known form stops the reader with an error, so that nothing is passed over unseen.
"""
import functools
import pathlib
import re

ROOT = pathlib.Path(__file__).resolve().parent.parent
CRATES = ROOT / "crates"

HEAD = re.compile(
    r"(?P<public>pub(?:\([^)]*\))? )?"
    r"(?:(?:(?:const|unsafe|async|final|default) )*(?P<extern>extern \"\w*\" )?(?P<fn>fn) (?P<name>\w+)"
    r"|(?P<use>(?:ghost )?use)\b|(?:unsafe )?(?P<impl>impl)\b"
    r"|(?:unsafe )?(?P<kind>struct|enum|union|trait|mod|type|const|static|ghost) (?:mut )?(?P<other>[^\s(){};:=<>,]+))"
)
CLAUSE = r"\b(?:requires|ensures|ghost)\b"


class Item:
    """a function, a type, a constant, a trait, an impl, a `use`, or a ghost field or member

    `head` is what stands between the item's name and the brace of its body, and `inside` what stands in that. What an impl or
    a trait holds has the type's or the trait's name in `owner`, its block in `holder`, and in `folder` the folder of its proofs.
    """

    def __init__(self, found, text, start, body, end):
        self.kind = next(found.group(part) for part in ("fn", "use", "impl", "kind") if found.group(part))
        self.name = found.group("name") or found.group("other") or ""
        self.public, self.exported = bool(found.group("public")), bool(found.group("extern"))
        self.head = text[found.end() : body or end - 1]
        self.inside = text[body + 1 : end - 1] if body else ""
        self.start, self.end, self.owner, self.trait, self.folder, self.holder, self.module, self.items = start, end, "", "", "", None, (), []

    def full(self):
        return f"{self.owner}::{self.name}" if self.owner else self.name

    def signature(self):
        return re.split(rf"\s(?={CLAUSE})", self.head)[0]

    def clauses(self):
        """what a function promises: its clauses, but for a `requires` before the first of another kind"""
        found = re.search(r"\b(?:ensures|ghost)\b", self.head)
        return self.head[found.start() :] if found else ""

    def ghosts(self):
        return [one for one in self.items if one.kind == "ghost"]

    def members(self):
        """the names of a type's fields and cases, and of what a trait or an impl holds"""
        names = {one.name for one in self.items if one.kind not in ("use", "ghost use")}
        if self.kind in ("struct", "union", "enum"):
            clean = re.sub(r"#\[[^\]]*\]", "", blanked(self.inside))
            names |= set(re.findall(r"(?m)(?:^|[{,]) *(?:pub(?:\([^)]*\))? )?(?:ghost )?(\w+): ", clean))
        if self.kind == "enum":
            names |= set(re.findall(r"\w+", outside(clean)))
        return names


def blanked(text):
    """the text with underlines for what its comments and strings hold"""

    def cover(found):
        part = found.group(0)
        if part.startswith(("//", "/*")):
            return re.sub(r"[^\n]", " ", part)
        return part[0] + re.sub(r"[^\n]", "_", part[1:-1]) + part[-1]

    return re.sub(r"//[^\n]*|/\*.*?\*/|\"(?:\\.|[^\"\\])*\"|'(?:\\.[^']*|[^'\\\n])'", cover, text, flags=re.S)


def outside(text):
    """the text without what stands in its brackets"""
    while re.search(r"[([{]", text):
        text = re.sub(r"\([^()\[\]{}]*\)|\[[^()\[\]{}]*\]|\{[^()\[\]{}]*\}", "", text)
    return text


def closing(clean, at):
    """behind the bracket that closes the one at this place"""
    depth = 0
    for found in re.compile(r"[()\[\]{}]").finditer(clean, at):
        depth += 1 if found.group(0) in "([{" else -1
        if depth == 0:
            return found.end()
    raise ValueError(f"nothing closes this bracket: {clean[at:at + 60]!r}")


def ends(clean, found, end):
    """where the body of an item begins, if it has one, and where the item ends"""
    at, kind = found.end(), found.group("kind")
    while at < end:
        if clean[at] == ";" or clean[at] == "," and kind == "ghost":
            return None, at + 1
        if clean[at] == "{":
            block = found.group("impl") or kind in ("struct", "enum", "union", "trait", "mod")
            since = clean[clean.rfind("}", found.end(), at) + 1 or found.end() : at]
            if block or found.group("fn") and not re.search(CLAUSE, since):
                return at, closing(clean, at)
        at = closing(clean, at) if clean[at] in "([{" else at + 1
    raise ValueError(f"this item has no end: {clean[found.start():found.start() + 60]!r}")


def split(text, clean, at, end):
    """the items between two places of a text, each from its attributes on"""
    found = []
    start = None
    while True:
        at = re.compile(r"\s*").match(clean, at, end).end()
        if at == end:
            return found
        if clean.startswith("#", at):
            start = None if clean.startswith("#!", at) else at if start is None else start
            at = closing(clean, clean.index("[", at))
            continue
        head = HEAD.match(clean, at, end)
        if not head:
            raise ValueError(f"what is this item? {text[at:at + 60]!r}")
        body, behind = ends(clean, head, end)
        one = Item(head, text, at if start is None else start, body, behind)
        found.append(one)
        if one.kind in ("impl", "trait", "mod") and body:
            one.items = split(text, clean, body + 1, behind - 1)
        if one.kind == "struct" and body:
            for field in re.compile(r"(?m)^ +(?=(?:pub )?ghost )").finditer(clean, body, behind):
                ghost = HEAD.match(clean, field.end())
                one.items.append(Item(ghost, text, field.end(), *ends(clean, ghost, behind)))
        if one.kind in ("impl", "trait"):
            give_owner(one)
        at, start = behind, None


def give_owner(block):
    """what an impl or a trait holds belongs to its type or to the trait"""
    block.owner = block.folder = block.name
    if block.kind == "impl":
        own, head = re.match(r"(?s)\s*(<.*?(?<!-)>(?= ))?(.*?)(?:\bwhere\b.*)?$", block.head).groups()
        trait, is_for, kind = head.rpartition(" for ")
        own = re.findall(r"[<,]\s*(?:const )?(\w+)", re.sub(r"(?<=\w)<[^<>]*(?:<[^<>]*>[^<>]*)*>", "", own or ""))
        block.owner, block.trait = last(kind), last(trait) if is_for else ""
        block.folder = words(kind, own) + block.trait + words(trait.partition("<")[2], own) if is_for else block.owner
    for one in block.items:
        one.owner, one.trait, one.folder, one.holder = block.owner, block.trait, block.folder, block
        one.public = one.public or bool(block.trait)


def last(path):
    """the name with which a path ends, without its arguments"""
    return re.match(r"[&\s\[(]*(?:'\w+ )?(?:mut )?([\w:]+)", path).group(1).split("::")[-1]


def words(kind, own):
    """the words of a type but for an impl's own parameters, as the kit joins them in the name of the impl's folder"""
    kind = re.sub(r"\w+::|'\w+", "", kind.replace("&", " ref "))
    return "".join(word[0].upper() + word[1:] for word in re.findall(r"\w+", kind) if word not in own)


def read(text, module=()):
    """the items of a file, and behind each block those that it holds"""
    todo = [(one, module) for one in split(text, blanked(text), 0, len(text))]
    own = {one.name for one, _ in todo if one.kind == "trait" and not one.public}
    for held in (held for block, _ in todo if block.kind == "impl" and block.trait in own for held in block.items):
        held.public = False  # nobody outside can name the trait
    while todo:
        one, one.module = todo.pop(0)
        yield one
        inner = one.module + ((one.name,) if one.kind == "mod" else ())
        todo = [(held, inner) for held in one.items] + todo


@functools.lru_cache(None)
def items(crate):
    """the items of a crate"""
    folder, found = CRATES / crate / "src", []
    for path in sorted(folder.glob("**/*.rt")):
        parts = path.relative_to(folder).with_suffix("").parts
        try:
            found += read(path.read_text(encoding="utf-8"), () if parts in (("lib",), ("main",)) else parts)
        except ValueError as fault:
            raise SystemExit(f"{path.relative_to(ROOT)}: {fault}")
    return found


def functions(crate):
    return [one for one in items(crate) if one.kind == "fn"]
