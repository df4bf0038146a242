#!/usr/bin/env python3
"""Counts the places in src/ where the code reads like an older language, and what the proofs hold.

usage: places.py [COMMIT] [--list]     COMMIT: read its files, not the working tree; --list: print each place too

A place is a hit of a rule; what one rule hits, another may hit too. The rules look at the text alone, without comments,
contracts and ghost lines, and see by the indentation where a block ends.
"""
import collections
import difflib
import pathlib
import re
import sys
from subprocess import check_output

ROOT = pathlib.Path(__file__).resolve().parent.parent
READ = re.compile(r"crates/[^/]+/(?:src/.*\.rt|proofs/.*\.antt)")
POINTS = ["own enums, flags, numbers for kinds", "twins", "loops", "by hand", "what travels together", "arrays", "closures by hand"]
SKIPPED = re.compile(r"""(?s)//[^\n]*|b?"(?:\\.|[^"\\])*"|b?'(?:\\.[^']*|[^'\\])'""")
CONTRACT = re.compile(r"(?m)^ *(?:requires|ensures|ghost)\b.*?(?=;?$)")
FACT = re.compile(r"(?m)^ *(?:requires\b[^{\n]*|ghost \w+: )\{ (.*) \}")
LEMMA = re.compile(r"(?m)^(?:pub )?record .*\n(?: .*\n)*|(^ *(?:pub )?[^\s:]+ :(?: |$))")
ITEM = re.compile(r"(?ms)^(?=( *)((?:pub(?:\(\w+\))? )?(?:const |unsafe )*(fn|struct|enum|trait|impl)\b ?(\w*)[^{]*?)"
                  r"(?:;$|\{(?:\}$| ([^\n]*)\}$|\n(.*?)^\1\})))")
TOKEN = re.compile(r"""""|'?\w+|[-=]>|::|&&|\|\||[-+*/%=!<>|&]=|\.\.=?|[^\w\s]""")
KEYWORDS = set("as break const continue crate dyn else enum false fn for if impl in let loop match mod move mut pub ref return "
               "self Self static struct super trait true type unsafe use where while".split())
ARRAY = r"(?m)^ *(?:pub )?\w+: \[.*; (?:\d+|[A-Z]\w+)\],?$"
BIG = r"; (?:1[6-9]|[2-9]\d|\d{3,}|[A-Z][A-Z_]+)\]"
LOOP = r"(?ms)^( *)for (\w+) in [^\[\]{}\n]*?\.\.[^{}\n]*\{\n"
INDEX = r"(?:(?!^\1\}).)*?[\w)\]]\[[^\[\]]*\b\2\b"
CALL = r"(?:(?!^\1\}).)*?[\w>]\([^;{}]*\b\2\b"
# An arm from literals to a variant or to a digit's value, an arm from a variant to a number, and a word compared with a text.
CONVERSION = (r'(?s)\n\s*(?:""|\d\w*)(?:\s*(?:\||\.\.=)\s*(?:""|\d\w*))*\s*=>(?:(?!=>).)*?(?:\b[A-Z]\w*::[A-Z]|\w - "")'
              r"|\b[A-Z]\w*::[A-Z]\w*(?:\s*(?:\([^()]*\)|\{[^{}]*\}))?\)*\s*=>\s*\(?\s*\d|\bsays\(")
HITS = {  # patterns of which each hit is a place
    "1a an arm that only passes a variant on, or unwraps by hand":
        r"\b(?:None|Some\(\w+\)|Ok\((?:[a-z]\w*|\(\))\)|Err\(\w+\))\s*=>\s*(?:return\s+)?(?:Ok|Err|Some|None|true|false)\b",
    "1d a fault in an Option, a Result in a Result": r"\bOption<(?:\w+::)*\w*(?:Fault|Refusal|Error)\w*>|\bResult<\s*Result<",
    "1e an error or kind as a bare number": r"\bResult<(?:[^<>]|<[^<>]*>)*, u(?:8|16|32|64)>",
    "1f an `if let` that only passes a variant on":
        r"\bif let (?:Some|Ok|Err)\(\w+\) = [^{};]*\{\s*return (?:Ok|Err|Some)\b[^{};]*;\s*\}",
    "1g a refusal made of a bare number": r"\b\w*(?:Refusal|Fault|Error)::\w+\(\s*\d",
    "3a a loop over a range whose variable is an index": rf"{LOOP}(?={INDEX})",
    "3c `while` and `loop`": r"\b(?:while|loop)\b",
    "3d any other loop over a range that hands its variable to a call": rf"{LOOP}(?!{INDEX})(?={CALL})",
    "4c an impl by hand of what can be derived":
        r"\bimpl\b[^{};]*?\b(?:PartialEq|PartialOrd|Ord|Clone|Copy|Hash|Default|Debug)(?:<[^{}]*>)? for\b",
    "4d a look-up by hand: a bound, then the index":
        r"\bif \(?(\w+)(?: as usize)?\)? < [^{}]+\{\s*(?:Some\()?[&*]?[\w.]+\[\1(?: as usize)?\][^{};]*;?\s*\}",
    "4e a bound by hand before a cast": r"> (?:255|65535|4294967295|u\d+::MAX)\b",
    "7b a match whose every arm calls a method of self with the same arguments":
        r"\bmatch [^\n{]*\{\n[^=]*=> self\.\w+(\([^()]*\)),\n(?:[^=]*=> self\.\w+\1,\n)+\s*\}",
    "7c `fn` pointers and `dyn`": r"\bfn\s*\(|\bdyn\s",
}
ITEMS = {  # patterns by which a function or a struct is one place
    "1c a struct with a `bool` beside an Option or a collection":
        ("struct", r"(?s)\A(?=.*(?:\[|\b(?:Option|Vec|VecDeque|String|(?:Hash|BTree)(?:Map|Set))\b)).*: bool\b"),
    "3b a function with a counter by hand":
        ("fn", r"(?s)\blet mut (\w+)(?:: \w+)? = [01](?:_?[iu]\w+)?;.*(?:\b\1 \+= 1;|\b\1 = \1(?: \+ 1|\.\w+_add\(1\)))"),
    "4b a function with arithmetic of bytes": ("fn", r"\b256 \*|[*/%] 256\b|\b65536\b|<< 8\b|>> 8\b"),
    "6c a function that indexes two lists by the same variable": ("fn", r"(?s)\b(\w+)\[([a-z]\w*)\b.*\b(?!\1\b)\w+\[\2\b"),
}


class File:
    def __init__(self, path, text):
        self.path, self.crate, self.lines, self.items = path, path.split("/")[1], text.split("\n"), []
        bare = SKIPPED.sub(lambda found: "" if found[0][0] == "/" else '""' + "\n" * found[0].count("\n"), text)
        self.facts = [(found.start(), found[1]) for found in FACT.finditer(bare)]
        self.code = CONTRACT.sub(lambda found: " " * len(found[0]), bare)
        for found in ITEM.finditer(self.code):
            self.items.append(Item(self, found))

    def place(self, offset):
        line = self.code.count("\n", 0, offset)
        return f"{self.path}:{line + 1}", self.lines[line].strip()

    def hits(self, pattern, span=(0, None)):
        """The places of a pattern, without the blanks at its front."""
        return [self.place(m.end() - len(m[0].lstrip())) for m in re.compile(pattern).finditer(self.code[: span[1]], span[0])]


class Item:
    """A function, struct, enum, trait or impl; its trait is its own, or that of the block that it stands in."""

    def __init__(self, file, found):
        self.file, self.start, self.kind, self.name = file, found.start(2), found[3], found[4]
        self.at = file.place(self.start)[0]
        self.span = max(found.span(5), found.span(6), (found.end(2), found.end(2)))
        self.head, self.body = " ".join(found[2].split()), file.code[slice(*self.span)]
        self.is_test = file.code[: self.start].rstrip().endswith("#[test]")
        around = [i.trait for i in file.items if i.kind in ("trait", "impl") and i.span[0] <= self.start < i.span[1]]
        own = re.match(r"(?:pub )?trait (\w+)|impl\b.*?\b(\w+)(?:<.*>)? for ", self.head)
        self.trait = own[1] or own[2] if own else around[-1] if around else None
        words = TOKEN.findall(self.head + self.body)
        self.tokens = ["0" if w[0] in '"0123456789' else "x" if re.match(r"'?\w", w) and w not in KEYWORDS else w for w in words]

    def members(self):
        """The fields of a struct, the variants of an enum, the parameters of a function: without lifetimes and `pub`."""
        opened = re.search(r" \w+(?:<.*?>)?\((.*)", self.head)
        text = self.body if self.kind != "fn" and self.body else opened[1] if opened else ""
        depth, found = 0, [""]
        for c in re.sub(r"'\w+ ?|#\[[^\]]*\]|\bpub(?:\(\w+\))? |->", "", text):
            depth += (c in "([{<") - (c in ")]}>")
            if depth < 0:
                break
            found = found + [""] if c == "," and depth == 0 else found[:-1] + [found[-1] + c]
        return [re.sub(r",( [)}])", r"\1", " ".join(part.split())) for part in found if part.strip()]

    def alike(self, other):
        a, b = self.tokens, other.tokens
        near = self.file.crate == other.file.crate and abs(len(a) - len(b)) <= 0.15 * max(len(a), len(b))
        return near and difflib.SequenceMatcher(None, a, b, autojunk=False).ratio() >= 0.93


def named(items, text=""):
    """The place of the first of a group, with those of all."""
    return items[0].at, text + " = ".join(f"{item.name} ({item.at})" for item in items)


def groups(items, same):
    """The place of each group of two and more that are joined by likeness."""
    found = []
    for item in items:
        near = [group for group in found if any(same(other, item) for other in group)]
        found = [group for group in found if group not in near] + [sum(near, []) + [item]]
    return [named(group) for group in found if len(group) > 1]


class Rules:
    """The rules that are more than a pattern; each begins with what it counts."""

    def __init__(self, files):
        self.files = files

    def every(self, kind):
        return [item for file in self.files for item in file.items if item.kind == kind]

    def rule_1b(self):
        """an enum of the shape of Option or Result: two variants of one value each, or one empty and else one of one type"""
        for item in self.every("enum"):
            held = [re.sub(r"^\w+ ?", "", variant) for variant in item.members()]
            values = [h for h in held if h[:1] in ("(", "{")]
            option = len(values) + 1 == len(held) and len(set(values)) == 1
            if not any("," in h for h in values) and (option or len(values) == len(held) == 2):
                yield item.at, f"{item.head} {{ {', '.join(item.members())} }}"

    def rule_2a(self):
        """a group of functions of one crate, of two lines or more, that are alike but for names and literals"""
        return groups([f for f in self.every("fn") if f.body.count("\n") >= 2 and not f.is_test], Item.alike)

    def rule_2b(self):
        """a group of structs with the same list of field types"""
        types = {s: [member.split(": ")[-1] for member in s.members()] for s in self.every("struct")}
        return groups([s for s in types if len(types[s]) > 1], lambda s, t: types[s] == types[t])

    def rule_4a(self):
        """numbers, bytes or words turned into variants or values by hand, or back"""
        for f in self.every("fn"):
            hits = f.file.hits(CONVERSION, f.span)
            yield from [(f.at, f.head)] if len(hits) > 1 else [hit for hit in hits if "says(" in hit[1]]

    def rule_5a(self):
        """a `requires` or ghost fact that three or more functions or structs of one crate state"""
        stated = collections.defaultdict(list)
        for file in self.files:
            for start, fact in file.facts:
                key = file.crate, re.sub(r"\b[a-z]\w*(?:\.\w+)+", "_", fact)
                stated[key].append([item for item in file.items if item.start < start][-1])
        return [named(items, f"{fact}: ") for (_, fact), items in stated.items() if len(set(items)) > 2]

    def rule_5b(self):
        """a run of three or more parameters of the same names and types in two or more functions of one crate"""
        users = collections.defaultdict(list)
        for f in self.every("fn"):
            taken = [member for member in f.members() if not member.endswith("self")]
            for a, b in [(a, b) for b in range(len(taken) + 1) for a in range(b - 2)]:
                users[f.file.crate, ", ".join(taken[a:b])].append(f)
        runs = [key for key in users if len({(f.trait, f.name) if f.trait else f for f in users[key]}) > 1]
        return [named(users[c, r], f"{r}: ") for c, r in runs if not any(c == d and r != q and r in q for d, q in runs)]

    def rule_6a(self):
        """a fixed array with its count beside it"""
        count = r"\b(?:\w+_)?(?:count|len|length|used|size|slots): [iu](?:8|16|32|64|size)\b"
        return [hit for s in self.every("struct") if re.search(count, s.body) for hit in s.file.hits(ARRAY, s.span)[:1]]

    def rule_6b(self):
        """any other field or local of a fixed array of 16 or more"""
        fields = [hit for s in self.every("struct") for hit in s.file.hits(ARRAY, s.span) if re.search(BIG, hit[1])]
        local = [hit for file in self.files for hit in file.hits(rf"\blet (?:mut )?\w+(?:: | = )\[[^=\n]*{BIG}")]
        return [hit for hit in fields + local if hit not in self.rule_6a()]

    def rule_7a(self):
        """an impl of a trait whose only function takes one value and gives a bool"""
        one = r"(?s)\A(?!.*\bfn\b.*\bfn\b).*\(&self, \w+: [^,()]+\)\s*-> bool"
        traits = [trait.name for trait in self.every("trait") if re.search(one, trait.body)]
        return [(item.at, item.head) for item in self.every("impl") if item.trait in traits]

    def rows(self):
        """What each rule counts, and its places."""
        for text, pattern in HITS.items():
            yield text, [hit for file in self.files for hit in file.hits(pattern)]
        for text, (kind, pattern) in ITEMS.items():
            yield text, [(item.at, item.head) for item in self.every(kind) if re.search(pattern, item.body)]
        for name in [name for name in dir(self) if name.startswith("rule_")]:
            yield f"{name[5:]} {getattr(self, name).__doc__}", list(getattr(self, name)())


def proof_rows(texts):
    """Each measure of the proofs, crate by crate, and its sum."""
    count = collections.defaultdict(collections.Counter)
    for path, text in texts.items():
        crate, folder, *rest = path.split("/")[1:]
        if folder == "proofs":
            count["files below proofs/"][crate] += 1
            count["lines of these"][crate] += text.count("\n")
            count["`Answers.antt` files"][crate] += rest[-1] == "Answers.antt"
            count["lemmas in the files directly below proofs/"][crate] += sum(map(bool, LEMMA.findall(text))) * (len(rest) == 1)
    return [(f"{text}: " + ", ".join(f"{c} {n}" for c, n in of.items()), sum(of.values())) for text, of in count.items()]


def read(commit):
    """The texts of src/ and proofs/ of all crates, by path."""
    if not commit:
        paths = sorted(path.relative_to(ROOT).as_posix() for path in ROOT.glob("crates/**/*.*t"))
        return {path: (ROOT / path).read_text(encoding="utf-8") for path in paths if READ.fullmatch(path)}
    git = ["git", "-C", ROOT]
    paths = check_output([*git, "ls-tree", "-r", "--name-only", commit], encoding="utf-8").split("\n")
    return {path: check_output([*git, "show", f"{commit}:{path}"], encoding="utf-8") for path in paths if READ.fullmatch(path)}


def main():
    texts = read("".join(word for word in sys.argv[1:] if word != "--list"))
    found = sorted(Rules([File(path, text) for path, text in texts.items() if path.endswith(".rt")]).rows())
    print("| kind | what is counted | places |\n| --- | --- | ---: |")
    for point, title in enumerate(POINTS, 1):
        places = [row for row in found if row[0][0] == str(point)]
        for text, hits in places:
            print(f"| {text[:2]} | {text[3:]} | {len(hits)} |")
        print(f"| {point} | **{title}, in all** | **{sum(len(hits) for _, hits in places)}** |")
    for text, n in proof_rows(texts):
        print(f"| 8 | proofs: {text} | {n} |")
    if "--list" in sys.argv:
        for text, hits in found:
            print(f"\n{text}: {len(hits)}", *map(": ".join, hits), sep="\n")


main()
