#!/usr/bin/env python3
"""Brings the repository's own ghost names to the spelling of today's Rattle (CONTRACT_STYLE.md, "Names").

usage: python3 tools/respell.py [--check] [--report] [--edits]        at the top of the repository

One dictionary, old name to new name, is built from what crates/*/specs/**/*.antt and crates/*/proofs/**/*.antt declare
and bind, and is applied token by token, everywhere alike: what comes out is the same text with other names. The rules:

  type      a record, a data type, a function into Type: UpperCamel, without dashes
  lemma     a declaration with a dash in its name whose type is no Type. A dash stays where it joins two names that the
            lemma's own statement has: the lemma's name begins with one, and one follows the dash (as in get_or-set_same,
            plain words may hang on). A name is here a definition (the repository's or the kit's), a type or a variant
            with its capital, or the word of an operator (SYMBOLS). Else the dash becomes _. A name that is declared more than
            once keeps a dash only where all its declarations keep it, and one that is also a local or a field none
  all else  functions, fields, constructors, `where` functions, locals, modules' short names (`as x`): snake_case
  prime     one, '

Left alone: names of the kit; modules' names and paths; what stands behind `tie.`; behind another dot what is neither a
field nor a declaration of the repository's own (so Rattle's names of steps); the names that a Proof.antt declares at its
top, in that file, unless another file imports them; NAME-spec everywhere; names that Rattle makes of a loop (MADE).

Turned: code of .antt files; clauses and `ghost use` of crates/*/src/**/*.rt; between backticks, the comments of both and
the papers (for these only what is declared, no locals). Strings and Rust code stay.

It was run once, behind the kit's port.py (docs/PORT.md), on proofs in the older form. In today's form a proof answers
goals, whose names are Rattle's, so it refuses a tree that has an Answers.antt (exit 2, nothing written).
It refuses (exit 1, nothing written) where a new name falls together with another name of a file that has it, with a word of
antt, or where a function's parameter would hide it in a .rt file. OVERRIDE mends that.
--check writes nothing. --report lists the dictionary and the new names that are also names of Rattle functions.
--edits, after that, turns must-fail/*.edit: an old: line that is not in its file today, but was in it at OLD, becomes what
that text has become, and its new: line follows. 'look:' shows what it turned by place and not by the words alone, 'left:' what it cannot turn.
"""

import collections
import difflib
import glob
import os
import re
import subprocess
import sys

# old name -> new name, where the rules' name falls together with another, or is no good
OVERRIDE = {
    "basis-by": "basis_by_lem",  # basisBy is basis_by; a lemma that would have its function's name ends in _lem
    "plain-run": "plain_run_lem",  # plainRun is plain_run
    "is-nan": "is_nan_lem",  # the kit has is_nan
    "nan-bits": "to_bits-nan",  # the kit has nan_bits; this is what to_bits makes of nan
    "J": "j_matrix",  # a list's index is j
    "AllZero": "way_all_zero",  # the three constructors of Way; there are functions reflected, allZero, tooSmall
    "Reflected": "way_reflected",
    "TooSmall": "way_too_small",
}

# names that are spelled well and give way to another's new name, as long as that other one is still to be turned
GIVES_WAY = {
    "run_fits": ("runFits", "run_fits_lem"),  # a lemma of door about runFits
}

# names of one crate alone: elsewhere the same letters are another's (a Rust variant, a relation)
SCOPED = {
    "crates/outcomes/": {
        "Decompose": "call_decompose", "Real": "call_real", "Complex": "call_complex",  # constructors of Call
        "Passes": "says_passes", "Read": "says_read", "Refused": "says_refused",  # constructors of Says
    },
    "crates/scalar/": {"X": "big_x", "R": "big_r"},  # numbers, beside the floats x and r
    "crates/decomposition/": {"shaped": "Shaped"},  # a type; elsewhere a field
}

OLD = "f995f77"  # the commit before port.py

# names that Rattle makes and that proofs bind in their places
MADE = re.compile(r"(?:i|j|k|icol|jcol)-end|\S+-spec")

SYMBOLS = {
    "≤": "le leb", "≥": "ge", "<": "lt ltb", ">": "gt", "≡": "eq eqb", "==": "eqb eq", "≢": "ne neq", "+": "add plus",
    "*": "mul", "-": "sub", "∸": "sub", "/": "div", "%": "mod", "^": "pow", "++": "append", "¬": "not", "⊥": "absurd",
    "⊕": "fadd", "⊗": "fmul", "⊖": "fsub", "⊘": "fdiv", "!": "at", "∷": "cons", "[]": "nil", "0": "zero", "1": "one", "&&": "and", "||": "or",
}
WORDS = set("""search omega grind simp rw cc record data open use let in elim where module rules arith ground assumption result
    pub abbrev unfoldable pattern axiom unfolding infixl infixr infix mod as of with Type absurd do mutual if then else old new now
    true false tt refl""".split()) - {"of", "then", "old", "new", "now", "result"}

TOKEN = re.compile(r'[^\s(){}.;,@"«»\[\]\\]+')
STOP = r'(?<![^\s(){}.;,@"«»\[\]\\])'
QUIET = re.compile(r'"(?:[^"\\\n]|\\.)*"|' + STOP + r"--[^\n]*(?:\n[ \t]*--[^\n]*)*|\{-.*?-\}", re.S)
SPAN = re.compile(r"`[^`\n]*(?:\n[^`\n]+)?`")
SIG = re.compile(r"^( *)((?:(?:pub|abbrev|unfoldable|pattern|axiom|opaque|private)\s+)*)(" + TOKEN.pattern + r")\s+:(?=\s|$)")
HEAD = re.compile(r"^( *)((?:(?:pub|abbrev|unfoldable)\s+)*)(record|data)\s+(" + TOKEN.pattern + r")")
RUST = re.compile(
    r"""//[^\n]*(?:\n[ \t]*//[^\n]*)*|/\*.*?\*/|[bc]?r(#*)".*?"\1|[bc]?"(?:\\.|[^"\\])*"|b?'(?:\\u\{[0-9a-fA-F_]+\}|\\x..|\\.|[^'\\])'|'?\w+|\s+|.""",
    re.S,
)
CLAUSE = re.compile(r"(?:requires|ensures|invariant|decreases)\s*\*?\s*(?:\w+\s*)?\{|ghost\s*(?:\w+\s*(?::\s*(?:(?:owns|lends)\s*)?|=\s*))?\{")
GHOST_USE = re.compile(r"ghost\s+use\b[^;]*;")
USE = re.compile(r"(?m)^[ \t]*(?:ghost )?(?:pub )?use\s+([^\s{;]+?)(?:\.?\{([^}]*)\})?(?:\s+as\s+([^\s;]+))?\s*(?=;|$)")


def read(path):
    with open(path, encoding="utf-8") as f:
        return f.read()


def between(pattern, text, inside, outside):
    out, at = [], 0
    for m in pattern.finditer(text):
        out += [outside(text[at : m.start()]), inside(m)]
        at = m.end()
    return "".join(out + [outside(text[at:])])


def blanked(text):
    """The code alone, each other character a blank."""
    return between(QUIET, text, lambda m: re.sub(r"[^\n]", " ", m[0]), str)


def snake(word):
    w = word.replace("′", "'")
    w = re.sub(r"([A-Z]+)([A-Z][a-z])", r"\1_\2", w)
    w = re.sub(r"([a-z0-9₀-₉])([A-Z])", r"\1_\2", w)
    return w.lower() if not w.isupper() or len(word) > 1 else w.lower()


def camel(word):
    return "".join(p[:1].upper() + p[1:] for p in re.split(r"[-_]", word.replace("′", "'")) if p)


def indent(line):
    return len(line) - len(line.lstrip(" "))


class File:
    """One .antt file: what it declares and binds, and where its names come from."""

    def __init__(self, path):
        self.path, self.text = path, read(path)
        self.code = blanked(self.text)
        self.proof = os.path.basename(path) == "Proof.antt"
        self.top, self.fields, self.constructors, self.types, self.locals = {}, {}, {}, set(), set()
        self.kit, self.own, self.short = set(), set(), set()
        for m in USE.finditer(self.code):
            part = m[1].split(".")
            ours = part[0] == "Rattle" and len(part) > 1 and os.path.isdir(os.path.join("crates", part[1]))
            for item in (m[2] or "").split(","):
                w = item.split()
                if w:
                    (self.own if ours else self.kit).add(w[0])
                    if len(w) == 3:
                        self.short.add(w[2])
            if m[3]:
                self.short.add(m[3])
        lines = USE.sub(lambda m: re.sub(r"[^\n]", " ", m[0]), self.code).split("\n")
        for at, line in enumerate(lines):
            m, h = SIG.match(line), HEAD.match(line)
            if h:
                self.types.add(h[4])
                continue
            if not m or m[3] in ("let", "λ"):
                continue
            depth, say = len(m[1]), [line[m.end():]]
            for more in lines[at + 1 :]:
                if more.strip() and (indent(more) <= depth or re.match(r" *unfolding\b", more)):
                    break
                say.append(more)
            say = " ".join(say)
            holder = ""
            if depth:
                for up in reversed(lines[:at]):
                    if up.strip() and indent(up) < depth:
                        holder = up.strip()
                        break
            if re.search(r"(?:→|^)\s*Type(?:\s+(?:\d+|\S+|\([^()]*\)))?\s*$", say.strip()) and (not depth or holder.startswith("module")):
                self.types.add(m[3])
            elif not depth or re.match(r"(?:pub )?module\b", holder):
                self.top[m[3]] = say
            elif re.match(r"(?:(?:pub|abbrev|unfoldable)\s+)*(?:record|data)\b", holder) or holder.startswith("pub record"):
                (self.constructors if re.search(r"\bdata\b", holder) else self.fields)[m[3]] = say
            else:
                self.locals.add(m[3])


def rust(path):
    """The parts of a .rt file: (kind, text), kinds antt, use, comment, rust."""
    text, parts, at = read(path), [], 0
    while at < len(text):
        m = RUST.match(text, at)
        word, end = m[0], m.end()
        clause = CLAUSE.match(text, at) if word in ("requires", "ensures", "invariant", "decreases", "ghost") else None
        use = GHOST_USE.match(text, at) if word == "ghost" else None
        if use:
            end = use.end()
            parts.append(("antt", use[0]))
        elif clause:
            end, deep = clause.end(), 1
            while deep:
                q = QUIET.match(text, end)
                if q:
                    end = q.end()
                    continue
                deep += {"{": 1, "}": -1}.get(text[end], 0)
                end += 1
            parts += [("rust", clause[0]), ("antt", text[clause.end() : end - 1]), ("rust", "}")]
        else:
            parts.append(("comment" if word[:2] in ("//", "/*") else "string" if word[-1:] == '"' else "rust", word))
        at = end
    return parts


def spoken(statement):
    """The names of a statement: its tokens but for those that it binds and those behind a dot."""
    bound = set()
    for m in re.finditer(r"[({]((?:" + TOKEN.pattern + r"\s+)+):(?=\s)", statement):
        bound |= set(m[1].split())
    for m in re.finditer(r"λ ([^.]*)\.", statement):
        bound |= set(TOKEN.findall(m[1]))
    got = {m[0] for m in TOKEN.finditer(statement) if statement[m.start() - 1 : m.start()] != "."}
    return got - bound


class Names:
    def __init__(self):
        self.files = [File(p) for p in sorted(glob.glob("crates/*/specs/**/*.antt", recursive=True) + glob.glob("crates/*/proofs/**/*.antt", recursive=True))]
        self.kit = set().union(*(f.kit for f in self.files))
        imported = set().union(*(f.own for f in self.files))
        self.stay = {}  # per Proof.antt: its own names at the top
        for f in self.files:
            if f.proof:
                self.stay[f.path] = {w for w in f.top if w not in imported}
        self.types = set().union(*(f.types for f in self.files))
        self.fields = set().union(*(f.fields for f in self.files))
        self.constructors = set().union(*(f.constructors for f in self.files))
        self.tops = collections.defaultdict(list)
        for f in self.files:
            for w, say in f.top.items():
                if not f.proof or w not in self.stay[f.path]:
                    self.tops[w].append((f, say))
        self.declared = set(self.tops) | self.types | self.fields | self.constructors
        # every name that is bound somewhere: what stands free in the code and is none of the kit's
        free = set()
        for f in self.files:
            code = USE.sub(" ", f.code)
            stay = self.stay.get(f.path, ())
            free |= {m[0] for m in TOKEN.finditer(code) if code[m.start() - 1 : m.start()] != "." and m[0] not in stay}
            f.bare = {m[0] for m in TOKEN.finditer(code) if code[m.start() - 1 : m.start()] != "."}
            free |= f.short | f.own
            f.binds = f.locals | self.bound(code)
        self.all_binds = set().union(*(f.binds for f in self.files))
        free |= self.fields | self.constructors
        self.table = {}
        for w in sorted(free):
            if w in self.kit and w not in self.declared:
                continue
            new = self.new(w)
            if new != w:
                self.table[w] = new

    def bound(self, code):
        got = set()
        for m in re.finditer(r"[({]((?:" + TOKEN.pattern + r"\s+)+):(?=\s)", code):
            got |= set(m[1].split())
        for m in re.finditer(r"λ ([^.]*)\.", code):
            got |= set(TOKEN.findall(m[1]))
        for m in re.finditer(r"\blet\s+(" + TOKEN.pattern + ")", code):
            got.add(m[1])
        return got

    def new(self, w):
        if w in OVERRIDE:
            return OVERRIDE[w]
        if w in GIVES_WAY:
            return GIVES_WAY[w][1] if GIVES_WAY[w][0] in self.tops else w
        if any(w in s for s in SCOPED.values()):
            return w
        if MADE.fullmatch(w) or "◌" in w or not re.search(r"[^\W\d_]", w):
            return w
        if w not in self.types and not re.search(r"[A-Z′]|[^\W]-[^\W]", w):
            return w
        if w in self.types:
            return camel(w) if "-" in w or w[:1].islower() else w.replace("′", "'")
        if w[:1].isupper() and w not in self.tops and w not in self.fields and w not in self.constructors:
            return camel(w) if re.search(r"\w-\w", w) and w in self.all_binds else w.replace("′", "'")
        if not re.fullmatch(r"[\w'′₀-₉-]+", w):
            return w
        parts = [p if p in self.types else snake(p) for p in w.split("-")]
        keeps = [all(k) for k in zip(*(self.joins(parts, f, say) for f, say in self.tops[w]))] if w in self.tops else []
        if not keeps or w in self.fields or w in self.all_binds:
            keeps = [False] * (len(parts) - 1)
        out = parts[0]
        for p, k in zip(parts[1:], keeps):
            out += ("-" if k else "_") + p
        return out

    def joins(self, parts, f, say):
        """For each dash between the parts whether it stays."""
        names = set()
        for t in spoken(say):
            names |= set(SYMBOLS.get(t, "").split())
            if t in f.types or t in f.kit or t in f.own or t in f.top:
                names |= {t} if t[0].isupper() else {t, snake(t)}
        begins = lambda words: any("_".join(words[:k]) in names for k in range(1, len(words) + 1))
        words = [re.sub(r"['′]+$", "", p).split("_") for p in parts]
        after = [sum(words[i:], []) for i in range(len(parts))]
        return [begins(after[0]) and begins(after[i]) for i in range(1, len(parts))]

    # ---- applying it

    def code(self, text, stay=(), seen=None, path=False, short=()):
        """A stretch of antt code. Nothing in it is a comment or a string."""

        def item(m):
            at, w = m.start(), m[0]
            before = text[at - 1 : at]
            new = self.turn(w)
            if before == ".":
                head = re.search(r"(" + TOKEN.pattern + r")\.$", text[max(0, at - 200) : at])
                by = head[1] if head else ""
                named = by in short and (w in self.tops or w in self.types)
                if by == "tie" or not named and (w not in self.fields or by in short):
                    return w if w not in self.fields else note(w, w)
            elif w in stay:
                new = w
            return note(new, w)

        def note(new, w):
            if seen is not None:
                seen[new].add(w)
            return new

        def used(m):
            whole, at = m[0], m.start()
            a, b = m.start(1) - at, m.end(1) - at
            return TOKEN.sub(lambda t: plain(t), whole[:a]) + whole[a:b] + TOKEN.sub(lambda t: plain(t), whole[b:])

        def plain(t):
            return note(t[0] if t[0] in stay else self.turn(t[0]), t[0])

        if not path:
            return TOKEN.sub(item, text)
        # the lines of `use` first: the path stays
        out, at = [], 0
        for m in USE.finditer(text):
            out += [self.code(text[at : m.start()], stay, seen, False, short), used(m)]
            at = m.end()
        return "".join(out + [self.code(text[at:], stay, seen, False, short)])

    def turn(self, w):
        return self.scope.get(w) or self.table.get(w, w)

    def within(self, path):
        self.scope = next((s for p, s in SCOPED.items() if path.startswith(p)), {})

    def spans(self, text, only=None):
        """Between backticks; a word that is a Rattle function's too may well mean that one, and stays."""

        def one(t):
            w = t[0]
            return w if only is not None and w not in only or w in self.functions else self.turn(w)

        return SPAN.sub(lambda m: TOKEN.sub(one, m[0].replace("`", "")).join("``"), text)

    def comment(self, text):
        text = self.spans(text)
        letters = [w for w in self.scope if len(w) == 1]
        return re.sub(r"(?<![\w'`.-])(" + "|".join(letters) + r")(?![\w'-])", lambda m: self.scope[m[0]], text) if letters else text

    def antt(self, f, seen=None):
        self.within(f.path)
        stay = self.stay.get(f.path, set())
        return between(QUIET, f.text, lambda m: m[0] if m[0][0] == '"' else self.comment(m[0]), lambda t: self.code(t, stay, seen, True, f.short))

    def rt(self, path, parts, seen=None):
        self.within(path)
        short = {m[3] for k, t in parts if k == "antt" for m in USE.finditer(t) if m[3]}
        code = lambda t: self.code(t, (), seen, True, short)
        how = {
            "antt": lambda t: between(QUIET, t, lambda m: m[0] if m[0][0] == '"' else self.comment(m[0]), code),
            "comment": lambda t: self.spans(t, self.declared),
        }
        return "".join(how.get(k, str)(t) for k, t in parts)


BIT = re.compile(TOKEN.pattern + r"|\S")


class Became:
    """What each stretch of a file's text at OLD is in the file today."""

    def __init__(self, path):
        r = subprocess.run(["git", "show", f"{OLD}:{path}"], capture_output=True)
        self.was, self.now = r.stdout.decode("utf-8", "replace") if r.returncode == 0 else "", read(path) if os.path.isfile(path) else ""
        self.a, self.b = list(BIT.finditer(self.was)), list(BIT.finditer(self.now))
        self.steps = difflib.SequenceMatcher(None, [m[0] for m in self.a], [m[0] for m in self.b], False).get_opcodes()

    def place(self, at):
        """Where today's text of the token 'at' begins."""
        for kind, i1, i2, j1, j2 in self.steps:
            if i1 <= at < i2:
                return j1 + (at - i1) if kind == "equal" or i2 - i1 == j2 - j1 else j1 if at == i1 else min(j2, j1 + at - i1)
        return len(self.b)

    def pairs(self):
        for kind, i1, i2, j1, j2 in self.steps:
            if kind == "replace" and i2 - i1 == j2 - j1:
                yield from ((self.a[i1 + k][0], self.b[j1 + k][0]) for k in range(i2 - i1))

    def turned(self, old, new, word):
        """The two texts of an edit, today. word turns what the edit itself brings in."""
        at = self.was.find(old)
        if at < 0:
            return None
        first = next((k for k, m in enumerate(self.a) if m.start() >= at), None)
        a, b = list(BIT.finditer(old)), list(BIT.finditer(new))
        if first is None or [m[0] for m in a] != [m[0] for m in self.a[first : first + len(a)]]:
            return None
        spot = [self.place(first + k) for k in range(len(a) + 1)]
        text = lambda i, j: self.now[self.b[i].start() : self.b[j - 1].end()] if i < j else ""
        whole, out = text(spot[0], spot[-1]), ""
        for kind, i1, i2, j1, j2 in difflib.SequenceMatcher(None, [m[0] for m in a], [m[0] for m in b], False).get_opcodes():
            piece = text(spot[i1], spot[i2]) if kind == "equal" else word(new[b[j1].start() : b[j2 - 1].end()]) if j1 < j2 else ""
            gap = j1 and b[j1 - 1].end() < b[j1].start() if j1 < len(b) else False
            out += (" " if gap and out and piece else "") + piece
        return whole, out


def edits(check):
    votes = collections.defaultdict(collections.Counter)
    became = {}
    for p in sorted(glob.glob("crates/*/specs/**/*.antt", recursive=True) + glob.glob("crates/*/src/**/*.rt", recursive=True)):
        became[p] = Became(p)
        for a, b in became[p].pairs():
            if re.search(r"[^\W\d_]", a):
                votes[a][b] += 1
    table = {a: c.most_common(1)[0][0] for a, c in votes.items() if re.search(r"[A-Z-]", a) and snake(a).replace("-", "_") == c.most_common(1)[0][0].replace("-", "_")}

    def word(text, path):
        """Text of OLD in today's spelling, by the words alone."""
        own = next((s for p, s in SCOPED.items() if path.startswith(p)), {})
        text = re.sub(r"(?<![^\s(){},])_([^\s_\w(){},]+)_(?![^\s(){},])", "◌\\1◌", text)
        text = re.sub(r"(?<=[\w')]) \.(?=[a-z])", ".", text)
        text = re.sub(r"\(([\w']+(?:\.\w+)+)\)", r"\1", text)
        return TOKEN.sub(lambda m: own.get(m[0]) or OVERRIDE.get(m[0]) or table.get(m[0], m[0]), text)

    changed, left = 0, 0
    for e in sorted(glob.glob("crates/*/must-fail/*.edit")):
        crate, path, lines = e.split("/must-fail/")[0], None, read(e).split("\n")
        for k, line in enumerate(lines):
            if line.startswith("file: "):
                path = os.path.join(crate, line[6:].strip())
            if not line.startswith("old: ") or path is None:
                continue
            old, has = line[5:], k + 1 < len(lines) and lines[k + 1].startswith("new:")
            new = lines[k + 1][4:].removeprefix(" ") if has else ""
            f = became.get(path) or became.setdefault(path, Became(path))
            if f.now.count(old) == 1:
                continue
            got = f.turned(old, new, lambda text: word(text, path))
            if f.now.count(word(old, path)) == 1:
                got = word(old, path), word(new, path)
            elif got:
                print(f"look: {e}: {got[0]!r} -> {got[1]!r}")
            if got is None or "\n" in got[0] or f.now.count(got[0]) != 1 or got[0] == got[1]:
                left += 1
                print(f"left: {e}: {old!r} is not once in {path}" + (f"; nearest: {got[0]!r}" if got else ""))
                continue
            lines[k] = "old: " + got[0]
            if has:
                lines[k + 1] = "new: " + got[1]
        if "\n".join(lines) != read(e):
            changed += 1
            if not check:
                with open(e, "w", encoding="utf-8") as f:
                    f.write("\n".join(lines))
    print(f"respell: {changed} edits turned, {left} lines left")


def main(argv):
    if glob.glob("crates/*/proofs/**/Answers.antt", recursive=True):
        print("respell: the names of this tree are turned already: it has an Answers.antt", file=sys.stderr)
        return 2
    if not os.path.isdir("crates"):
        print("respell: run it at the top of the repository")
        return 2
    names = Names()
    out, bad, clash = {}, [], []
    sources = {p: rust(p) for p in sorted(glob.glob("crates/*/src/**/*.rt", recursive=True))}
    functions = collections.defaultdict(set)
    for path, parts in sources.items():
        for m in re.finditer(r"\bfn\s+(\w+)", "".join(t if k == "rust" else " " for k, t in parts)):
            functions[m[1]].add(path)
    names.functions = functions
    for f in names.files:
        seen = collections.defaultdict(set)
        out[f.path] = names.antt(f, seen)
        bad += [(f.path, new, sorted(old)) for new, old in sorted(seen.items()) if len(old) > 1]
    for path, parts in sources.items():
        seen = collections.defaultdict(set)
        out[path] = names.rt(path, parts, seen)
        bad += [(path, new, sorted(old)) for new, old in sorted(seen.items()) if len(old) > 1]
        code = "".join(t if k == "rust" else " " for k, t in parts)
        hides = set(re.findall(r"(?:[(,{]|\blet|\bmut)\s*(?:mut\s+)?(\w+)\s*:(?!:)", code))
        for new, old in sorted(seen.items()):
            if old != {new} and new in hides:
                bad.append((path, new, sorted(old) + ["a parameter or a field"]))
    for w in sorted(names.table):
        if names.table[w] in WORDS:
            bad.append(("-", names.table[w], [w, "a word of antt"]))
        if names.table[w] in functions:
            clash.append(names.table[w])
    for path in sorted(["README.md", "oracle/README.md", "tools/cited.txt"] + glob.glob("docs/*.md")):
        if os.path.isfile(path):
            names.within(path)
            out[path] = names.spans(read(path), names.declared)
    if "--report" in argv:
        for w in sorted(names.table):
            print(f"{w}\t{names.table[w]}")
        for w in clash:
            print(f"also a Rattle function: {w} ({', '.join(sorted(functions[w]))})")
    for path, new, old in bad:
        print(f"falls together in {path}: {new} <- {', '.join(old)}")
    if bad and "--force" not in argv:
        print(f"respell: {len(bad)} names fall together; nothing written")
        return 1
    changed = 0
    for path in sorted(out):
        if out[path] != read(path):
            changed += 1
            if "--check" not in argv:
                with open(path, "w", encoding="utf-8") as f:
                    f.write(out[path])
    print(f"respell: {len(names.table)} names, {changed} files")
    if "--edits" in argv:
        edits("--check" in argv)
    return 0


if __name__ == "__main__":
    raise SystemExit(main(sys.argv[1:]))
