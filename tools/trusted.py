"""Lists the definitions that the clauses of saw_top::run rest on, with the lines to be read. See docs/TRUSTED.md.

Usage: trusted.py              by file: the lines, those for `apply`, and those for `apply` without the built-in families;
                               at the end also without rules and permissions
       trusted.py --names      the same, with the names of the definitions
       trusted.py --laws       the further lines of the laws of saw_top, and of its calls beside `run`
       trusted.py --unreached  the spec files that no clause of a public function, trait or type reaches

A definition is an item of a file crates/CRATE/specs/FILE.antt, or of a module in it, with its equations. It is reached
where a clause of `run` names it, or the model of a type, or a definition that is reached. Lines that count are those of
reached definitions, without `use` lines, blank lines and lines that are comments alone. The reading is by words and
line starts and knows no more of the language.
"""

import os
import re
import sys

import usage

ROOT = os.path.join(os.path.dirname(os.path.abspath(__file__)), "..", "crates")
ITEM = re.compile(r"(?:(abbrev|unfoldable) )?(?:(pub) )?(?:(record|data) )?(\S+)(?= |$)")
WORD = re.compile(r"[^\s(){}\[\],;.]+|[.]")


class Item:
    def __init__(self, file, name, kind, scope):
        self.file, self.name, self.kind, self.scope = file, name, kind, scope
        self.lines = []      # (number, text) of lines that count
        self.also = set()    # constructors


class Spec:
    def __init__(self, crate, name, path):
        self.crate, self.name, self.path = crate, name, path
        self.items = {}      # name -> Item (the first of its name)
        self.all = []
        self.uses = {}       # name here -> (target, name there); target: (crate, file), ('type', crate, module, type) or None
        self.whole = {}      # alias -> (crate, file) or None
        self.modules = []    # header Items of modules

    @property
    def key(self):
        return self.crate + "/" + self.name


def strip_comment(line):
    out = re.sub(r"(^|\s)--(\s.*|$)", "", line)
    return out.rstrip()


def target_of(path):
    parts = path.split(".")
    if parts[0] != "Rattle" or len(parts) < 4 or not parts[1].startswith("saw_"):
        return None
    if parts[2] != "specs":
        return None
    if parts[3] == "declared":
        return ("type", parts[1], parts[4], parts[5])
    return (parts[1], ".".join(parts[3:]))


def add_use(spec_uses, spec_whole, text):
    m = re.match(r"(?:pub )?use (\S+?)\.\{(.*)\}$", text)
    if m:
        target = target_of(m.group(1))
        for part in m.group(2).split(","):
            part = part.strip()
            if not part:
                continue
            there, _, here = part.partition(" as ")
            here = here or there
            spec_uses[here.replace("◌", "").strip()] = (target, there)
        return
    m = re.match(r"(?:pub )?use (\S+)(?: as (\S+))?$", text)
    if m:
        spec_whole[m.group(2) or m.group(1).split(".")[-1]] = target_of(m.group(1))


def parse(crate, name, path):
    spec = Spec(crate, name, path)
    scopes = []              # (indent of what stands inside, header Item or None)
    current, current_indent = None, 0
    with open(path, encoding="utf-8") as f:
        rows = list(enumerate(f.read().split("\n"), 1))
    pending_use, open_header = None, None
    for number, raw in rows:
        line = strip_comment(raw)
        if not line.strip():
            continue
        indent = len(line) - len(line.lstrip())
        text = line.strip()
        if pending_use is not None:
            pending_use += " " + text
            if "}" in text:
                add_use(spec.uses, spec.whole, pending_use)
                pending_use = None
            continue
        if text.startswith("use ") or text.startswith("pub use "):
            if "{" in text and "}" not in text:
                pending_use = text
            else:
                add_use(spec.uses, spec.whole, text)
            continue
        if open_header is not None:
            open_header.lines.append((number, line))
            if text.endswith("where"):
                open_header = None
            continue
        while scopes and indent < scopes[-1][0]:
            scopes.pop()
            current = None
        base = scopes[-1][0] if scopes else 0
        scope = [h for _, h in scopes if h]
        if current is not None and indent > current_indent:
            current.lines.append((number, line))
            continue
        if text.startswith("module _"):
            header = Item(spec, "module", "module", list(scope))
            header.lines.append((number, line))
            spec.modules.append(header)
            scopes.append((indent + 2, header))
            current, open_header = None, None if text.endswith("where") else header
            continue
        if re.match(r"(abbrev |unfoldable )?mutual$", text):
            header = Item(spec, "mutual", "mutual", list(scope))
            header.lines.append((number, line))
            scopes.append((indent + 2, header))
            current = None
            continue
        if re.match(r"infix[lr]? ", text):
            # belongs to the operator that follows
            item = Item(spec, text.split()[-1].replace("◌", ""), "infix", list(scope))
            item.lines.append((number, line))
            spec.all.append(item)
            spec.items[item.name] = item
            current, current_indent = item, indent
            continue
        m = ITEM.match(text)
        starts = m and (m.group(1) or m.group(2) or m.group(3))
        bare = re.match(r"(\S+) :( |$)", text)
        if starts or (bare and (bare.group(1) not in spec.items)):
            name_here = (m.group(4) if starts else bare.group(1)).replace("◌", "")
            kind = m.group(3) if starts and m.group(3) else "function"
            if name_here in spec.items and spec.items[name_here].kind == "infix":
                item = spec.items[name_here]
                item.kind = kind
            else:
                item = Item(spec, name_here, kind, list(scope))
                spec.all.append(item)
                spec.items[name_here] = item
            item.lines.append((number, line))
            current, current_indent = item, indent
            continue
        # an equation
        if current is None:
            # find the item of that name
            head = text.split()[0]
            if head in spec.items:
                current, current_indent = spec.items[head], indent
            else:
                sys.exit(f"{path}:{number}: what is this? {text}")
        current.lines.append((number, line))
    for item in spec.all:
        if item.kind == "data":
            for _, l in item.lines[1:]:
                c = re.match(r"\s+(?:pub )?([^\s:]+) :", l)
                if c:
                    item.also.add(c.group(1))
                    spec.items.setdefault(c.group(1), item)
        if item.kind == "record":
            pass
    return spec


def specs():
    out = {}
    for crate in sorted(os.listdir(ROOT)):
        folder = os.path.join(ROOT, crate, "specs")
        if not crate.startswith("saw_") or not os.path.isdir(folder):
            continue
        for f in sorted(os.listdir(folder)):
            if f.endswith(".antt") and f != "Lib.antt":
                s = parse(crate, f[:-5], os.path.join(folder, f))
                out[(crate, f[:-5])] = s
    return out


def groups(item):
    """The parts of an item within which a bound name hides another: its type, and each equation."""
    lines = item.lines
    if item.kind in ("record", "data"):
        return [("type", " ".join(l.strip() for _, l in lines))]
    out, part = [], []
    indent = len(lines[0][1]) - len(lines[0][1].lstrip())
    for i, (_, l) in enumerate(lines):
        here = len(l) - len(l.lstrip())
        if i > 0 and here <= indent and part:
            out.append(part)
            part = []
        part.append(l.strip())
    out.append(part)
    first = [("type", " ".join(out[0]))]
    return first + [("equation", " ".join(p)) for p in out[1:]]


BINDER = re.compile(r"[({]((?:[^\s(){}:;=.,]+ )+): ")
LAMBDA = re.compile(r"λ ((?:[^\s.(){}]+ ?)+)\.")
LET = re.compile(r"(?:let|;) ([a-z_][\w]*)(?: :[^=;]*)? = ")
FIELD = re.compile(r"(?:^|[{;]\s*)([\w]+) = ")


def bound_in(kind, text, item):
    hidden = set()
    for m in BINDER.finditer(text):
        hidden.update(m.group(1).split())
    for m in LAMBDA.finditer(text):
        hidden.update(m.group(1).split())
    if kind == "equation":
        left = text.split(" = ")[0]
        words = [w for w in WORD.findall(left) if w != "."]
        hidden.update(w for w in words[1:] if re.match(r"[a-z]", w))
        for m in re.finditer(r"\blet ([a-z]\w*)", text):
            hidden.add(m.group(1))
    if item.kind == "record":
        for _, l in item.lines[1:]:
            m = re.match(r"\s+(?:pub )?([^\s:]+) :", l)
            if m:
                hidden.add(m.group(1))
    return hidden


def words_of(text):
    """The names in it, without fields (behind a dot, or before `=` in a record); a name behind an alias as a pair."""
    out = []
    # `{ a = x; b = y }`: fields
    fields = set(m.start(1) for m in FIELD.finditer(text))
    for m in re.finditer(r"\{\s*([\w]+) = |;\s*([\w]+) = ", text):
        fields.add(m.start(1) if m.group(1) else m.start(2))
    tokens = [(m.start(), m.group()) for m in WORD.finditer(text)]
    for i, (at, w) in enumerate(tokens):
        if w == ".":
            continue
        dot_before = i > 0 and tokens[i - 1][1] == "." and tokens[i - 1][0] == at - 1
        if dot_before:
            before_dot = tokens[i - 1][0] - 1
            # `λ x. name`: a space stands behind the dot, so only `x.name` comes here
            if i > 1 and tokens[i - 2][0] + len(tokens[i - 2][1]) - 1 == before_dot:
                out.append((tokens[i - 2][1], w))
            continue
        if at in fields:
            continue
        out.append((None, w))
    return out


def cited(item, books):
    spec = item.file
    found = set()
    scope_hidden = set()
    for header in item.scope:
        for m in BINDER.finditer(" ".join(l for _, l in header.lines)):
            scope_hidden.update(m.group(1).split())
    parts = groups(item) + [("type", " ".join(l.strip() for _, l in h.lines)) for h in item.scope if h.kind == "module"]
    for kind, text in parts:
        hidden = bound_in(kind, text, item) | scope_hidden
        for alias, w in words_of(text):
            if alias is not None:
                if alias in spec.whole and spec.whole[alias]:
                    found.add(("there", spec.whole[alias], w))
                continue
            w = w.replace("◌", "")
            if w in hidden:
                continue
            if w in spec.items:
                if spec.items[w] is not item:
                    found.add(("here", spec.items[w]))
            elif w in spec.uses and spec.uses[w][0]:
                found.add(("there", spec.uses[w][0], spec.uses[w][1]))
    items, types = set(), set()
    for c in found:
        if c[0] == "here":
            items.add(c[1])
        else:
            target, name = passed_on(c[1], c[2].replace("◌", ""), books)
            if target[0] == "type":
                types.add(target[1:])
            elif target in books:
                if name in books[target].items:
                    items.add(books[target].items[name])
                else:
                    print(f"not found: {name} of {target}, named in {spec.key}", file=sys.stderr)
            else:
                print(f"no such file: {target}, named in {spec.key}", file=sys.stderr)
    return items, types


# Where a name is defined that another file passes on by `pub use`, and the type of a constructor that is named by it.
def passed_on(target, name, books):
    if target[0] != "type" and target not in books and "." in target[1]:
        file, _, data = target[1].rpartition(".")
        target, name = (target[0], file), data
    while target[0] != "type" and target in books and name not in books[target].items:
        onward = books[target].uses.get(name)
        if not onward or not onward[0]:
            break
        target, name = onward[0], onward[1].replace("◌", "")
    return target, name


# ---- the sources

def clean_rt(text):
    return re.sub(r"//.*", "", text)


class Source:
    def __init__(self, crate, path):
        self.crate, self.path = crate, path
        self.module = os.path.relpath(path, os.path.join(ROOT, crate, "src"))[:-3].replace("/", ".")
        with open(path, encoding="utf-8") as f:
            self.raw = f.read()
        self.text = clean_rt(self.raw)
        self.uses, self.whole = {}, {}
        for m in re.finditer(r"ghost use ([^;]+);", self.text):
            add_use(self.uses, self.whole, "use " + " ".join(m.group(1).split()))

    def block(self, start):
        """The text from start to the end of the braces that open first."""
        at = self.text.index("{", start)
        depth = 0
        for i in range(at, len(self.text)):
            if self.text[i] == "{":
                depth += 1
            elif self.text[i] == "}":
                depth -= 1
                if depth == 0:
                    return self.text[start:i + 1]
        return self.text[start:]

    def names(self, text):
        """What the clauses of this text name."""
        found = set()
        for alias, w in words_of(" ".join(text.split())):
            if alias is not None:
                if alias in self.whole and self.whole[alias]:
                    found.add((self.whole[alias], w))
                continue
            w = w.replace("◌", "")
            if w in self.uses and self.uses[w][0]:
                found.add(self.uses[w])
        return found


def sources():
    out = []
    for crate in sorted(os.listdir(ROOT)):
        folder = os.path.join(ROOT, crate, "src")
        if not os.path.isdir(folder):
            continue
        for base, _, files in os.walk(folder):
            for f in sorted(files):
                if f.endswith(".rt"):
                    out.append(Source(crate, os.path.join(base, f)))
    return out


def contract(source, name):
    """The clauses of a function."""
    m = re.search(r"\bfn " + name + r"\b", source.text)
    text = source.text[m.start():]
    end = re.search(r"\n\{|\n    \{|;\n|\{\}\n", text)
    body = text[:end.start()] if end else text
    at = re.search(r"\b(requires|ensures)\b", body)
    return body[at.start():] if at else ""


def resolve(names, books):
    items, types = set(), set()
    for target, name in names:
        target, name = passed_on(target, name.replace("◌", ""), books)
        if target[0] == "type":
            types.add(target[1:])
        elif target in books and name in books[target].items:
            items.add(books[target].items[name])
        else:
            print(f"not found: {name} of {target}", file=sys.stderr)
    return items, types


def closure(start, books, without=()):
    reached, types, todo = set(), set(), list(start)
    while todo:
        item = todo.pop()
        if item in reached or (item.file.key + ":" + item.name) in without:
            continue
        reached.add(item)
        more, more_types = cited(item, books)
        types |= more_types
        todo.extend(more)
    return reached, types


def counted(items):
    """file key -> the set of numbers of lines that count"""
    out = {}
    for item in items:
        rows = out.setdefault(item.file.key, set())
        rows.update(n for n, _ in item.lines)
        for h in item.scope:
            rows.update(n for n, _ in h.lines)
    return out


def whole_count(spec):
    rows = set()
    for item in spec.all + spec.modules:
        rows.update(n for n, _ in item.lines)
    return len(rows)


def type_lines(types, srcs):
    """(crate, module, type) -> (file, lines of the declaration, lines of its model)"""
    out = {}
    for crate, module, name in sorted(types):
        for s in srcs:
            if s.crate == crate and s.module.split(".")[-1] == module:
                m = re.search(r"^(?:pub(?:\(crate\))? )?(struct|enum|trait) " + name + r"\b", s.text, re.M)
                if not m:
                    continue
                if m.group(1) == "struct" and re.match(r"[^{(;]*;", s.text[m.start():]):
                    decl = s.text[m.start():s.text.index(";", m.start())]
                else:
                    decl = s.block(m.start())
                decl = re.sub(r"#\[[^\]]*\]", "", decl)
                n = len([l for l in decl.split("\n") if l.strip()])
                mm = re.search(r"^impl(?:<[^{]*?>)? Model for " + name + r"\b", s.text, re.M)
                model = len([l for l in s.block(mm.start()).split("\n") if l.strip() and "ghost use" not in l]) if mm else 0
                out[(crate, module, name)] = (os.path.relpath(s.path, os.path.join(ROOT, "..")), n, model, decl, s)
                break
        else:
            print(f"no declaration: {crate} {module} {name}", file=sys.stderr)
    return out


def type_closure(types, srcs, books):
    """With the types that their declarations name, and what their models name."""
    by_name = {}
    for s in srcs:
        for m in re.finditer(r"^(?:pub(?:\(crate\))? )?(struct|enum) (\w+)", s.text, re.M):
            by_name.setdefault(m.group(2), []).append((s.crate, s.module.split(".")[-1], m.group(2)))
    done, todo, items = {}, set(types), set()
    while todo:
        new = type_lines(todo, srcs)
        done.update(new)
        todo = set()
        for (crate, module, name), (_, _, model, decl, s) in new.items():
            # names of variants and fields are no types
            inside = re.sub(r"(?m)^\s*(?:pub(?:\(crate\))? )?\w+(?=\s*[,({:]|$)", "", decl.split("{", 1)[1] if "{" in decl else "")
            inside = re.sub(r"[{,]\s*\w+:", " ", inside)
            for w in set(re.findall(r"\b[A-Z]\w*", inside)):
                cands = by_name.get(w, [])
                same = [c for c in cands if c[0] == crate]
                pick = same if same else [c for c in cands if re.search(r"use " + c[0] + r"::[^;]*\b" + w + r"\b", s.text)]
                for c in pick[:1]:
                    if c not in done:
                        todo.add(c)
            mm = re.search(r"^impl(?:<[^{]*?>)? Model for " + name + r"\b", s.text, re.M)
            if mm:
                block = s.block(mm.start())
                uses, whole = dict(s.uses), dict(s.whole)
                for u in re.finditer(r"ghost use ([^;]+);", block):
                    add_use(uses, whole, "use " + " ".join(u.group(1).split()))
                text = re.sub(r"ghost use [^;]+;", "", block)
                keep = s.uses, s.whole
                s.uses, s.whole = uses, whole
                got, more = resolve(s.names(text), books)
                s.uses, s.whole = keep
                items |= got
                todo |= {t for t in more if t not in done}
    return done, items


# What only some commands need: where these definitions are not followed, the rest is what `apply` needs.
OTHERS = {
    "generate": ["saw_generate/Streams:stream", "saw_top/Headline:Generates", "saw_top/Headline:WritesBy",
                 "saw_top/Command:generate_by"],
    "publish": ["saw_top/Publishing:candidate_text", "saw_top/Publishing:candidate_status",
                "saw_top/Publishing:losses_text", "saw_top/Publishing:parent_at", "saw_top/Publishing:publication_at",
                "saw_top/Answers:batches_with", "saw_top/Command:publish_by", "saw_top/Headline:MeetsClashBehind"],
    "state": ["saw_top/Listing:listing", "saw_top/Listing:listing_status", "saw_top/Command:state_by"],
    "receipts": ["saw_top/Listing:receipts_text", "saw_top/Listing:receipts_status", "saw_top/Command:receipts_by"],
    "status": ["saw_top/Listing:batch_text", "saw_top/Listing:batch_status", "saw_top/Command:status_by"],
    "prove": ["saw_top/Listing:proof_text", "saw_top/Listing:proof_status", "saw_top/Command:prove_by"],
    "events": ["saw_top/Listing:events_text", "saw_top/Listing:events_status", "saw_top/Command:events_by"],
    "check": ["saw_top/Answers:IsAnswerTo", "saw_top/Claims:nodes_of", "saw_top/Headline:ChecksClaim",
              "saw_top/Command:check_by"],
    "--attest": ["saw_verify/Lists:attests", "saw_verify/Lists:first_bad_line"],
}
FAMILIES = {
    "IntegerKey": ["saw_intkey/Actions:next"],
    "XO": ["saw_xo/Actions:next"],
    "Settings": ["saw_settings/Actions:next"],
    "Identity": ["saw_identity/Actions:next"],
}
# What rules and permissions of the ledger demand of a block.
POLICIES = {"saw_top/World:governed"}
LAWS = [("BranchLaws", "MapBehindIsBranch"), ("BranchLaws", "EventsLeaveState"), ("BuiltInLaws", "BuiltInTell"),
        ("TellingLaws", "AllIsTold"), ("CandidateLaws", "CandidateIsAccepted"), ("GeneratedLaws", "GeneratedStreamIsCommitted"),
        ("Laws", "FramesAreRead"), ("OptionLaws", "OrderOfOptionsDoesNotShow")]
CALLS = [("processor", "run_processor"), ("opening", "listen_wish"), ("beside", "apply_beside"), ("hosting", "run_live")]


def reach(start, types, srcs, books, without=()):
    """The definitions that are reached from these, and the declarations of types that they name."""
    reached, more = closure(start, books, without)
    types = set(types) | more
    while True:
        declared, items = type_closure(types, srcs, books)
        items = {i for i in items if i.file.key + ":" + i.name not in without}
        if items <= reached:
            return reached, declared
        again, more = closure(items - reached, books, without)
        reached |= again
        types |= more


def called(name, srcs, books, module="top"):
    source = next(s for s in srcs if s.crate == "saw_top" and s.module == module)
    return resolve(source.names(contract(source, name)), books)


def total(lines):
    return sum(len(rows) for rows in lines.values())


def type_total(declared):
    return sum(n + model for _, n, model, _, _ in declared.values())


def table(srcs, books, names):
    start, types = called("run", srcs, books)
    cut = {f: set(ds) for f, ds in {**OTHERS, **FAMILIES}.items()}
    every = set().union(*cut.values())
    known = {i.file.key + ":" + i.name for spec in books.values() for i in spec.all}
    for name in sorted((every | POLICIES) - known):
        print(f"no such definition: {name}", file=sys.stderr)
    others = set().union(*(cut[f] for f in OTHERS))
    reached, declared = reach(start, types, srcs, books)
    lines = counted(reached)
    for_apply, apply_types = reach(start, types, srcs, books, others)
    plain, plain_types = reach(start, types, srcs, books, every)
    apply_lines, plain_lines = counted(for_apply), counted(plain)
    bare_lines = counted(reach(start, types, srcs, books, every | POLICIES)[0])
    print(f"{'file':32} {'lines':>6} {'apply':>6} {'plain':>6}  of the whole file")
    for key in sorted(lines):
        spec = books[tuple(key.split("/"))]
        print(f"{key:32} {len(lines[key]):6} {len(apply_lines.get(key, ())):6} {len(plain_lines.get(key, ())):6} {whole_count(spec):6}")
        if names:
            print("      " + " ".join(i.name for i in spec.all if i in reached))
    print(f"{len(lines)} files, {len(reached)} definitions: {total(lines)} lines; apply {total(apply_lines)} of {len(apply_lines)}"
          f" files; plain {total(plain_lines)} of {len(plain_lines)} files; without rules and permissions, too,"
          f" {total(bare_lines)} of {len(bare_lines)}")
    for f in OTHERS:
        more = total(counted(reach(start, types, srcs, books, others - cut[f])[0])) - total(apply_lines)
        print(f"  {f}: {more} lines besides those for apply")
    for f in FAMILIES:
        more = total(counted(reach(start, types, srcs, books, every - cut[f])[0])) - total(plain_lines)
        print(f"  {f}: {more} lines besides the plain ones")
    print()
    for (crate, _, name), (path, n, model, _, _) in sorted(declared.items()):
        print(f"{name:25} {path:45} {n:4} {model:4}")
    print(f"{len(declared)} types: {type_total(declared)} lines; apply {type_total(apply_types)}, plain {type_total(plain_types)}")


def further(srcs, books):
    base = counted(reach(*called("run", srcs, books), srcs, books)[0])
    starts = [(name, [books[("saw_top", file)].items[name]], set()) for file, name in LAWS]
    starts += [(name, *called(name, srcs, books, module)) for module, name in CALLS]
    for name, items, types in starts:
        lines = counted(reach(items, types, srcs, books)[0])
        more = {k: len(rows - base.get(k, set())) for k, rows in lines.items() if rows - base.get(k, set())}
        print(f"{name}: {total(lines)} lines, {sum(more.values())} besides: " + ", ".join(f"{k} {n}" for k, n in sorted(more.items())))


def public_clauses(srcs, books):
    """What clauses of public functions, of traits and of public types name."""
    names = set()
    for s in srcs:
        if not s.crate.startswith("saw_"):
            continue
        for m in re.finditer(r"^( *)pub (?:const )?fn (\w+)", s.text, re.M):
            text = s.text[m.start():]
            end = re.search(r"\n *\{\n|\n *\{\}|;\n", text)
            body = text[:end.start()] if end else text
            at = re.search(r"\b(requires|ensures)\b", body)
            if at:
                names |= s.names(body[at.start():])
        for m in re.finditer(r"^(?:pub )?trait \w+", s.text, re.M):
            block = s.block(m.start())
            names |= s.names(block)
        for m in re.finditer(r"^impl\b[^{]*", s.text, re.M):
            block = s.block(m.start())
            ghosts = " ".join(re.findall(r"ghost \w+ = \{(?:[^{}]|\{[^{}]*\})*\}", block))
            names |= s.names(ghosts)
            if " for " in m.group():
                names |= s.names(" ".join(re.findall(r"\b(?:requires|ensures)\b[^\n]*(?:\n(?!    \{)[^\n]*)*", block)))
        for m in re.finditer(r"^pub (struct|enum) \w+", s.text, re.M):
            names |= s.names(s.block(m.start())) if "{" in s.text[m.start():] else set()
    return names


def unreached(srcs, books):
    start, types = resolve(public_clauses(srcs, books), books)
    lines = counted(reach(start, types, srcs, books)[0])
    users = {}
    for s in srcs:
        for target in [t for t, _ in s.uses.values()] + list(s.whole.values()):
            if target and target[0] != "type":
                users.setdefault(target, set()).add(os.path.relpath(s.path, ROOT))
    for key, spec in sorted(books.items()):
        if spec.key not in lines:
            print(f"{spec.key:32} {whole_count(spec):5}  used in src: {', '.join(sorted(users.get(key, []))) or 'no'}")


def main():
    given = usage.words(__doc__, 0, 1, ["--names", "--laws", "--unreached"])
    books, srcs = specs(), sources()
    if "--unreached" in given:
        unreached(srcs, books)
    elif "--laws" in given:
        further(srcs, books)
    else:
        table(srcs, books, "--names" in given)


if __name__ == "__main__":
    main()
