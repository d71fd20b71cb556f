#!/usr/bin/env python3
"""Brings the repository's own definitions, lemmas, constructors and fields of specs/ and proofs/ to today's spelling.

usage: python3 respell.py [--check] [--pages] [--table FILE]      at the top of a checkout in which port.py ran and was committed

  --check       writes nothing, prints what it would do
  --pages       the names cited in README.md, docs/*.md and checks/ too (give it at the same run as the sources, or at a later one with the FILE that the first run wrote)
  --table FILE  where the table old -> new goes (default docs/RESPELLED.md); a run that finds that file goes by it for the pages

The rule, by what a name stands for:
  fact     what ends in a Type (a record, a data type, a definition to Type 0): UpperCamelCase.         isLockedNow -> IsLockedNow
  function a definition (abbrev, unfoldable, or what has a camel hump): snake_case.                      releaseMark -> release_mark
  field    of a record; constructor of a data type; a definition under `where`: snake_case, no dash.     nothing-else -> nothing_else
  lemma    a declaration without abbrev or unfoldable: its words, apart at dashes, underscores and humps, are read left to right, longest first, as the words of functions (lower-case
           names, the library's too) that its OWN STATEMENT cites. A dash stands between two such names and nowhere else; `_` joins all other words.
           filled-length -> filled-length, step-passed -> step_passed, access-within -> access_within
  capital  another name that begins with a capital (a formula, a short name for a type): UpperCamelCase, as it mostly is.
  proof    of a function F, in proofs/../F/Proof.antt: F_spec, as rt check wants it. All other names of a Proof.antt stay (it is rewritten with today's goal names anyway).
A lemma that falls together with another name gets _lem; every other clash has to stand in CLASHES below, else nothing is written.
"""

import collections
import os
import re
import sys

# ---- clashes, resolved by hand: (module, old name) -> new name. A module is 'crate.specs.M' or 'crate.proofs.M'
CLASHES = {
    ("any_dock.proofs.Laws", "any-dock"): "any_dock_lem",  # the crate's name: checks/promises would read it as the crate
    ("dock.proofs.Works", "plain-works"): "plain_works_lem",
    ("dock.proofs.Works", "robust-works"): "robust_works_lem",
    ("exports.proofs.Left", "records-left"): "records_left_lem",
    ("plain_places.proofs.Laws", "place_read"): "place_read_lem",
    ("record_bytes.proofs.Laid", "owners-from"): "owners_from_lem",
    ("record_bytes.proofs.Tables", "laid-at"): "laid_at_lem",
    ("robust_acquire.proofs.Laws", "acquire-read"): "acquire_read_lem",
    ("robust_calls.proofs.Laws", "acquire-next"): "acquire_next_lem",
    ("robust_calls.proofs.Laws", "borrowed-next"): "borrowed_next_lem",
    ("robust_calls.proofs.Laws", "find-next"): "find_next_lem",
    ("robust_calls.proofs.Laws", "recover-next"): "recover_next_lem",
    ("robust_calls.proofs.Laws", "release-next"): "release_next_lem",
    ("robust_find.proofs.Laws", "find-read"): "find_read_lem",
    ("robust_moves.proofs.Laws", "bump-looked"): "bump_looked_lem",
    ("robust_moves.proofs.Laws", "bump-read"): "bump_read_lem",
    ("robust_moves.proofs.Laws", "cell-after"): "cell_after_lem",
    ("robust_moves.proofs.Laws", "count-looked"): "count_looked_lem",
    ("robust_moves.proofs.Laws", "count-read"): "count_read_lem",
    ("robust_moves.proofs.Laws", "lock-counted"): "lock_counted_lem",
    ("robust_moves.proofs.Laws", "lock-read"): "lock_read_lem",
    ("robust_places.proofs.Laws", "place_read"): "place_read_lem",
    ("robust_recover.proofs.Laws", "recover-read"): "recover_read_lem",
    ("robust_recover.proofs.Laws", "rest-sound"): "rest_sound_lem",
    ("robust_recover.proofs.Laws", "rest_read"): "rest_read_lem",
    ("robust_recover.proofs.Lists", "rest-reads"): "rest_reads_lem",
    ("robust_release.proofs.Laws", "after-bump"): "after_bump_lem",
    ("robust_release.proofs.Laws", "release-read"): "release_read_lem",
    ("robust_unique_index_set.proofs.Numbers", "drain-numbers"): "drain_numbers_lem",
    ("robust_unique_index_set.proofs.Numbers", "setup-numbers"): "setup_numbers_lem",
    ("robust_unique_index_set.proofs.Numbers", "start-numbers"): "start_numbers_lem",
    ("robust_unique_index_set.proofs.Numbers", "step-numbers"): "step_numbers_lem",
    ("stack_order.proofs.Lawful", "stands-next"): "stands_next_lem",
    ("thread_records.proofs.Besides", "death-numbers"): "death_numbers_lem",
    ("thread_records.proofs.Besides", "list-numbers"): "list_numbers_lem",
    ("trace_lines.proofs.Joins", "goes_on"): "goes_on_lem",
    ("trace_turns.proofs.Determined", "lent-in"): "lent_in_lem",
    ("unique_index_set.proofs.Numbers", "setup-numbers"): "setup_numbers_lem",
    ("unique_index_set.proofs.Numbers", "start-numbers"): "start_numbers_lem",
    ("unique_index_set.proofs.Numbers", "step-numbers"): "step_numbers_lem",
    ("unique_index_set.proofs.Numbers", "drain-numbers"): "drain_numbers_lem",  # no clash; as the robust set's
    ("unique_index_set.proofs.Sound", "mark-within"): "mark_within_lem",
    ("unique_index_set.proofs.Stays", "acquire-looked"): "acquire_looked_lem",
    ("unique_index_set.proofs.Stays", "release-looked"): "release_looked_lem",
    ("unique_index_set_enums.proofs.Modes", "mode-read"): "mode_read_lem",
    ("stack_order.proofs.Machine", "is-locked"): "is_locked_answer",  # beside the constructor is_locked of stack_order.specs.Stack
}
# names that stay, whatever the rule says: (module, name) or name
STAY = set()
# names of imported modules that would stand beside a name of that spelling: (file, alias) -> new alias
ALIASES = {
    ("crates/dock/proofs/Callees.antt", "place_of"): "place_of_fn",
}
# names that a clause binds, and a definition under a lemma's `where`: they are local, so nothing else names them
LOCALS = {"notReady": "not_ready", "notKnown": "not_known", "ownerEmpty": "owner_empty", "setupBack": "setup_back"}
# what port.py made of own names, for the edits, which it does not turn: old -> as it stands now
PORTED = dict(r.split(":") for r in """
all-above:all_above all-end:all_end all-more:all_more all-of:all_of all-room:all_room all-settled:all_settled all-whole:all_whole among-none:among_none asTable:as_table
askedOf:asked_of at-last:at_last at-most-one:at_most_one at-name:at_name below-last:below_last below-of:below_of below-suc:below_suc bits-of:bits_of bits-small:bits_small
bodyOf:body_of borrowed-value:borrowed_value both-false:both_false both-true:both_true by-kind:by_kind by-last:by_last by-name:by_name by-place:by_place
bytes-back:bytes_back bytes-drop:bytes_drop callAt:call_at called-at:called_at called-is:called_is chain-second:chain_second count-head:count_head count-same:count_same
counted-is:counted_is cutAt:cut_at ends-there:ends_there endsWith:ends_with enteredAt:entered_at entryOf:entry_of eqb-same:eqb_same filled-more:filled_more
filled-none:filled_none freshOf:fresh_of from-first:from_first front-kept:front_kept goes-on:goes_on headOf:head_of held-out:held_out in-order:in_order in-table:in_table
is-free:is_free isEmpty:is_empty isOver:is_over isRefused:is_refused kindOf:kind_of laid-as:laid_as laid-each:laid_each laid-none:laid_none laid-then:laid_then
last-one:last_one left-is:left_is len-out:len_out length-without:length_without list-back:list_back list-read:list_read listOf:list_of live-of:live_of look-self:look_self
map-get:map_get moved-none:moved_none nextAt:next_at not-free:not_free not-short:not_short notedOf:noted_of one-on:one_on openedOf:opened_of ops-append:ops_append
or-left:or_left or-right:or_right over-none:over_none ownedBy:owned_by piece-is:piece_is place-is:place_is place-of:place_of place-read:place_read placeIn:place_in
placesOf:places_of plain-done:plain_done plainOf:plain_of put-other:put_other put-same:put_same ran-adds:ran_adds read-by:read_by rest-at:rest_at rest-over:rest_over
rest-read:rest_read restOf:rest_of run-ends:run_ends runFrom:run_from running-more:running_more runs-same:runs_same same-answer:same_answer same-byte:same_byte
same-map:same_map same-self:same_self same-step:same_step sameList:same_list scene-same:scene_same sceneOf:scene_of set-all:set_all settled-same:settled_same
sizeOf:size_of slots-length:slots_length some-out:some_out stands-at:stands_at start-back:start_back startOf:start_of stateOf:state_of stays-open:stays_open
step-keeps:step_keeps step-kept:step_kept stepOf:step_of steps-on:steps_on stored-there:stored_there storedAt:stored_at tableOf:table_of tag-same:tag_same tagOf:tag_of
tail-all:tail_all take-same:take_same taken-next:taken_next told-same:told_same turnOf:turn_of up-to:up_to upFrom:up_from wholeOf:whole_of wide-read:wide_read
withList:with_list withNumber:with_number withOutcome:with_outcome wordOf:word_of written-is:written_is written-read:written_read
getD:get_or""".split())

# of those, what is a plain phrase in the pages
PLAIN = set()

RESERVED = set("""as in let data record where pub mod use module abbrev unfoldable unfolding open elim syntax mutual opaque do if then else λ tt Unit absurd Type
rw simp search assumption cc omega grind hlevel first_of ruleset ground result old new now requires ensures ghost by self crate fn refl""".split())

WORD = r'[^\s(){}.;,@"«»`]+'
CHAIN = re.compile(rf"(?<![^\s(){{}};,@`«.])\.?{WORD}(?:\.{WORD})*")
IDENT = re.compile(r"^[A-Za-z][A-Za-z0-9_'′-]*$")


def die(text):
    print("respell: " + text, file=sys.stderr)
    raise SystemExit(2)


# ---- reading
def pieces(text):
    """(kind, text) runs of an antt file: 'code', 'comment', 'string'."""
    out, at = [], 0
    for m in re.finditer(r'"(?:[^"\\\n]|\\.)*"|(?<![^\s(){}.;,@])--[^\n]*|\{-.*?-\}', text, re.S):
        if m.start() > at:
            out.append(("code", text[at:m.start()]))
        out.append(("string" if m[0][0] == '"' else "comment", m[0]))
        at = m.end()
    if at < len(text):
        out.append(("code", text[at:]))
    return out


def code_of(text):
    """The text with comments and strings blanked, same length."""
    return "".join(t if k == "code" else re.sub(r"[^\n]", " ", t) for k, t in pieces(text))


class Decl:
    __slots__ = ("name", "kind", "sig", "line", "owner", "new")

    def __init__(self, name, kind, sig, line, owner=None):
        self.name, self.kind, self.sig, self.line, self.owner, self.new = name, kind, sig, line, owner, name


def indent(line):
    return len(line) - len(line.lstrip(" "))


HEAD = re.compile(rf"^( *)((?:abbrev |unfoldable |opaque |pub |private )*)((?:{WORD} )+): (.*)$|^( *)((?:abbrev |unfoldable |opaque |pub |private )*)((?:{WORD} )+):$")
RECDAT = re.compile(rf"^( *)((?:abbrev |unfoldable |pub |private )*)(record|data) ({WORD})")


def declared(text):
    """The declarations of an antt file."""
    lines = code_of(text).split("\n")
    out, base, i = [], 0, 0
    body = None  # (kind, indent, name) of a record or data block
    while i < len(lines):
        line = lines[i]
        if not line.strip():
            i += 1
            continue
        ind = indent(line)
        if ind < base:
            base = ind
        if re.match(r"^ *module _", line) and ind == base:
            j = i
            while not re.search(r"\bwhere\s*$", lines[j]):
                j += 1
            base, body, i = ind + 2, None, j + 1
            continue
        if body and ind <= body[1]:
            body = None
        m = RECDAT.match(line)
        if m and ind == base:
            j, sig = i, line
            while not re.search(r"\bwhere\b", lines[j]) and j + 1 < len(lines) and (indent(lines[j + 1]) > ind):
                j += 1
                sig += " " + lines[j].strip()
            out.append(Decl(m[4], "fact", sig, i + 1))
            body = (m[3], ind, m[4])
            i = j + 1
            continue
        m = HEAD.match(line)
        if m and not line.lstrip().startswith(("use ", "unfolding ", "module ")):
            mods, names, rest = (m[2], m[3], m[4]) if m[3] else (m[6], m[7], "")
            j, sig = i, rest
            while j + 1 < len(lines) and (not lines[j + 1].strip() or indent(lines[j + 1]) > ind):
                j += 1
                sig += " " + lines[j].strip()
            names = names.split()
            if any(n in ("=", "→", "λ", "let", "elim", "×", "|", "↦") for n in names):
                i += 1
                continue
            if body and ind == body[1] + 2:
                for n in names:
                    out.append(Decl(n, "field" if body[0] == "record" else "constructor", sig, i + 1, body[2]))
                i = j + 1
                continue
            if ind == base and not body:
                fact = re.search(r"(?:^|→ |: )Type(?: \d+)?\s*$", sig.strip()) is not None
                for n in names:
                    hump = re.search(r"[a-z0-9][A-Z]", n) is not None and "-" not in n
                    kind = "fact" if fact else "function" if ("abbrev" in mods or "unfoldable" in mods) else "plain" if hump else "lemma"
                    out.append(Decl(n, kind, sig, i + 1))
                i = j + 1
                continue
        i += 1
    return out


class File:
    def __init__(self, path):
        self.path = path
        with open(path, encoding="utf-8") as f:
            self.text = f.read()
        parts = path.split("/")
        self.crate, self.part = parts[1], parts[2]
        self.module = None
        self.proof = path.endswith("/Proof.antt")
        self.answer = path.endswith(("/Answers.antt", "/Invariants.antt"))  # its names are those of goals
        if path.endswith(".antt"):
            self.module = ".".join([self.crate, self.part] + parts[3:])[: -len(".antt")]
        self.decls = declared(self.text) if self.module else []
        self.names, self.aliases, self.foreign = {}, {}, {}  # local -> (module, name); alias -> module; local -> path


def own_module(path, modules):
    """The own module that a path names: a file, or a data type or record in one (its constructors)."""
    if path is None or path in modules:
        return path
    up, _, last = path.rpartition(".")
    return up if up in modules and any(d.name == last and d.kind == "fact" for d in modules[up].decls) else None


USE = re.compile(rf"(?:ghost )?use ({WORD}(?:\.{WORD})*)(?:\.\{{([^}}]*)\}})?(?: as ({WORD}))?")


def scope(f, modules):
    code = code_of(f.text) if f.module else rt_code(f.text)
    for m in USE.finditer(code):
        if f.module is None and not m[0].startswith("ghost"):
            continue
        path, items, alias = m[1], m[2], m[3]
        own = own_module(path[len("Rattle."):] if path.startswith("Rattle.") else None, modules)
        if items is None:
            f.aliases[alias or path.split(".")[-1]] = own if own in modules else None
            continue
        for item in items.split(","):
            w = item.split()
            if not w:
                continue
            name, local = w[0], w[-1]
            if own in modules:
                f.names[local] = (own, name)
            else:
                f.foreign[local] = path
    for d in f.decls:
        if d.kind != "field":
            f.names.setdefault(d.name, (f.module, d.name))


def rt_code(text):
    """.rt text with comments, strings and characters blanked, same length."""
    return re.sub(r'//[^\n]*|/\*.*?\*/|b?"(?:\\.|[^"\\])*"|b?\'(?:\\.|[^\'\\])\'', lambda m: re.sub(r"[^\n]", " ", m[0]), text, flags=re.S)


CLAUSE = re.compile(r"(?:\b(?:requires|ensures|invariant|decreases)\s*\*?\s*(?:\w+\s*)?|\bghost\s+(?:\w+\s*(?::\s*(?:owns|lends)?\s*|=\s*))?|\bghost\s*)\{|\b(?:using|unfolding)\(")


def regions(text):
    """The spans of an .rt text that are clauses, ghost blocks and tactic lists, and its `ghost use` items."""
    code, out = rt_code(text), []
    for m in CLAUSE.finditer(code):
        depth, i = 1, m.end()
        opening, closing = ("{", "}") if code[m.end() - 1] == "{" else ("(", ")")
        while i < len(code) and depth:
            depth += (code[i] == opening) - (code[i] == closing)
            i += 1
        if out and m.start() < out[-1][1]:
            continue
        out.append((m.end(), i - 1))
    return out


# ---- the rule
def words(name):
    """The words of a name, lower case, and the primes at its end."""
    core = name.rstrip("'′")
    primes = name[len(core):].replace("′", "'")
    out = []
    for p in re.split(r"[-_]", core):
        p = re.sub(r"(?<=[a-z0-9])(?=[A-Z])|(?<=[A-Z])(?=[A-Z][a-z])", " ", p)
        out += p.split()
    return out, primes


def snake(name):
    ws, primes = words(name)
    return "_".join(w.lower() for w in ws) + primes


def camel(name):
    ws, primes = words(name)
    return "".join(w[0].upper() + w[1:] for w in ws) + primes


def cited(d, f):
    """Of the names that the statement of d cites: their words -> their spelling as a part of a name."""
    out = {}
    bound = set(re.findall(rf"[({{]((?:{WORD} )+):", d.sig))
    bound = {w for b in bound for w in b.split()}
    bound |= {w for b in re.findall(rf"λ ((?:{WORD} ?)+)\.", d.sig) for w in b.split()}
    for m in CHAIN.finditer(d.sig):
        comps = m[0].split(".")
        n = comps[0]
        if not n and len(comps) < 2:
            continue
        if n in f.aliases and len(comps) > 1:
            n = comps[1]
        elif n in bound or not (n in f.names or n in f.foreign) or n == d.name:
            continue
        if not IDENT.match(n):
            continue
        if n[0].islower():
            out[tuple(w.lower() for w in words(n)[0])] = snake(n)
    return out


def lemma(d, f):
    if not IDENT.match(d.name):
        return d.name
    ws, primes = words(d.name)
    if ws and ws[-1] == "lem":
        return d.name
    lower = [w.lower() for w in ws]
    known, parts, i = cited(d, f), [], 0
    while i < len(lower):
        for j in range(len(lower), i, -1):
            if tuple(lower[i:j]) in known:
                parts.append((known[tuple(lower[i:j])], True))
                i = j
                break
        else:
            parts.append((lower[i], False))
            i += 1
    out = parts[0][0]
    for a, b in zip(parts, parts[1:]):
        out += ("-" if a[1] and b[1] else "_") + b[0]
    return out + primes


def spelled(d, f):
    if (f.module, d.name) in CLASHES:
        return CLASHES[f.module, d.name]
    if d.name in STAY or (f.module, d.name) in STAY or not IDENT.match(d.name):
        return d.name
    if f.answer:
        return d.name
    if f.proof:
        want = f.path.split("/")[-2] + "_spec"
        return want if d.name.replace("-", "_") == want else d.name
    if d.kind == "fact":
        return camel(d.name)
    if d.name[0].isupper():
        return camel(d.name)
    if d.kind == "lemma":
        return lemma(d, f)
    return snake(d.name)


# ---- what is bound
class Section:
    """A signature, a clause or a block of an antt file: where in it a name is bound."""

    def __init__(self, start, end, constructors=()):
        self.start, self.end, self.spans, self.constructors, self.record = start, end, [], constructors, False

    def bind(self, name, at, end):
        if name not in self.constructors:
            self.spans.append((name, at, end))

    def bound(self, name, at):
        return any(n == name and a <= at < e for n, a, e in self.spans)

    def binds(self, name):
        return any(n == name for n, _, _ in self.spans)


def closing(code, at, end):
    """Where the group that holds `at` ends."""
    depth = 0
    for i in range(at, end):
        c = code[i]
        if c in "({[":
            depth += 1
        elif c in ")}]":
            depth -= 1
            if depth < 0:
                return i
    return end


def binders(code, s, base, starts=True):
    """Fills the binders of a section of code."""
    text = code[s.start:s.end]
    for m in re.finditer(rf"[({{]((?:{WORD} )+): ", text):
        at = s.start + m.start(1)
        for w in m[1].split():
            s.bind(w, at, s.end)
    for m in re.finditer(rf"λ ((?:{WORD} )*{WORD})\.(?=\s)", text):
        end = closing(code, s.start + m.end(), s.end)
        for w in m[1].split():
            s.bind(w, s.start + m.start(), end)
    for m in re.finditer(rf"\blet ({WORD}) [=:]", text):
        s.bind(m[1], s.start + m.start(1), closing(code, s.start + m.end(), s.end))
    for m in re.finditer(r"[\[|]([^\[\]|↦]*)↦", text):
        end = closing(code, s.start + m.end(), s.end)
        for w in re.findall(rf"(?<![.]){WORD}(?![.])", m[1]):
            s.bind(w, s.start + m.start(1), end)
    if not starts:
        return
    first = re.match(rf" *({WORD})(.*?)(?<![\S])=(?=\s)", text, re.S)
    if first and first[1] not in ("use", "record", "pub", "abbrev", "unfoldable", "module", "unfolding") and " : " not in first[2]:
        for w in re.findall(rf"(?<![.\w'-])({WORD})(?![.\w'-])", first[2]):
            s.bind(w, s.start + first.start(2), s.end)
    head = RECDAT.match(text.split("\n")[0])
    s.record = head is not None and head[3] == "record"
    if s.record:
        for m in re.finditer(rf"(?m)^ +(?:pub )?((?:{WORD} )+): ", text):
            if m.start() == 0:
                continue
            for w in m[1].split():
                s.bind(w, s.start + m.start(1), s.end)


def sections(code, constructors=()):
    out, starts, base, pos = [], [], 0, 0
    for line in code.split("\n"):
        if line.strip():
            ind = indent(line)
            base = min(base, ind)
            if ind == base:
                starts.append((pos, ind, line))
                if re.match(r"^ *module _", line):
                    base = ind + 2
        pos += len(line) + 1
    params = []  # (indent, names) of the module blocks that are open
    for k, (p, ind, line) in enumerate(starts):
        end = starts[k + 1][0] if k + 1 < len(starts) else len(code)
        s = Section(p, end, constructors)
        params = [(i, ns) for i, ns in params if i < ind]
        if re.match(r"^ *module _", line):
            params.append((ind, [w for m in re.finditer(rf"[({{]((?:{WORD} )+): ", code[p:end]) for w in m[1].split()]))
        for _, ns in params:
            for w in ns:
                s.bind(w, p, end)
        if not line.lstrip().startswith(("use ", "unfolding ")):
            binders(code, s, ind)
        out.append(s)
    return out


# ---- turning
class Repo:
    def __init__(self):
        self.files, self.modules = [], {}
        for top, dirs, names in os.walk("crates"):
            dirs[:] = sorted(d for d in dirs if d not in ("out", "must-fail", "data"))
            for n in sorted(names):
                p = os.path.join(top, n)
                parts = p.split("/")
                if n.endswith(".antt") and parts[2] in ("specs", "proofs") or n.endswith(".rt") and parts[2] == "src":
                    f = File(p)
                    self.files.append(f)
                    if f.module:
                        self.modules[f.module] = f
        for f in self.files:
            scope(f, self.modules)
        self.table = {}  # (module, name) -> new, of what is no field
        self.fields = {}  # old -> new
        self.notes, self.clashes = [], []
        crates = {p.split("/")[1] for p in (f.path for f in self.files)}
        for f in self.files:
            f.by_name = {d.name: d for d in reversed(f.decls) if d.kind != "field"}
            for d in f.decls:
                d.new = spelled(d, f)
        for f in self.files:
            for d in f.decls:
                if d.kind == "field":
                    if d.new != d.name:
                        self.fields[d.name] = d.new
                elif d.new != d.name:
                    self.table[f.module, d.name] = d.new
        for f in self.files:
            if not f.module:
                continue
            news = collections.defaultdict(set)
            for d in f.decls:
                if d.kind != "field":
                    news[d.new].add(d.name)
            for n, olds in news.items():
                if len(olds) > 1:
                    self.clashes.append(f"{f.path}: {', '.join(sorted(olds))} would all be {n}")
            for d in f.decls:
                if d.new != d.name and d.new in crates:
                    self.clashes.append(f"{f.path}: {d.name} would be {d.new}, a crate's name")
                if d.new != d.name and d.new in RESERVED:
                    self.clashes.append(f"{f.path}: {d.name} would be the reserved {d.new}")

    def new_of(self, f, local):
        if local in f.names:
            m, n = f.names[local]
            d = self.modules[m].by_name.get(n)
            if d and local == n and self.table.get((m, n)):
                return d.new
        return local

    def constructors(self, f):
        return {l for l, (m, n) in f.names.items() if any(d.name == n and d.kind == "constructor" for d in self.modules[m].decls)}

    def check_scopes(self):
        for f in self.files:
            by = collections.defaultdict(set)
            for l in list(f.names):
                by[self.new_of(f, l)].add(l)
            for l in f.foreign:
                by[l].add(l)
            for l in f.aliases:
                if l in by and l not in by[l] and (f.path, l) not in ALIASES:
                    self.clashes.append(f"{f.path}: {sorted(by[l])} would be {l}, the name of an imported module")
            for n, ls in by.items():
                if len(ls) > 1:
                    self.clashes.append(f"{f.path}: in scope {' and '.join(f'{l} of ' + (f.names[l][0] if l in f.names else f.foreign[l]) for l in sorted(ls))} would both be {n}")

    def chain(self, text, f, bound, label):
        """One dotted chain of a file, turned. bound(name): is it bound here; label: it is a field's name."""
        if label:
            return self.fields.get(text, text)
        comps = text.split(".")
        field = lambda cs: [self.fields.get(c, c) for c in cs]
        if comps[0] == "":
            return ".".join([""] + field(comps[1:]))
        if comps[0] == "Rattle":
            for k in range(len(comps), 1, -1):
                m = own_module(".".join(comps[1:k]), self.modules)
                if m in self.modules:
                    rest = comps[k:]
                    if rest:
                        rest = [self.table.get((m, rest[0]), rest[0])] + field(rest[1:])
                    return ".".join(comps[:k] + rest)
            return text
        if bound(comps[0]):
            return ".".join([comps[0]] + field(comps[1:]))
        if comps[0] in f.aliases and len(comps) > 1:
            m = f.aliases[comps[0]]
            if m is None:
                return ".".join([ALIASES.get((f.path, comps[0]), comps[0])] + comps[1:])
            return ".".join([ALIASES.get((f.path, comps[0]), comps[0]), self.table.get((m, comps[1]), comps[1])] + field(comps[2:]))
        if len(comps) > 1 and comps[0] in f.names:  # a data type's constructor, as Dock.plainDock
            m, n = f.names[comps[0]]
            d = self.modules[m].by_name.get(comps[1])
            if d and d.kind == "constructor" and d.owner == n:
                return ".".join([self.new_of(f, comps[0]), d.new] + field(comps[2:]))
        return ".".join([self.new_of(f, comps[0])] + field(comps[1:]))

    def items(self, m, f):
        """A use line, turned."""
        path, items = m[1], m[2]
        own = own_module(path[len("Rattle."):] if path.startswith("Rattle.") else None, self.modules)
        if m[3] and (f.path, m[3]) in ALIASES:
            return m[0][: -len(m[3])] + ALIASES[f.path, m[3]]
        if items is None or own not in self.modules:
            return m[0]
        out = []
        for item in items.split(","):
            w = item.split()
            new = self.table.get((own, w[0]), w[0]) if w else ""
            if len(w) == 3 and w[2] == new:
                w = w[:1]
            out.append(" ".join([new] + w[1:]))
        return m[0].replace("{" + items + "}", "{" + ", ".join(out) + "}")

    def code(self, text, f, secs=(), skip=()):
        """Code of f, turned (comments blanked in it): the places (start, end, new). Its sections say what is bound; `skip` has spans that stay."""
        out = []
        skip = sorted(skip)
        for m in CHAIN.finditer(text):
            at = m.start()
            if any(a <= at < b for a, b in skip):
                continue
            sec = next((s for s in secs if s.start <= at < s.end), None)

            def bound(n):
                b = sec is not None and sec.bound(n, at)
                if b and f.module and n in f.names and self.new_of(f, n) != n:
                    self.notes.append(f"bound: {f.path}: {n} stays where it is bound: {code_line(text, at)!r}")
                return b

            before = text[:at].rstrip()[-1:]
            label = "." not in m[0] and before and before in "{;" and re.match(r"\s*=(?!\S)", text[m.end():m.end() + 40]) is not None
            label = label or (sec is not None and sec.record and self.field_line(text, m))
            new = self.chain(m[0], f, bound, label)
            if new != m[0]:
                head, head2 = m[0].split(".")[0], new.split(".")[0]
                if head != head2 and sec is not None and sec.binds(head2):
                    self.clashes.append(f"{f.path}: {head} would be {head2}, which is bound in {code_line(text, at)!r}")
                out.append((m.start(), m.end(), new))
        return out

    def field_line(self, text, m):
        line = text[text.rfind("\n", 0, m.start()) + 1:m.end()]
        return re.match(rf"^ +(?:pub )?(?:{WORD} )*{WORD}$", line) is not None and re.match(rf" (?:{WORD} )*: ", text[m.end():m.end() + 200]) is not None

    def antt(self, f):
        code = code_of(f.text)
        spots, uses = [], []
        for m in USE.finditer(code):
            if code[: m.start()].rpartition("\n")[2].strip():
                continue
            uses.append((m.start(), m.end()))
            spots.append((m.start(), m.end(), self.items(m, f)))
        spots += self.code(code, f, sections(code, self.constructors(f)), uses)
        off = 0
        for kind, t in pieces(f.text):
            if kind == "comment":
                spots.append((off, off + len(t), self.quoted(t, f)))
            off += len(t)
        return splice(f.text, spots)

    def quoted(self, t, f):
        none = lambda n: False
        if f.module and "`" not in t:  # a list of names in a comment, and names with a hump
            t = re.sub(rf"^(-- {{2,}})({WORD})(?= {{2,}})", lambda q: q[1] + self.new_of(f, q[2]), t)
            t = re.sub(r"(?<![\w'.-])[a-z][a-z0-9]*[A-Z]\w*(?![\w'-])", lambda q: self.new_of(f, q[0]), t)
        return re.sub(r"`[^`\n]+`", lambda q: CHAIN.sub(lambda m: self.chain(m[0], f, none, False), q[0]), t)

    def rt(self, f, text=None):
        text = f.text if text is None else text
        spans, code = regions(text), rt_code(text)
        out, at = [], 0
        marks = [(a, b, "clause") for a, b in spans]
        marks += [(m.start(), m.end(), "use") for m in USE.finditer(code) if m[0].startswith("ghost")]
        marks += [(m.start(), m.end(), "comment") for m in re.finditer(r"//[^\n]*", text) if code[m.start():m.end()].strip() == ""]
        for a, b, kind in sorted(marks):
            if a < at:
                continue
            out.append(text[at:a])
            t = text[a:b]
            if kind == "use":
                m = USE.match(code, a)
                out.append(self.items(m, f))
            elif kind == "comment":
                out.append(self.quoted(t, f))
            else:
                fn = code[:a].rfind("fn ")
                params = set(re.findall(r"(\w+)\s*:", code[fn:a])) if fn >= 0 else set()
                s = Section(0, len(t))
                binders(code[a:b], s, 0, False)
                for w in params:
                    s.bind(w, 0, len(t))
                out.append(splice(t, self.code(code[a:b], f, [s])))
            at = b
        out.append(text[at:])
        return "".join(out)


def attributes(repo):
    """The paths that `#[tactic(.., using(..), unfolding(..))]` names, as crate::specs::M::word."""
    news = {}
    for f in repo.files:
        for d in f.decls:
            if d.kind != "field" and d.new != d.name:
                news[f.module, d.name] = d.new

    def path(f, m):
        parts = m[0].split("::")
        module = ".".join([f.crate if parts[0] == "crate" else parts[0]] + parts[1:-1])
        return "::".join(parts[:-1] + [news.get((module, parts[-1]), parts[-1])])

    for f in repo.files:
        if not f.module:
            f.new_text = re.sub(r"#!?\[tactic\([^\]]*\]", lambda a: re.sub(r"\w+(?:::\w+)+", lambda m: path(f, m), a[0]), f.new_text)


def splice(text, spots):
    out, at = [], 0
    for a, b, new in sorted(spots):
        out += [text[at:a], new]
        at = b
    return "".join(out) + text[at:]


def code_line(text, at):
    return text[text.rfind("\n", 0, at) + 1:(text + "\n").find("\n", at)].strip()[:140]


OPERATORS = set("≡ ≢ → ↔ + - * / % ^ < ≤ = ; , ∷ ++ && || × ⊎ | ↦ : ¬ λ let in".split())


def tight(t):
    """Projections as they were written, ` .f` behind a value or a call, in today's form."""
    while True:
        m = re.search(r"(?<=[\w)'′]) (?=\.[\w'-])", t)
        if not m:
            return t
        e = re.compile(r"(?: \.[\w'-]+)+").match(t, m.start()).end()
        depth, i, atoms = 0, m.start(), 1
        start = 0
        while i > 0:
            i -= 1
            c = t[i]
            if c in ")}]":
                depth += 1
            elif c in "({[":
                if depth == 0:
                    start = i + 1
                    break
                depth -= 1
            elif c == " " and depth == 0:
                word = t[:i].rpartition(" ")[2]
                if word in OPERATORS or word.endswith((".", ";", ",")):
                    start = i + 1
                    break
                atoms += 1
        fields = t[m.start():e].replace(" ", "")
        call = t[start:m.start()]
        new = (call if atoms == 1 else "(" + call + ")") + fields
        if t[start - 1:start] == "(" and t[e:e + 1] == ")" and start > 0:
            start, e = start - 1, e + 1
        t = t[:start] + new + t[e:]


def edits(repo, write):
    """Each must-fail edit by the scope of the file that it turns; what does not fit is printed."""
    changed, unfit = 0, []
    by_path = {f.path: f for f in repo.files}
    for top, dirs, names in os.walk("crates"):
        dirs[:] = sorted(d for d in dirs if d != "out")
        for n in sorted(names):
            if not n.endswith(".edit"):
                continue
            p = os.path.join(top, n)
            crate = "/".join(p.split("/")[:2])
            with open(p, encoding="utf-8") as g:
                lines = g.read().split("\n")
            f, out, now = None, [], None
            for line in lines:
                if line.startswith("file: "):
                    f = by_path.get(crate + "/" + line[6:].strip())
                    out.append(line)
                    continue
                m = re.match(r"(old|new):( ?)(.*)$", line)
                if not m or f is None:
                    out.append(line)
                    continue
                t = m[3]
                if f.module:
                    t = t.replace("′", "'")
                    t = CHAIN.sub(lambda k: ".".join(PORTED.get(c, c) for c in k[0].split(".")), t)
                    t = tight(t)
                    s = Section(0, len(t))
                    binders(t, s, 0, True)
                    t = splice(t, repo.code(t, f, [s]))
                elif CLAUSE.search(t) or "ghost use" in t:
                    t = repo.rt(f, t)
                out.append(m[1] + ":" + m[2] + t)
                if m[1] == "old":
                    count = f.new_text.count(t)
                    if count != 1:
                        unfit.append(f"edit: {p}: its text stands {count} times in {f.path}: {t[:170]}")
            if out != lines:
                changed += 1
                if write:
                    with open(p, "w", encoding="utf-8") as g:
                        g.write("\n".join(out))
    return changed, unfit


def table_page(repo):
    rows = ["| Crate | Module | Old | New | Kind |", "|---|---|---|---|---|"]
    count = collections.Counter()
    for f in repo.files:
        for d in f.decls:
            if d.new != d.name:
                count[d.kind + (" of a function" if f.proof else "")] += 1
                rows.append(f"| {f.crate} | {'.'.join(f.module.split('.')[1:])} | `{d.name}` | `{d.new}` | {d.kind if not f.proof else 'proof'} |")
    return "\n".join(rows) + "\n", count


def read_table(path):
    out = []
    with open(path, encoding="utf-8") as f:
        for line in f:
            m = re.match(r"\| (\w+) \| (\S+) \| `([^`]+)` \| `([^`]+)` \| (\w+) \|$", line.strip())
            if m:
                out.append(m.groups())
    return out


def pages(rows, write):
    """Names in backquotes in the pages and in the scripts of checks/: File.name by that file's rows, a bare name where all rows of that spelling agree."""
    by_file, bare, said, changed = collections.defaultdict(set), collections.defaultdict(set), [], 0
    for crate, module, old, new, kind in rows:
        if kind == "proof":
            continue
        by_file[module.split(".")[-1], old].add((crate, new))
        bare[old].add(new)
    crates = {l.split(":")[0].split()[0] for l in open("crates.txt", encoding="utf-8") if ":" in l and not l.startswith("#")} | {r[0] for r in rows}
    paths = ["README.md"] + ["docs/" + n for n in sorted(os.listdir("docs")) if n.endswith(".md") and not n.startswith(("PORT", "RESPELLED"))] + [c for c in sorted("checks/" + n for n in os.listdir("checks")) if os.path.isfile(c)]
    for p in paths:
        with open(p, encoding="utf-8") as f:
            text = f.read()
        out = []
        for line in text.split("\n"):
            last = [None]

            def word(w, quoted):
                comps = w.split(".")
                if len(comps) == 2 and re.match(r"^[A-Z][A-Za-z0-9]*$", comps[0]):
                    found = by_file.get((comps[0], comps[1]), set())
                    here = {n for c, n in found if c == last[0]} or {n for c, n in found if c in ("unique_index_set", "robust_unique_index_set")} or {n for c, n in found}
                    if len(here) == 1:
                        return comps[0] + "." + here.pop()
                    if here:
                        said.append(f"page: {p}: {w} of {last[0]}: {sorted(here)}")
                    elif comps[1] in PORTED and comps[1] not in PLAIN:
                        return word(comps[0] + "." + PORTED[comps[1]], quoted)
                    return w
                if len(comps) == 1 and w in bare and (re.search(r"[a-z0-9][A-Z]", w) or "-" in w):
                    if len(bare[w]) == 1:
                        return next(iter(bare[w]))
                    said.append(f"page: {p}: {w}: {sorted(bare[w])}")
                elif len(comps) == 1 and w in PORTED and w not in PLAIN:
                    return word(PORTED[w], quoted)
                return w

            def span(m):
                if m[1] in crates:
                    last[0] = m[1]
                    return m[0]
                return "`" + CHAIN.sub(lambda k: word(k[0], True), m[1]) + "`"

            if p.startswith("checks/"):
                out.append(re.sub(r"[A-Za-z][A-Za-z0-9_'-]*[a-z0-9][A-Z][A-Za-z0-9_'-]*", lambda m: word(m[0], False), line))
            else:
                out.append(re.sub(r"`([^`]+)`", span, line))
        new = "\n".join(out)
        if new != text:
            changed += 1
            if write:
                with open(p, "w", encoding="utf-8") as f:
                    f.write(new)
    return changed, said


def main(args):
    write = "--check" not in args
    table = args[args.index("--table") + 1] if "--table" in args else "docs/RESPELLED.md"
    if not (os.path.isdir("crates") and os.path.isfile("crates.txt")):
        die("run it at the top of the repository")
    repo = Repo()
    repo.check_scopes()
    for f in repo.files:
        f.new_text = repo.antt(f) if f.module else repo.rt(f)
    for f in repo.files:
        if f.module and not f.proof:
            f.new_text = re.sub(r"(?<![\w'.-])(?:" + "|".join(LOCALS) + r")(?![\w'-])", lambda m: LOCALS[m[0]], f.new_text)
    attributes(repo)
    page, count = table_page(repo)
    for n in repo.notes:
        print(n)
    seen = list(dict.fromkeys(repo.clashes))
    for c in seen:
        print("CLASH: " + c)
    if seen and write:
        die(f"{len(seen)} clashes that CLASHES does not resolve: nothing was written")
    changed = 0
    for f in repo.files:
        if f.new_text != f.text:
            changed += 1
            if write:
                with open(f.path, "w", encoding="utf-8") as g:
                    g.write(f.new_text)
    nedits, unfit = edits(repo, write)
    for u in unfit:
        print(u)
    print(f"respell: {sum(count.values())} names, " + ", ".join(f"{k} {v}" for k, v in count.most_common()) + f"; {changed} files, {nedits} edits, {len(unfit)} edits' texts that do not stand once")
    rows = read_table(table) if os.path.isfile(table) and not count else []
    if count and write:
        os.makedirs(os.path.dirname(table) or ".", exist_ok=True)
        old = os.path.isfile(table)
        with open(table, "a", encoding="utf-8") as f:
            f.write(("" if old else "# Names that were respelled, old and new\n") + "\n" + page)
    if "--pages" in args:
        rows = rows or [r for r in (re.match(r"\| (\w+) \| (\S+) \| `([^`]+)` \| `([^`]+)` \| (\w+) \|$", l) for l in page.split("\n")) if r]
        rows = [r if isinstance(r, tuple) else r.groups() for r in rows]
        n, said = pages(rows, write)
        for s in dict.fromkeys(said):
            print(s)
        print(f"respell: {n} pages and scripts, {len(said)} names there that more than one new name could stand for, left")


if __name__ == "__main__":
    main(sys.argv[1:])
