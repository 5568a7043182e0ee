#!/usr/bin/env python3
"""Writes docs/DESIGN-PASS.md's section "Old and new, side by side": what the text of the sources says before and after.

usage: sides.py OLD NEW > section.md     OLD and NEW are folders, OLD the tree of the commit at the page's head:
                                         git archive COMMIT | tar x -C OLD

It takes the place of all from the page's heading of that name on. The sources are read as text, so what a reader sees is what a line says,
and no meaning. What has another name, or stands in another crate, is in the tables below, made by hand; what may have to be added to them
is said on the error stream.
"""
import collections
import os
import re
import sys

# ------------------------------------------------------------------ text


def blank(t):
    """The text with comments, strings and characters blanked, as long as before."""
    out, i, n = list(t), 0, len(t)
    while i < n:
        m = None
        if t.startswith('//', i):
            m = re.compile(r'[^\n]*').match(t, i)
        elif t.startswith('/*', i):
            m = re.compile(r'/\*[\s\S]*?\*/').match(t, i)
        elif t[i] in '"br' and (i == 0 or not (t[i - 1].isalnum() or t[i - 1] == '_')):
            m = re.compile(r'b?r(#*)"[\s\S]*?"\1|b?"(?:\\[\s\S]|[^"\\])*"').match(t, i)
        elif t[i] == "'":
            m = re.compile(r"'(?:\\(?:u\{[0-9a-fA-F_]+\}|x[0-9a-fA-F]{2}|.)|[^'\\\n])'").match(t, i)
        if not m:
            i += 1
            continue
        for k in range(i, m.end()):
            if out[k] != '\n':
                out[k] = ' '
        i = m.end()
    return ''.join(out)


def closing(t, i, opens='{', closes='}'):
    deep = 0
    for k in range(i, len(t)):
        deep += (t[k] == opens) - (t[k] == closes)
        if not deep:
            return k + 1
    return len(t)


def squeeze(s):
    """One line, and a list that was laid out in lines without its last comma."""
    s = re.sub(r'\s+', ' ', s).strip()
    s = re.sub(r'([(\[]) ', r'\1', s)
    return re.sub(r',? ([)\]])', r'\1', s)


def read(path):
    with open(path, encoding='utf-8') as f:
        return f.read()


def files(root, folder, ending):
    """Each crate's files of a folder: (crate, path in the crate, text)."""
    top = os.path.join(root, 'crates')
    for crate in sorted(os.listdir(top)):
        base = os.path.join(top, crate)
        for at, dirs, names in os.walk(os.path.join(base, folder)):
            dirs[:] = sorted(d for d in dirs if d not in ('out', 'target'))
            for name in sorted(names):
                path = os.path.join(at, name)
                if name.endswith(ending) and not os.path.islink(path):
                    yield crate, os.path.relpath(path, base), read(path)


# ------------------------------------------------------------------ src/

Function = collections.namedtuple('Function', 'crate file type name sign clauses')
CLAUSE = re.compile(r'\b(requires|ensures)\b')
WORD = re.compile(r'[A-Za-z_]\w*')


def head(t, raw, i):
    """From behind a function's name: its signature, and its clauses as (kind, label, text)."""
    begin, sign, clauses, angle = i, None, [], 0
    while i < len(t):
        c = t[i]
        if c in '([':
            i = closing(t, i, c, ')' if c == '(' else ']')
        elif c == '<' or (c == '>' and t[i - 1] != '-'):
            angle += 1 if c == '<' else -1
            i += 1
        elif c in '{;' and not angle:
            break
        elif m := CLAUSE.match(t, i):
            sign = sign or raw[begin:i]
            opens = t.index('{', i)
            end = closing(t, opens)
            clauses.append((m[1], squeeze(raw[m.end():opens]), ' '.join(raw[opens + 1:end - 1].split())))
            i = end
        elif m := WORD.match(t, i):
            i = m.end()
        else:
            i += 1
    return squeeze(sign or raw[begin:i]).rstrip(','), clauses


def blocks(t, kinds):
    """The blocks that begin with a word: (word, what stands behind it, where { stands, where } ends)."""
    for m in re.finditer(r'\b(' + kinds + r')\b', t):
        j = m.end()
        while j < len(t) and t[j] not in '{;':
            j = closing(t, j, '(', ')') if t[j] == '(' else j + 1
        if t[j:j + 1] == '{':
            yield m, t[m.end():j], j, closing(t, j)


def type_of(text):
    text = re.sub(r'\s+where\b.*$', '', squeeze(text))
    return squeeze(text[closing(text, 0, '<', '>'):] if text.startswith('<') else text)


def sources(root):
    """The public functions, the public types and the ghost items of a tree."""
    functions, types, ghosts = {}, {}, {}
    for crate, file, raw in files(root, 'src', '.rt'):
        t = blank(raw)
        around = []
        for m, text, opens, end in blocks(t, 'impl|trait|mod|struct|enum'):
            name = type_of(text) if m[1] == 'impl' else re.split(r'[<:\s(]', text.strip())[0]
            test = m[1] == 'mod' and re.search(r'#\[\s*cfg\s*\(\s*test\s*\)\s*\]\s*$', t[:m.start()])
            if m[1] in ('impl', 'trait', 'mod'):
                around.append((opens, end, '' if m[1] == 'mod' else name, test))
            if m[1] in ('impl', 'trait', 'struct', 'enum'):
                for g in re.finditer(r"\bghost\s+(?!use\b)(?:fn\s+)?(\w[\w']*)\s*[:=]\s*\{", t[opens:end]):
                    at = opens + g.end() - 1
                    ghosts[crate, re.sub(r'<.*', '', name) if m[1] in ('struct', 'enum') else name, g[1]] = ' '.join(raw[at:closing(t, at)].split())
            if m[1] in ('struct', 'enum') and re.search(r'\bpub\s+$', t[:m.start()]):
                body = re.sub(r'//[^\n]*', '', raw[m.start():end])
                types[crate, name] = 'pub ' + squeeze(re.sub(r'#\[[^\]]*\]', '', body))
        for m in re.finditer(r'\bfn\s+([A-Za-z_]\w*)', t):
            over = [a for a in around if a[0] < m.start() < a[1]]
            if any(a[3] for a in over) or not re.search(r'\bpub\s+(?:const\s+)?$', t[:m.start()]):
                continue
            if re.search(r'#\[\s*test\s*\]\s*$', t[:m.start()]):
                continue
            of = ' '.join(a[2] for a in over if a[2])
            functions[crate, file, of, m[1]] = Function(crate, file, of, m[1], *head(t, raw, m.end()))
    return functions, types, ghosts


# ------------------------------------------------------------------ specs/ and proofs/


DEFINITION = re.compile(r"( *)(?:(?:abbrev|opaque|unfoldable|pub|instance|mutual)\s+)*(?:(?:record|data)\s+)?(◌\S*|[^\s:(){},.=|]+)(?:\s+[^=]*?)?\s*:(?:\s|$)")
ALONE = re.compile(r'( *)(?:(?:abbrev|opaque|unfoldable|pub)\s+)+([^\s:(){},.=|]+)\s*$')
NO_NAME = ('use', 'mod', 'open', 'module', 'infixl', 'infixr', 'infix', 'prefix', 'let', 'λ')


def definitions(raw):
    """Each definition of a file, with its text: from the line with its name to the next such line at that depth or less. A mutual block is
    one, under its first name."""
    raw = re.sub(r'\bmutual *\n +', 'mutual ', raw)
    lines, name, depth, text = [re.sub(r'\s*--.*', '', l) for l in raw.split('\n')] + [''], None, 0, []
    for l, behind in zip(lines, lines[1:] + ['']):
        m = DEFINITION.match(l) or (ALONE.match(l) if behind.lstrip().startswith(':') else None)
        starts = m and m[2] not in NO_NAME and (name is None or len(m[1]) <= depth)
        if starts or (l.strip() and name and len(l) - len(l.lstrip()) <= depth and re.match(r'\s*(module|use|open|infix|pub use|pub mod|mod)\b', l)):
            if name:
                yield name, ' '.join(' '.join(text).split())
            name, depth, text = (m[2], len(m[1]), [l]) if starts else (None, 0, [])
        elif name:
            text.append(l)
    if name:
        yield name, ' '.join(' '.join(text).split())


def specs(root):
    """The definitions of specs/, by crate, file and name: their texts."""
    out = {}
    for crate, file, raw in files(root, 'specs', '.antt'):
        for name, text in definitions(raw):
            out.setdefault((crate, file, name), []).append(text)
    return out


STATEMENT = re.compile(r"( *)((?:(?:abbrev|opaque|unfoldable|pub|instance)\s+)*)(?:(record|data)\s+([^\s:(){},.=|]+)|([^\s:(){},.=|]+)\s*:(?=\s|$))")


def statements(raw):
    """What each lemma, definition and record of a file states: a name, and its type; of a record all its text."""
    lines = [re.sub(r'(^|\s+)--(\s.*|-*)$', '', l) for l in raw.split('\n')]
    i = 0
    while i < len(lines):
        m = STATEMENT.match(lines[i])
        i += 1
        if not m or m[5] in ('let', 'λ'):
            continue
        text, indent = [lines[i - 1] if m[3] else lines[i - 1][m.end():]], len(m[1])
        while i < len(lines) and lines[i].strip() and len(lines[i]) - len(lines[i].lstrip()) > indent:
            text.append(lines[i])
            i += 1
        yield m[4] or m[5], re.sub(r'^pub ', '', ' '.join(' '.join(text).split()))


def proofs(root):
    out = {}
    for crate, file, raw in files(root, 'proofs', '.antt'):
        for name, text in statements(raw):
            out.setdefault((crate, file, name), []).append(text)
    return out


def named(root):
    """The names that README or a page of docs/ names, DESIGN-PASS aside, which has them from here."""
    pages = [os.path.join(root, 'README.md')]
    pages += sorted(os.path.join(root, 'docs', f) for f in os.listdir(os.path.join(root, 'docs')) if f.endswith('.md') and f != 'DESIGN-PASS.md')
    out = set()
    for page in pages:
        for code in re.findall(r'`([^`\n]*)`', read(page)):
            out.update(re.findall(r"[^\s(){}\[\],;:.]+", code))
    return out


# ------------------------------------------------------------------ hand-made tables

# Functions that moved or have another name: the old one's crate and name, and where it stands now. One that only became a method, or
# moved within its crate, is found by its name.
MOVED = {
    ('check_body', 'verdict_of'): [('check_body', 'src/lib.rt', '', 'verdict')],
    ('expand_calls', 'copy_own'): [('subst_state', 'src/run.rt', '', 'copy_to')],
    ('grammar', 'word_at'): [('grammar', 'src/rules.rt', '', 'sort_at'), ('grammar', 'src/rules.rt', '', 'row_at')],
    ('registry', 'index'): [('registry', 'src/rows.rt', "Index<'a, 'b>", 'new')],
    ('subst_places', 'behind'): [('walk_state', 'src/reading.rt', '', 'behind')],
}

# Definitions of specs/ that moved to another crate or have another name.
RENAMED = {
    ('check_walk', 'behind_in'): ('walk_state', 'behind_in'),
    ('grammar', 'provider_words'): ('grammar', 'provider_grammar'),
    ('grammar', 'row_word'): ('grammar', 'code_rule'),
    ('grammar', 'sort_word'): ('grammar', 'sort_rule'),
    ('grammar', 'temporal_words'): ('grammar', 'temporal_grammar'),
}

# Types of the code in statements of proofs/: what each was, and the Option, Result or other type that it is.
TYPES = {
    'AggRead': 'Result (AggNode × Place) Refusal',
    'ArgRead': 'Result (ArgNode × Place) Refusal',
    'BodyRead': 'Result (BodyNode × Place) Refusal',
    'Callee': 'Result Macro Refused',
    'Charged': 'Option ℕ',
    'Checked': 'Result Place Refused',
    'ConditionRead': 'Result (ConditionNode × Place) Refusal',
    'Counted': 'Option (ℕ × ℕ × Bool)',
    'Declared': 'Declaration',
    'EntryRead': 'Option (ℕ × ℕ × Place)',
    'Found': 'Option Argument',
    'HeadingRead': 'Result (Heading × Place) Refusal',
    'Interval': 'Result Interval Refused',
    'MacroRead': 'Option Macro',
    'Opened': 'Result Layout Fault',
    'ParamRead': 'Option (Name × Place)',
    'Scanned': 'Option (Place × Bool)',
    'Skipped': 'Option Place',
    'SlotRead': 'Result (SlotNode × Place) Refusal',
    'TermRead': 'Result (TermNode × Place) Refusal',
    'ValueRead': 'Option (ℕ × Place)',
    'Verdict': 'Result Unit Refused',
    'WithinRead': 'Result (WithinNode × Place) Refusal',
}

# Constructors of them, and the tables of the grammar, in statements of proofs/.
WORDS = {
    'At': 'Some',
    'Exceeded': 'None',
    'Malformed': 'None',
    'Nothing': 'None',
    'Nowhere': 'None',
    'Paid': 'Some',
    'Passed': 'Ok',
    'Passes': '(Ok tt)',
    'Refused': 'Err',
    'Tape': 'Ok',
    'callee.Macro': 'Ok',
    'found.Argument': 'Some',
    'found.Nothing': 'None',
    'macro.Macro': 'Some',
    'macro.Nothing': 'None',
    'opened.Tape': 'Ok',
    'provider_words': 'provider_grammar',
    't.words': 't.grammar',
    'temporal_words': 'temporal_grammar',
    'verdict.Passes': '(Ok tt)',
    'words': 'grammar',
}

# Constructors that had a number, or arguments that are a pair or a triple now: what each was, and what it is.
ATOM = r'(?:\((?:[^()]|\((?:[^()]|\((?:[^()]|\([^()]*\))*\))*\))*\)|[^\s(){},]+)'
TUPLES = [
    (r'(?:opened\.)?Refused 2\b', 'Err Malformed'),
    (r'(?:opened\.)?Refused 3\b', 'Err TooLarge'),
    (r'\w+\.Refused\b', 'Err'),
    (r'\w+\.Node(?P<args>(?: ' + ATOM + r'){2})', 'Ok'),
    (r'Ends(?P<args>(?: ' + ATOM + r'){2})', 'Some'),
    (r'(?:pr\.Param|vr\.Value)(?P<args>(?: ' + ATOM + r'){2})', 'Some'),
    (r'(?:On|er\.Entry|found\.Definition)(?P<args>(?: ' + ATOM + r'){3})', 'Some'),
]

# The rules by which clauses are spelled otherwise, in the order of the page: what each says. What each does is in respelled.
RULES = {
    'tape': 'a slice and its layout are one tape: `s.now l` is `tape.now.bytes.now tape.now.layout`, `l.entries` is `tape.now.layout.entries`, and so for each tape of a function',
    'grammar': 'a table of the grammar is a value of a type of its own: `grammar.now`, its numbers, is `rules grammar.entry`, its rules',
    'held': 'the same of a tape that is known to hold its layout: `Held s.now l`, which was required, is the type `HeldTape`, and `s.now l` is `held.now.tape.bytes.now held.now.tape.layout`',
    'protected': 'the tapes whose names are protected are one value: `reg.now d` is `protected.now.registry.bytes.now protected.now.registry.layout`, `cond.now c` the same of its condition',
    'place': 'the place in the stead of the answer so far: `w` is `Ok p`',
    'declared': "the definition's tape and its parameters are one value: `s.now d` is `d.now.tape.bytes.now (declaration d.now)`, in a method with `self` for `d`",
    'walks': 'the cursor is lent: `progress result buf.new ≡ X` is `Walks c.old c.new result X`; in X the state that was given, `st`, is `state_at c.old`, the walk that was given, `progress w buf.old`, is `going_at c.old`, the one that an earlier answer says is `came_to walked c.old`, or, where the cursor is only read, `w` is `(came_to walked.now c.now).walk`, and the bytes, `buf.old`, are `c.old.bytes.now`; where nothing is written the clause is `came_to result c.now ≡ X`',
    'expands': 'the same of the walk with two buffers: `progress result work.new res.new ≡ X` is `Expands c.old c.new result res.new X`',
    'moves': 'the same of a step that is never refused: `progress result buf.new ≡ X` is `Moves c.old c.new X`',
    'subst': 'a substitution is one value: `tapes def.now call.now args.now m` is `tapes_of s.now`, `def.now args.now m` is `s.now.definition.bytes.now s.now.args.now (maps_at s.now)`, `m` is `maps_at s.now`; in a method with `self` for `s`',
    'reads': 'an expansion is one value: `reads reg.now places.now cond.now x` is `reads_of x.now`',
    'rows': 'the rows of a registry stand beside its tape in one value: `s.now l (rows_in places.now count)` is `index.now.tape.bytes.now index.now.tape.layout index.now.rows.now`',
    'puts': 'a message is written by a writer: `Written message.old message.new result t` is `Puts t message.old message.new`, and `Writes ts (message_in message.old at) (message_in message.new result)` is `PutsAll ts message.old message.new`',
    'same': 'variables have other names, and nothing else changed',
}

# The order of the table of rules: by how many rules (protected goes with tape), then by these.
ORDER = ['tape', 'place', 'grammar', 'held', 'protected', 'declared', 'walks', 'expands', 'moves', 'subst', 'reads', 'rows', 'puts', 'same']

# ------------------------------------------------------------------ clauses by rules


def parameters(f):
    """A function's parameters: (name, type); self's type is that of its impl."""
    opens = f.sign.index('(', closing(f.sign, 0, '<', '>') if f.sign.startswith('<') else 0)
    inner, out, deep, at = f.sign[opens + 1:closing(f.sign, opens, '(', ')') - 1], [], 0, 0
    for i, c in enumerate(inner + ','):
        deep += (c in '([<') - (c in ')]' or (c == '>' and inner[i - 1] != '-'))
        if c == ',' and not deep:
            part = inner[at:i].strip()
            at = i + 1
            if part:
                name, _, kind = part.partition(':')
                own = name.strip().split()[-1].lstrip('&') == 'self'
                kind = '&' + f.type if own else kind
                out.append(('self' if own else name.strip(), re.sub(r"'\w+ ?|<[^<>]*>$", '', kind).replace(' ', '')))
    return out


class Text:
    """The clauses of a function while rules turn them; what a rule wrote is out of the other rules' sight."""

    def __init__(self, clauses):
        self.clauses, self.kept, self.rules = [list(c) for c in clauses], [], set()

    def keep(self, new):
        self.kept.append(new)
        return f'\0{len(self.kept) - 1}\0'

    def turn(self, rule, pattern, new):
        """A rule: each place of a pattern, which is no part of a longer word, is kept as new, its groups turned like the rest."""
        pattern = re.compile(r"(?<![\w.'])" + pattern + r"(?![\w'])")

        def one(m):
            self.rules.add(rule)
            parts = re.split(r'\\(\d)', new)
            return ''.join(m[int(p)] if i % 2 else self.keep(p) if p else '' for i, p in enumerate(parts))

        for c in self.clauses:
            c[2] = pattern.sub(one, c[2])

    def done(self):
        def full(t):
            while '\0' in t:
                t = re.sub('\0(\\d+)\0', lambda m: self.kept[int(m[1])], t)
            return t
        return [(kind, name, full(text)) for kind, name, text in self.clauses]


def respelled(old, new):
    """The clauses of an old function as the rules spell them for the new one, and which rules did it."""
    a, b, t = parameters(old), parameters(new), Text(old.clauses)
    here = {name for name, _ in b}
    kinds = collections.defaultdict(list)
    for name, kind in b:
        kinds[kind.replace('mut', '').lstrip('&')].append(name)
    cursor = [(name, kind) for name, kind in b if kind in ('&Cursor', '&mutCursor')]
    one = lambda kind: kinds[kind][0] if len(kinds[kind]) == 1 else None
    slices = [name for name, kind in a if kind == '&[u8]']

    # the slices that had a layout beside them, and the tapes that are in their stead
    pairs_ = [(x, y) for (x, k), (y, l) in zip(a, a[1:]) if k == '&[u8]' and l == 'Layout']
    tapes = []
    for name, kind in b:
        tapes += {
            '&Tape': [('tape', f'{name}.now')],
            '&HeldTape': [('held', f'{name}.now.tape')],
            '&Index': [('tape', f'{name}.now.tape')],
            '&Protected': [('protected', f'{name}.now.registry'), ('protected', f'{name}.now.condition')],
        }.get(kind, [])

    if kinds['Index']:
        t.turn('rows', r'\(rows_in places\.now count\)', kinds['Index'][0] + '.now.rows.now')
    if one('Grammar'):
        t.turn('grammar', r'grammar\.now', f"(rules {one('Grammar')}.entry)")
    if 'message' in kinds['Message']:
        t.turn('puts', r'Written message\.old message\.new result (.+)', r'Puts \1 message.old message.new')
        t.turn('puts', r'Writes (.+) \(message_in message\.old (?:at|0)\) \(message_in message\.new result\)', r'PutsAll \1 message.old message.new')

    if cursor:
        c = cursor[0][0]
        shut = lambda m: m if re.fullmatch(r'\S+', m) else f'({m})'
        for k in t.clauses:
            for rule, pattern, form in (
                ('expands', r'progress result (\w+)\.new (\w+)\.new ≡ (.+)', lambda m: f'Expands {c}.old {c}.new result {m[2]}.new {shut(m[3])}'),
                ('walks', r'progress result (\w+)\.new ≡ (.+)', lambda m: f'Walks {c}.old {c}.new result {shut(m[2])}'),
                ('walks', r'progress result (\w+)\.now ≡ (.+)', lambda m: f'came_to result {c}.now ≡ {m[2]}'),
            ):
                m = re.fullmatch(pattern, k[2])
                if not m:
                    continue
                if rule == 'walks' and '->' not in new.sign:
                    rule, form = 'moves', lambda m: f'Moves {c}.old {c}.new {shut(m[2])}'
                head, body = form(m).split(m[m.lastindex], 1)[0], m[m.lastindex]
                tail = form(m)[len(head) + len(body):]
                k[2] = t.keep(head) + body + tail
                t.rules.add(rule)
                walk = next((name for name, kind in a if kind == 'Walk'), None)
                buf = m[1]
                going = f'came_to walked {c}.old' if 'walked' in here else f'going_at {c}.old'
                if rule == 'expands':
                    t.turn(rule, rf'progress {walk} {buf}\.old {m[2]}\.old', f'{going} {m[2]}.old')
                t.turn(rule, rf'progress {walk} {buf}\.old', going)
                t.turn(rule, rf'progress {walk} {buf}\.now', f'going_at {c}.now')
                t.turn(rule, r'st', f'(state_at {c}.old)')
                t.turn(rule, rf'{buf}\.old', f'{c}.old.bytes.now')
                break
        if cursor[0][1] == '&Cursor' and 'walked' in here:
            t.turn('walks', r'w', f'(came_to walked.now {c}.now).walk')

    if one('Declared'):
        d = one('Declared')
        t.turn('declared', r's\.now', f'{d}.now.tape.bytes.now')
        t.turn('declared', r'd', f'(declaration {d}.now)')
    if one('Substitution'):
        s = one('Substitution')
        t.turn('subst', r'tapes def\.now call\.now args\.now m', f'tapes_of {s}.now')
        t.turn('subst', r'def\.now', f'{s}.now.definition.bytes.now')
        t.turn('subst', r'call\.now', f'{s}.now.call.bytes.now')
        t.turn('subst', r'args\.now', f'{s}.now.args.now')
        t.turn('subst', r'm', f'(maps_at {s}.now)')
    if one('Expansion'):
        x = one('Expansion')
        t.turn('reads', r'reads reg\.now places\.now cond\.now x', f'reads_of {x}.now')
        t.turn('reads', r'reg\.now', f'{x}.now.registry.tape.bytes.now')
        t.turn('reads', r'x\.registry', f'{x}.now.registry.tape.layout')
        t.turn('reads', r'x\.(limit|file)', x + r'.now.\1')
    elif ('x', 'Context') in a and one('Tape'):
        t.turn('reads', r'cond\.now', f"{one('Tape')}.now.bytes.now")
        t.turn('reads', r'x\.condition', f"{one('Tape')}.now.layout")

    if any(kind == 'Checked' and name not in here for name, kind in a) and ('p', 'Place') in b and ('p', 'Place') not in a:
        w = next(name for name, kind in a if kind == 'Checked')
        t.turn('place', w, '(Ok p)')

    if len(pairs_) == len(tapes):
        for (s, l), (rule, to) in zip(pairs_, tapes):
            if rule == 'held':
                t.turn('held', rf'Held {s}\.now {l}(?: × )?', '')
            t.turn(rule, rf'{s}\.now', f'{to}.bytes.now')
            t.turn(rule, l, f'{to}.layout')
        t.clauses = [c for c in t.clauses if c[2]]
    if 'protected' in t.rules:
        t.rules.add('tape')

    if not t.rules:
        rest = [p for p in b if p not in a]
        for name, kind in a:
            if name not in here:
                to = next((p for p in rest if p[1] == kind), None)
                if to:
                    rest.remove(to)
                    t.turn('same', name, to[0])
    return t.done(), [r for r in RULES if r in t.rules]


# ------------------------------------------------------------------ statements by names


def bare(x):
    return x[1:-1] if x.startswith('(') and closing(x, 0, '(', ')') == len(x) else x


def tupled(m, new):
    args = m.groupdict().get('args')
    return f"{new} ({', '.join(bare(x) for x in re.findall(ATOM, args))})" if args else new


def alike(old, new):
    """Whether a statement says what it said but for the names of the tables above."""
    given = [old, old]
    for pattern, to in TUPLES:
        given[1] = re.sub(r'(?<![\w.])' + pattern, lambda m: tupled(m, to), given[1])
    for text in given:
        out = []
        for token in re.findall(r'[^\s(){}\[\],]+|.', text):
            forms = [token] + [f for t in (TYPES, WORDS) if token in t for f in (t[token], f'({t[token]})')]
            out.append('(?:' + '|'.join(map(re.escape, forms)) + ')')
        if re.fullmatch(''.join(out), new):
            return True
    return False


def unlike(old, new):
    """The texts of a name that changed by more than names."""
    old, new = list(old), list(new)
    for same in (lambda x, y: x == y, alike):
        for x in list(old):
            y = next((y for y in new if same(x, y)), None)
            if y is not None:
                old.remove(x)
                new.remove(y)
    return old, new


# ------------------------------------------------------------------ what became what


def functions_found(old, new):
    """Each old function with the new ones that it became; and the new ones that none became."""
    found, left = {}, set(new)
    for key in sorted(old):
        to = [key] if key in new else [k for k in MOVED.get((key[0], key[3]), []) if k in new]
        left.difference_update(to)
        found[key] = to
    for key in sorted(old):
        if not found[key]:
            # one that became a method, or moved within its crate: it stands in its file, if it can
            same = sorted((k for k in left if k[0] == key[0] and k[3] == key[3]), key=lambda k: (k[1] != key[1], k))
            left.difference_update(same[:1])
            found[key] = same[:1]
    return found, sorted(left)


def definitions_found(old, new):
    """The same of definitions."""
    found = {key: key for key in old if key in new}
    left = set(new) - set(found.values())
    for key in sorted(set(old) - set(found)):
        crate, name = RENAMED.get((key[0], key[2]), (key[0], key[2]))
        same = sorted(k for k in left if (k[0], k[2]) == (crate, name))
        left.difference_update(same[:1])
        found[key] = same[0] if same else None
    return found, sorted(left)


# ------------------------------------------------------------------ the section

HEAD = """# Old and new, side by side

A line with `-` is what stood at the commit above, one with `+` what stands now; without a sign it is what stands now and is new. Found by the text of the sources, and written by `tools/sides.py`; functions that became methods are found by their names, those that moved or have another name by hand. Signatures and clauses are those of public functions; private ones are in the sources.
"""


def spaced(*parts):
    return ' '.join(p for p in parts if p)


def fenced(entries, apart=''):
    """Entries of each crate, in a block below its name."""
    for crate, those in sorted(entries.items()):
        yield f'`{crate}`\n\n```text'
        yield f'\n{apart}'.join('\n'.join(e) for e in those)
        yield '```\n'


def clause_lines(sign, clauses):
    return [spaced(sign, kind, name, '{ ' + text + ' }') for kind, name, text in clauses]


def whence(key, tos):
    """The name of a function, and behind an arrow where it stands now, if that is elsewhere."""
    there = ', '.join(spaced(*(k if k[0] != key[0] else k[1:])) for k in tos)
    return spaced(*key[1:]) + (f'  ->  {there}' if tos != [key] else '')


def signatures(old, new, found):
    entries = collections.defaultdict(list)
    for key, tos in sorted(found.items()):
        if tos and [new[k].sign for k in tos] != [old[key].sign]:
            entries[key[0]].append([whence(key, tos), '- ' + old[key].sign] + ['+ ' + new[k].sign for k in tos])
    yield '## Public signatures\n'
    yield from fenced(entries, '\n')


def types(old, new):
    entries = collections.defaultdict(list)
    for key in sorted(set(old) | set(new)):
        lines = [f'{sign} {those[key]}' for sign, those in (('-', old), ('+', new)) if key in those]
        if old.get(key) != new.get(key):
            entries[key[0]].append(lines)
    yield '## Public types\n\nFields, variants and lifetimes; those that only derive more are under "What became what".\n'
    yield from fenced(entries)


def gone_and_new(old, new, found, left):
    entries = collections.defaultdict(list)
    for key, tos in sorted(found.items()):
        if not tos:
            entries[key[0]].append([spaced('-', *key[1:], old[key].sign)] + clause_lines('-', old[key].clauses))
    yield '## Public functions that are gone\n\nWhat states their promise now stands under "What became what".\n'
    yield from fenced(entries)
    entries = collections.defaultdict(list)
    for key in left:
        entries[key[0]].append([spaced(*key[1:], new[key].sign)] + clause_lines(' ', new[key].clauses))
    yield '## Public functions that are new\n'
    yield from fenced(entries)


def clauses(old, new, found):
    by_rules, more = collections.defaultdict(lambda: collections.defaultdict(list)), []
    for key, tos in sorted(found.items()):
        now = [c for k in tos for c in new[k].clauses]
        if not tos or old[key].clauses == now:
            continue
        spelled, rules = respelled(old[key], new[tos[0]])
        if spelled == now and len(tos) == 1:
            of = re.sub('<.*', '', tos[0][2])
            by_rules[tuple(rules)][key[0]].append(f"`{of + '::' if of else ''}{tos[0][3]}`")
        else:
            names = ' and '.join('`' + spaced(*(k if k[0] != key[0] else k[1:])) + '`' for k in tos)
            lines = clause_lines('-', old[key].clauses) + clause_lines('+', now)
            more.append('\n'.join([f"`{spaced(*key)}`{', now ' + names if tos != [key] else ''}\n\n```text", *lines, '```\n']))
    few = sum(len(those) for crates in by_rules.values() for those in crates.values())
    yield f"## Clauses of public functions\n\nThe clauses of {few + len(more)} changed. Those of {few} changed by these rules of spelling and nothing else:\n"
    used = {r for rules in by_rules for r in rules}
    yield from (f'- **{rule}**: {says}' for rule, says in RULES.items() if rule in used)
    yield '\n| rules | functions |\n|---|---|'
    for rules in sorted(by_rules, key=lambda rules: (len(set(rules) - {'protected'}), [ORDER.index(r) for r in rules])):
        yield f"| {', '.join(rules)} | " + '; '.join(f"{crate}: {', '.join(those)}" for crate, those in sorted(by_rules[rules].items())) + ' |'
    yield '\nThose that changed by more:\n'
    yield from more


def ghosts(old, new):
    yield '## Type invariants, ghost fields and ghost items of traits\n\n```text'
    for key in sorted(set(old) | set(new)):
        if old.get(key) != new.get(key):
            if key in old:
                yield spaced('-', *key, old[key])
            if key in new:
                yield spaced('+' if key in old else '', *key, new[key])
    yield '```\n'


def specs_changed(old, new):
    found, left = definitions_found(old, new)
    gone = [key for key in sorted(old) if not found[key]]
    same = [key for key, to in found.items() if to and key[0] == to[0] and sorted(old[key]) == sorted(new[to])]
    changed = sorted(set(old) - set(gone) - set(same), key=lambda key: (key[0], key[2], key[1]))
    yield f'## Definitions of specs/\n\n{len(same):,} have the text that they had, {len(changed)} changed, {len(gone)} are gone and {len(left)} are new.\n'
    entries = collections.defaultdict(list)
    for key in changed:
        to, a, b = found[key], list(old[key]), list(new[found[key]])
        for text in [x for x in a if x in b] if (key[0], key[2]) == (to[0], to[2]) else []:
            a.remove(text)
            b.remove(text)
        there = spaced(to[0] if to[0] != key[0] else '', to[2])
        entries[key[0]].append([key[2] + (f'  ->  {there}' if there != key[2] else '')] + [f'- {x}' for x in a] + [f'+ {x}' for x in b])
    yield from fenced(entries, '\n')
    by_name = lambda key: (key[0], key[2], key[1])
    yield '### Gone\n\n```text'
    yield from (f'- {key[0]} {text}' for key in sorted(gone, key=by_name) for text in old[key])
    yield '```\n\n### New\n\n```text'
    yield from (f'{key[0]} {text}' for key in sorted(left, key=by_name) for text in new[key])
    yield '```\n'


def lemmas(old, new, names):
    yield '## Lemmas and theorems of proofs/ that README or docs/ name\n'
    yield 'Those whose statement changed by more than the name of a constructor, a type or a table of the grammar (`temporal_words` is `temporal_grammar`, `provider_words` is `provider_grammar`, `t.words` of a `Table` is `t.grammar`):\n'
    for key in sorted(old):
        if key[2] in names and key in new:
            a, b = unlike(old[key], new[key])
            if a or b:
                yield f"`{key[0]}` {key[1].removesuffix('.antt')} `{key[2]}`\n\n```text"
                yield from [f'- {x}' for x in a] + [f'+ {x}' for x in b]
                yield '```\n'


def hint(old, new, old_specs, new_specs):
    """What may be missing in the tables of names, or is of no use there any more."""
    say = lambda *parts: print('look:', *parts, file=sys.stderr)
    found, left = functions_found(old, new)
    for key, tos in found.items():
        same = [k for k in left if k[3] == key[3]]
        if same and not tos:
            say('the function', spaced(*key), 'is gone; of its name there is', ', '.join(spaced(*k) for k in same))
        else:
            # another that could be meant as well: none that stands in the old one's file where the other does not
            too = [k for k in same if tos != [key] and k[0] == key[0] and (k[1] == key[1] or tos[0][1] != key[1])]
            if too and (key[0], key[3]) not in MOVED:
                say('the function', spaced(*key), 'was taken to be', spaced(*tos[0]), 'and not', ', '.join(spaced(*k) for k in too))
    for key, tos in MOVED.items():
        if not any((k[0], k[3]) == key for k in old) or not set(tos) <= set(new):
            say('MOVED has', *key, 'that is not so')
    at, left = definitions_found(old_specs, new_specs)
    for key in sorted(k for k in at if not at[k]):
        same = [k for k in left if k[2] == key[2]]
        if same:
            say('the definition', *key, 'is gone; of its name there is', ', '.join(spaced(*k) for k in same))
    for key, to in RENAMED.items():
        if not any((k[0], k[2]) == key for k in old_specs) or not any((k[0], k[2]) == to for k in new_specs):
            say('RENAMED has', *key, 'that is not so')


def section(old_root, new_root):
    old, new = sources(old_root), sources(new_root)
    old_specs, new_specs = specs(old_root), specs(new_root)
    hint(old[0], new[0], old_specs, new_specs)
    found, left = functions_found(old[0], new[0])
    yield HEAD
    yield from signatures(old[0], new[0], found)
    yield from types(old[1], new[1])
    yield from gone_and_new(old[0], new[0], found, left)
    yield from clauses(old[0], new[0], found)
    yield from ghosts(old[2], new[2])
    yield from specs_changed(old_specs, new_specs)
    yield from lemmas(proofs(old_root), proofs(new_root), named(new_root))


if __name__ == '__main__':
    if len(sys.argv) != 3:
        sys.exit(__doc__)
    print('\n'.join(section(sys.argv[1], sys.argv[2])).rstrip('\n'))
