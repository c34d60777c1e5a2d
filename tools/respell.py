#!/usr/bin/env python3
"""Brings the repository's own names to the kit's spelling. Run once, at the top of the repository: python3 tools/respell.py

Words are in snake case. A dash stays where every part of a name is the name of a definition; a plain word hangs on by `_`. Names that begin with a
capital, names of Rust's source, of the kit and of generated modules stay. A second run changes nothing."""
import collections
import os
import re
import subprocess
import sys

# ---- names that are not spelled by rule, since the rule's spelling is taken: (module, name) or name -> name
OTHER = {
    # a law has the name of the definition that it is of, and ends in `_lem` as the kit's do
    ('curve/proofs/Numbered', 'curve-fields'): 'curve_fields_lem',
    ('curve/proofs/Numbered', 'hour-fields'): 'hour_fields_lem',
    ('curve/proofs/Numbered', 'run-fields'): 'run_fields_lem',
    ('curve/specs/FirstRefusal', 'hour-refused'): 'hour_is_refused',
    ('curve_group/proofs/Season', 'group-block'): 'group_block_lem',
    ('curve_group/proofs/Season', 'group-season'): 'group_season_lem',
    ('curve_hour/proofs/HourCases', 'hour-too-long'): 'hour_too_long_lem',
    ('curve_page/proofs/Pages', 'page-row'): 'page_row_lem',
    ('curve_set/proofs/CurveValues', 'even-values'): 'even_values_lem',
    ('curve_settling/proofs/Range', 'pair-in-range'): 'pair_in_range_lem',
    ('curve_settling/proofs/Range', 'pairs-in-range'): 'pairs_in_range_lem',
    ('curve_text/proofs/CurveInRange', 'pairs-in-range'): 'pairs_in_range_lem',
    ('known/proofs/Group', 'group-values'): 'group_values_lem',
    ('known/proofs/Held', 'held-values'): 'held_values_lem',
    ('known/proofs/Known', 'all-known-values'): 'all_known_values_lem',
    ('known/proofs/Length', 'length-values'): 'length_values_lem',
    ('known/proofs/Marks', 'marked-and-more'): 'marked_and_more_lem',
    ('known/proofs/Marks', 'marked-below'): 'marked_below_lem',
    ('known/proofs/Marks', 'marked-header'): 'marked_header_lem',
    ('known/proofs/Marks', 'marked-held'): 'marked_held_lem',
    ('known/proofs/Marks', 'marked-hsl'): 'marked_hsl_lem',
    ('known/proofs/Marks', 'marked-load'): 'marked_load_lem',
    ('known/proofs/Marks', 'marked-out'): 'marked_out_lem',
    ('known/proofs/Marks', 'marked-texts'): 'marked_texts_lem',
    ('known/proofs/Marks', 'marked-values'): 'marked_values_lem',
    ('known/proofs/Marks', 'twice-marked'): 'twice_marked_lem',
    ('known/proofs/Page', 'page-values'): 'page_values_lem',
    ('known/proofs/Pricing', 'as-listed'): 'as_listed_lem',
    ('known/proofs/Pricing', 'at-level-one'): 'at_level_one_lem',
    ('known/proofs/Pricing', 'below-minimum'): 'below_minimum_lem',
    ('known/proofs/Pricing', 'empty-hsl'): 'empty_hsl_lem',
    ('known/proofs/Pricing', 'missing-lpc'): 'missing_lpc_lem',
    ('known/proofs/Pricing', 'one-load'): 'one_load_lem',
    ('known/proofs/Pricing', 'other-ids'): 'other_ids_lem',
    ('known/proofs/Pricing', 'priced-values'): 'priced_values_lem',
    ('known/proofs/Pricing', 'repeated-id'): 'repeated_id_lem',
    ('known/proofs/Pricing', 'short-load'): 'short_load_lem',
    ('known/proofs/Pricing', 'two-loads'): 'two_loads_lem',
    ('known/proofs/Probability', 'table-values'): 'table_values_lem',
    ('known/proofs/Settling', 'settled-values'): 'settled_values_lem',
    ('known/proofs/Witness', 'booked-all'): 'booked_all_lem',
    ('normal/proofs/Table', 'even-by'): 'even_by_lem',
    ('normal/proofs/Table', 'knot-by'): 'knot_by_lem',
    ('normal/proofs/Table', 'odd-by'): 'odd_by_lem',
    ('pricing/proofs/Held', 'text-of'): 'text_of_lem',
    ('pricing/proofs/HeldRows', 'kind-place'): 'kind_place_lem',
    ('pricing/proofs/HeldRows', 'status-place'): 'status_place_lem',
    ('pricing_adder/proofs/Accepted', 'sums-priced'): 'sums_priced_lem',
    ('pricing_held/proofs/Held', 'held-answer'): 'held_answer_lem',
    ('pricing_held/proofs/Held', 'held-text'): 'held_text_lem',
    ('pricing_held/proofs/RowChecks', 'row-lines'): 'row_lines_lem',
    ('pricing_held_reading/proofs/Readings', 'values-from'): 'values_from_lem',
    ('pricing_held_reading/proofs/RowsRead', 'of-kind'): 'of_kind_lem',
    ('pricing_held_reading/proofs/RowsRead', 'status-place'): 'status_place_lem',
    ('pricing_held_text/proofs/RowTexts', 'row-text'): 'row_text_lem',
    ('pricing_held_text/proofs/RowTexts', 'rows-text'): 'rows_text_lem',
    ('pricing_resource_text/proofs/Lines', 'generator-marked'): 'generator_marked_lem',
    ('pricing_resource_text/proofs/Lines', 'load-marked'): 'load_marked_lem',
    ('pricing_resource_text/proofs/Readings', 'generator-at'): 'generator_at_lem',
    ('pricing_resource_text/proofs/Readings', 'of-kind'): 'of_kind_lem',
    ('pricing_snapshot/proofs/HeaderLines', 'header-lines'): 'header_lines_lem',
    ('pricing_snapshot/proofs/Snapshots', 'after-tally'): 'after_tally_lem',
    ('pricing_snapshot/proofs/SuspectLine', 'suspect-line'): 'suspect_line_lem',
    ('pricing_snapshot/proofs/Tallies', 'tally-with'): 'tally_with_lem',
    ('pricing_sums/proofs/Headers', 'header-fault'): 'header_fault_lem',
    ('pricing_sums/proofs/Parts', 'sums-possible'): 'sums_possible_lem',
    ('program_curves/proofs/Taking', 'settle-refused'): 'settle_refused_lem',
    ('program_price/proofs/Printing', 'curve-part'): 'curve_part_lem',
    ('program_price/proofs/Printing', 'snapshot-part'): 'snapshot_part_lem',
    ('text/proofs/Values', 'in-range'): 'in_range_lem',
    ('text/proofs/Values', 'judged-number'): 'judged_number_lem',
    ('text_line/proofs/DueLines', 'first-line'): 'first_line_lem',
    ('text_number/proofs/Numbers', 'in-range'): 'in_range_lem',
    ('text_number/proofs/WrittenDigits', 'digits-within'): 'digits_within_lem',
    ('text_schema/proofs/Marks', 'no-marked'): 'no_marked_lem',
    ('text_schema/proofs/Readings', 'all-bounded'): 'all_bounded_lem',
    ('text_word/proofs/Words', 'same-computed'): 'same_computed_lem',
    ('text_writer/proofs/Counted', 'key-bytes'): 'key_bytes_lem',
    # the definition `exactBelow` and the law `exact_below`, and so on: both would be one name
    ('normal/proofs/Table', 'exact_below'): 'exact_below_lem',
    ('text_number/proofs/WrittenDigits', 'is_digit'): 'is_digit_lem',
    ('text_writer/proofs/MarkedLines', 'marked_next'): 'marked_next_lem',
    # arguments that would hide the definitions `idRow` and `numberRow`
    ('pricing_held_reading/proofs/EntryRows', 'id-row'): 'put_id_row',
    ('pricing_held_reading/proofs/EntryRows', 'number-row'): 'put_number_row',
    # a field that would hide the definition `curvesLength` in its own record
    'curves-length': 'measuring_curves',
}

# what a name without humps and dashes collides with
RIVALS = {'exact_below': 'exactBelow', 'is_digit': 'isDigit', 'marked_next': 'markedNext'}

# words of operators and constructors that a dash joins as it joins definitions
OPERATORS = {'◌++◌': 'append', '◌∷◌': 'cons', '[]': 'nil', '◌+◌': 'add', '◌-◌': 'sub', '◌*◌': 'mul', '◌/◌': 'div', '◌%◌': 'mod', '◌≤◌': 'le', '◌<◌': 'lt'}

# words of the language that are also names of definitions somewhere: in a lemma's name they are plain words. (The examples of crates/known are none either.)
PLAIN = set('is none some start set not long one same'.split())

# antt's reserved words and Prim's names
KEYWORDS = set('data record deriving module where use mod pub package open as unfoldable abbrev axiom unfold unfolding ruleset mutual infix infixl infixr '
               'elim let in do coe fcoe tcoe hcom com rw simp search grw cc omega grind hlevel assumption first_of cap vin vproj in_s out_s yes no refl with '
               'at subst absurd pattern private'.split())

NAME = r'[^\s(){}.;,@"«»`\[\]]+'
PIECE = re.compile(r'("(?:[^"\\\n]|\\.)*")|(\{-.*?-\})|((?<![^\s(){};,])--[^\n]*)|(' + NAME + ')', re.S)
HEAD = re.compile(r'^([ \t]*)(?:(?:pub|abbrev|unfoldable|pattern|axiom|private|mutual)[ \t]+)*(' + NAME + r')(?: \{[^}]*\})?[ \t]+:(?=\s)', re.M)
RULESET = re.compile(r'^([ \t]*)(?:pub[ \t]+)?ruleset[ \t]+(' + NAME + r')', re.M)
USE = re.compile(r'^[ \t]*(?:pub[ \t]+)?(?:ghost[ \t]+)?use[ \t]+([^\s{;]+?)(?:\.\{([^}]*)\}|[ \t]+as[ \t]+([^\s;]+)|(?=[\s;]))', re.M)
OWN = re.compile(r'Rattle[.·](\w+)[.·](specs|proofs)\.(.+)$')


def read(path):
    with open(path, encoding='utf-8') as f:
        return f.read()


def tracked(*patterns):
    out = subprocess.run(['git', 'ls-files', '-z', '--'] + list(patterns), check=True, capture_output=True).stdout.decode()
    return sorted(p for p in out.split('\0') if p and os.path.isfile(p) and '/out/' not in p)


def bare(text):
    """The text with comments and strings blanked, positions kept."""
    return PIECE.sub(lambda m: m.group() if m.group(4) else re.sub(r'[^\n]', ' ', m.group()), text)


def lower_first(name):
    return re.match(r"[a-z]", name) is not None


def humped(name):
    return any(lower_first(w) and re.search(r'[a-z0-9][A-Zℤℕ]', w) for w in re.split(r'[-_]', name))


def candidate(name):
    """A name that the rules may respell."""
    if '◌' in name or re.fullmatch(r'-+|→|←|\W', name) or name.startswith('--') or name[0].isdigit() or re.match(r'[A-Z]', name):
        return False
    if '′' in name or humped(name):
        return True
    return re.search(r'[^-]-[^-]', name) is not None


def words(name):
    """Every hump a word; a part that begins with a capital stays."""
    def part(w):
        if not re.match(r'[a-z]', w):
            return w
        w = re.sub(r'([a-z0-9])([A-Zℤℕ])', r'\1_\2', w)
        w = re.sub(r'([A-Z]+)([A-Z][a-z])', r'\1_\2', w)
        return re.sub(r'[A-Z]', lambda m: m.group().lower(), w)
    return ''.join(p if p in '-_' else part(p) for p in re.split(r'([-_])', name.replace('′', "'")))


class Repository:
    def __init__(self):
        self.antt = tracked('crates/*.antt')
        self.rt = tracked('crates/*.rt')
        self.text = {p: read(p) for p in self.antt + self.rt}
        self.module = {}                     # (crate, specs|proofs, path) -> file
        self.own = {}                        # file -> names declared
        self.tops = {}                       # file -> names declared that are not helpers, fields or constructors
        self.imports = {}                    # file -> name -> module path
        self.aliases = {}                    # file -> alias -> module path
        self.members = set()                 # fields and constructors of own records and data types
        self.unresolved = []
        for p in self.antt:
            m = re.match(r'crates/(\w+)/(specs|proofs)/(.+)\.antt$', p)
            if m:
                self.module[(m.group(1), m.group(2), m.group(3).replace('/', '.'))] = p
        for p in self.antt + self.rt:
            code = bare(self.text[p])
            self.imports[p], self.aliases[p] = {}, {}
            for m in USE.finditer(code):
                if m.group(3):
                    self.aliases[p][m.group(3)] = m.group(1)
                elif m.group(2) is not None:
                    for item in m.group(2).split(','):
                        item = item.split()
                        if item:
                            self.imports[p][item[-1]] = (m.group(1), item[0])
            if p.endswith('.antt'):
                heads = [(m.group(1), m.group(2), m.start()) for r in (HEAD, RULESET) for m in r.finditer(code)]
                self.own[p] = {n for _, n, _ in heads}
                # a definition stands at the margin, or in a module without a name
                inside = [m for m in re.finditer(r'^([ \t]*)module _[^\n]*\n', code, re.M)]
                self.tops[p] = {n for d, n, at in heads if d == '' or (len(d) == 2 and self.in_module(code, at))}
                if not self.is_proof(p):
                    for m in re.finditer(r'^([ \t]*)(?:pub[ \t]+)?(?:record|data)[ \t][^\n]*(?:\n(?:[ \t]*(?=\n)|\1[ \t]+[^\n]*))*', code, re.M):
                        self.members |= {h.group(2) for h in HEAD.finditer(m.group()[m.group().find('\n') + 1:]) if h.group(2)}
        self.definitions = self.find_definitions()

    @staticmethod
    def is_proof(path):
        """A proof of a function: it is written beside what Rattle makes of the function."""
        return re.match(r'crates/\w+/proofs/.+/', path) is not None

    @staticmethod
    def in_module(code, at):
        for line in reversed(code[:at].split('\n')[:-1]):
            if line.strip() and not line.startswith((' ', '\t')):
                return line.startswith('module _')
        return False

    def find_definitions(self):
        """Names that a dash may join: definitions of specs/, and what is imported of the kit."""
        kit = set()
        for p in self.antt + self.rt:
            for name, (path, _) in self.imports[p].items():
                m = OWN.match(path)
                if m is None or m.group(1) == 'std':
                    kit.add(OPERATORS.get(name, name))
                    if '◌' in name:
                        kit.add(name.replace('◌', ''))
        found = {n for n in kit if n and '-' not in n}
        own = {n for p in self.tops if '/specs/' in p and not p.startswith('crates/known/') for n in self.tops[p]}
        found |= {words(n) for n in own if '-' not in n}
        return found - PLAIN

    def respell(self, name, where=None):
        if (where, name) in OTHER and self.stands(where, name):
            return OTHER[(where, name)]
        if name in OTHER:
            return OTHER[name]
        if not candidate(name):
            return name
        original = name
        name = words(name)
        parts = name.split('-')
        if len(parts) == 1 or '' in parts:
            return name
        # all divisions into parts that are definitions; the one with the most dashes, the first of them, else none
        best = None
        n = len(parts) if original not in self.members else 1      # fields and constructors are one word

        for mask in range(2 ** (n - 1) - 1, 0, -1):
            runs, run = [], parts[0]
            for i in range(n - 1):
                if mask >> (n - 2 - i) & 1:
                    runs.append(run)
                    run = parts[i + 1]
                else:
                    run += '_' + parts[i + 1]
            runs.append(run)
            if all(r in self.definitions for r in runs) and (best is None or len(runs) > len(best)):
                best = runs
        return '-'.join(best) if best else '_'.join(parts)

    def stands(self, where, name):
        """Whether what a name collides with still has its old name, so that a second run finds nothing to do."""
        p = 'crates/%s.antt' % where
        return candidate(name) or any(RIVALS[name] in names.get(p, ()) for names in (self.own, self.imports))

    def source(self, path, name, seen=()):
        """The own module that declares an imported name, or None where the name is not the repository's."""
        m = OWN.match(path)
        if m is None:
            return None
        p = self.module.get(m.groups())
        if p is None or p in seen:
            return None
        if name in self.own[p]:
            return (p, name)
        if name in self.imports[p]:
            return self.source(*self.imports[p][name], seen + (p,))
        return None

    def renamed(self, p):
        """For one file: name -> spelling, of all names in scope that are known; names absent are locals."""
        out = {}
        for name, (path, original) in self.imports[p].items():
            found = self.source(path, original)
            if found is None:
                m = OWN.match(path)
                if m and m.groups() in self.module and candidate(original) and not self.is_proof(self.module[m.groups()]):
                    self.unresolved.append((p, path, original))
                out[name] = name
            else:
                out[name] = self.respell(found[1], self.key(found[0])) if name == original else name
        for name in self.aliases[p]:
            out[name] = name
        return out

    @staticmethod
    def key(p):
        return re.sub(r'^crates/(.*)\.antt$', r'\1', p)


class Speller:
    """What becomes of each word of one file."""

    def __init__(self, repo, p, notes):
        self.repo, self.p, self.notes = repo, p, notes
        self.scope = repo.renamed(p)
        self.proof = repo.is_proof(p)
        self.rt = p.endswith('.rt')
        self.own = repo.own.get(p, set())
        self.used = {}

    def local(self, name):
        if self.proof or self.rt:
            return name
        return self.repo.respell(name, self.repo.key(self.p))

    def word(self, name, before, after, base):
        repo = self.repo
        projected = before.endswith('.') and not before.endswith('..')
        tight = projected and len(before) > 1 and not before[-2].isspace() or projected
        if tight:
            if base in repo.aliases[self.p]:
                found = repo.source(repo.aliases[self.p][base], name)
                return repo.respell(found[1], repo.key(found[0])) if found else name
            # what stands right after a step of the code (`c.`) is what Rattle made of the code, whatever its name
            if name in repo.members and not (self.proof and (name in self.own or base == 'c')):
                return repo.respell(name)
            return name
        if name in self.scope:
            return self.scope[name]
        if (self.proof or self.rt) and name not in self.own and re.match(r'\s*=(?!\S)', after) and re.search(r'[{;]\s*$', before):
            # a field that is given, or an argument by its name
            new = repo.respell(name)
            if name in repo.members:
                return new
            if new != name:
                self.notes['argument or field by its name, left'].append((self.p, name))
            return name
        return self.local(name)

    def comment(self, text):
        def of(m):
            name = m.group()
            ticked = text[m.start() - 1:m.start()] == '`' and text[m.end():m.end() + 1] == '`'
            if not (humped(name) or (ticked and candidate(name))):
                return name
            if name in self.scope:
                return self.scope[name]
            if name in self.own and not self.proof:
                return self.local(name)
            return self.repo.told(name)
        return re.sub(r"[^\s(){}.;,@\"«»`\[\]:!?]+", of, text)

    def text(self, text):
        out, last = [], 0
        uses = [(m.start(1), m.end(1)) for m in USE.finditer(text)] + [(m.start(3), m.end(3)) for m in USE.finditer(text) if m.group(3)]
        for m in PIECE.finditer(text):
            if m.group(1):
                continue
            out.append(text[last:m.start()])
            last = m.end()
            if m.group(2) or m.group(3):
                out.append(self.comment(m.group()))
                continue
            name = m.group()
            if not candidate(name) or any(a <= m.start() < b for a, b in uses):
                new = self.scope.get(name, name) if not candidate(name) else name
                if (self.repo.key(self.p), name) in OTHER and self.repo.stands(self.repo.key(self.p), name) and not text[m.start() - 1:m.start()] == '.':
                    new = OTHER[(self.repo.key(self.p), name)]
                new = new if not any(a <= m.start() < b for a, b in uses) else name
                if new != name:
                    self.used.setdefault(name, new)
                out.append(new)
                continue
            before = text[max(0, m.start() - 60):m.start()]
            base = re.search(r'(' + NAME + r')\.$', before)
            new = self.word(name, before, text[m.end():m.end() + 20], base.group(1) if base else None)
            self.used.setdefault(name, new)
            out.append(new)
        out.append(text[last:])
        return ''.join(out)


def told(repo):
    """Names that a text may tell of: each own name, where all modules that declare it spell it one way."""
    all_names = collections.defaultdict(set)
    kit = set()
    for p in repo.antt:
        if repo.is_proof(p):
            continue
        for n in repo.own[p]:
            if candidate(n):
                all_names[n].add(repo.respell(n, repo.key(p)))
    for p in repo.antt + repo.rt:
        for n, (path, _) in repo.imports[p].items():
            if not OWN.match(path) or OWN.match(path).group(1) == 'std':
                kit.add(n)
    spelled = {n: next(iter(s)) for n, s in all_names.items() if len(s) == 1 and n not in kit}
    # names of the time before the port, which docs and edits still have: the one name of now that has the same letters
    now = collections.defaultdict(set)
    for p in repo.antt:
        if not repo.is_proof(p):
            for n in repo.own[p]:
                new = repo.respell(n, repo.key(p))
                now[letters(new)].add(new)
    for n in kit:
        now[letters(n)].add(n)

    def of(name):
        if name in spelled:
            return spelled[name]
        if name in all_names or name in kit or not candidate(name):
            return name
        found = now.get(letters(name), ())
        return next(iter(found)) if len(found) == 1 and lower_first(next(iter(found))) else name
    return of


def letters(name):
    return re.sub(r'[-_]', '', name).replace('′', "'").lower()


# ---- .rt: ghost lines and clauses, nothing else

def clauses(text):
    """The spans of an .rt file that are no code: lines of ghost, and the clauses of contracts."""
    spans = [(m.start(), m.end()) for m in re.finditer(r'^[ \t]*(?:pub[ \t]+)?ghost\b[^\n]*', text, re.M)]
    for m in re.finditer(r'^[ \t]*(?:requires|ensures|invariant|decreases)\b[^{\n]*\{', text, re.M):
        depth, i = 1, m.end()
        while depth and i < len(text):
            depth += {'{': 1, '}': -1}.get(text[i], 0)
            i += 1
        spans.append((m.end(), i - 1))
    return sorted(spans)


def spell_rt(speller, text):
    out, last = [], 0
    for a, b in clauses(text):
        out += [text[last:a], speller.text(text[a:b])]
        last = b
    return ''.join(out + [text[last:]])


# ---- must-fail/*.edit

def spell_edit(repo, spellers, path, text, notes):
    crate = path.split('/')[1]
    target, out = None, []
    for line in text.split('\n'):
        m = re.match(r'(file|old|new):(.*)$', line)
        if line.startswith('#'):
            out.append(re.sub(r'`([^`]+)`', lambda t: '`' + ' '.join(repo.told(w) for w in t.group(1).split(' ')) + '`', line))
        elif m is None:
            out.append(line)
        elif m.group(1) == 'file':
            target = 'crates/%s/%s' % (crate, m.group(2).strip())
            out.append(line)
        elif target not in spellers:
            notes['edit of a file that is not there'].append((path, target))
            out.append(line)
        else:
            out.append(m.group(1) + ':' + spell_fragment(repo, spellers[target], m.group(2), notes, path))
    return '\n'.join(out)


def spell_fragment(repo, speller, text, notes, path):
    if speller.rt:
        if not re.search(r'\b(requires|ensures|ghost)\b|[≡≤ℕℤ×∷◌]', text):
            return text
    new = speller.text(text)
    # names as they were before the port: the one name of the file as it is now that has the same letters
    now = collections.defaultdict(set)
    for m in PIECE.finditer(bare(repo.after[speller.p])):
        if m.group(4):
            now[letters(m.group())].add(m.group())

    def of(m):
        name = m.group(4)
        if not name or not candidate(name):
            return m.group()
        found = now.get(letters(name), ())
        if name in found or not found:
            return name
        return next(iter(found)) if len(found) == 1 else name
    return PIECE.sub(of, new)


# ---- docs

def spell_doc(repo, text):
    def inline(m):
        return m.group(1) + re.sub(r"[^\s(){}.;,@\"«»`\[\]:/]+", lambda t: repo.told(t.group()) if not t.group().startswith('-') else t.group(), m.group(2)) + m.group(1)
    fenced = re.split(r'(^```.*?^```)', text, flags=re.M | re.S)
    for i, part in enumerate(fenced):
        if not part.startswith('```'):
            fenced[i] = re.sub(r'(`)([^`\n]+)`', inline, part)
    return ''.join(fenced)


# ---- the root file of each crate says that the check tries its tactics

TACTIC = '#![tactic(auto)]'


def add_tactic():
    count = 0
    for p in tracked('crates/*/src/lib.rt', 'crates/*/src/main.rt'):
        if not re.fullmatch(r'crates/[^/]+/src/(lib|main)\.rt', p):
            continue
        text = read(p)
        if re.search(r'^' + re.escape(TACTIC), text, re.M):
            continue
        lines = text.split('\n')
        i = 0
        while i < len(lines) and lines[i].startswith('//'):
            i += 1
        rest = lines[i:]
        if rest and rest[0].strip() and not rest[0].startswith('#!['):
            rest = [''] + rest
        new = lines[:i] + [TACTIC] + rest
        with open(p, 'w', encoding='utf-8') as f:
            f.write('\n'.join(new).rstrip('\n') + '\n')
        count += 1
    return count


# ---- names that fall together

def collisions(repo, spellers):
    found = []
    for p, s in sorted(spellers.items()):
        if s.rt:
            code = repo.text[p]
            names = set(re.findall(r'\b([a-z_]\w*)\b\s*:(?!:)', code))
            here = {n: s.scope[n] for n in s.scope}
            present = names
        else:
            text = repo.text[p]
            paths = [span for m in USE.finditer(text) for span in ([m.span(1), m.span(3)] if m.group(3) else [m.span(1)])]
            tokens = {m.group(4) for m in PIECE.finditer(text) if m.group(4) and text[m.start() - 1:m.start()] != '.'
                      and not any(a <= m.start() < b for a, b in paths)}
            here = {n: s.used.get(n, s.scope.get(n, n)) for n in tokens | set(s.repo.imports[p]) | s.own}
            present = set()
        by = collections.defaultdict(set)
        for n, new in here.items():
            by[new].add(n)
        for new, olds in sorted(by.items()):
            if len(olds) > 1 and any(o != new for o in olds):
                found.append((p, new, sorted(olds), [('imported ' + s.repo.imports[p][o][0]) if o in s.repo.imports[p] else 'declared' if o in s.own else 'local' for o in sorted(olds)]))
            if new in present and any(o != new for o in olds):
                found.append((p, new, sorted(olds), ['a name of the source']))
            if new in KEYWORDS and any(o != new for o in olds):
                found.append((p, new, sorted(olds), ['a reserved word']))
        if not s.rt and not s.proof:
            low = collections.defaultdict(set)
            for n in s.own:
                low[s.used.get(n, n).lower()].add(n)
            for k, olds in sorted(low.items()):
                if len({s.used.get(n, n) for n in olds}) > 1 and any(s.used.get(n, n) != n for n in olds):
                    found.append((p, k, sorted(olds), ['differ in case alone']))
    return found


def main():
    repo = Repository()
    repo.told = told(repo)
    notes = collections.defaultdict(list)
    spellers = {p: Speller(repo, p, notes) for p in repo.antt + repo.rt}
    repo.after = {}
    for p in repo.antt:
        repo.after[p] = spellers[p].text(repo.text[p])
    for p in repo.rt:
        repo.after[p] = spell_rt(spellers[p], repo.text[p])
    edits = {p: spell_edit(repo, spellers, p, read(p), notes) for p in tracked('crates/*/must-fail/*.edit')}
    docs = {p: spell_doc(repo, read(p)) for p in tracked('docs/*.md', 'README.md', 'CONTRIBUTING.md', 'cases/README.md', 'differential/README.md', 'perturb/README.md')
            if not p.startswith('docs/changes/')}
    clash = collisions(repo, spellers)
    for c in clash:
        print('falls together:', *c)
    for title, items in sorted(notes.items()):
        for i in sorted(set(map(tuple, items))):
            print(title + ':', *i)
    for u in sorted(set(repo.unresolved)):
        print('imported, but declared nowhere, left:', *u)
    for k, v in sorted(OTHER.items(), key=str):
        print('other name:', k, '->', v)
    changed = collections.Counter()
    for group, files in (('antt', {p: repo.after[p] for p in repo.antt}), ('rt', {p: repo.after[p] for p in repo.rt}), ('edit', edits), ('doc', docs)):
        for p, text in sorted(files.items()):
            if text != read(p):
                changed[group] += 1
                if '--dry' not in sys.argv:
                    with open(p, 'w', encoding='utf-8') as f:
                        f.write(text)
    names = {(n, new) for s in spellers.values() for n, new in s.used.items() if n != new}
    print('names respelled: %d (%d with humps)' % (len(names), sum(humped(n) for n, _ in names)))
    print('files changed:', dict(changed))
    if '--dry' not in sys.argv:
        print('tactic(auto) added:', add_tactic())
    if '--names' in sys.argv:
        for n, new in sorted(names):
            print('name', n, new)


if __name__ == '__main__':
    main()
