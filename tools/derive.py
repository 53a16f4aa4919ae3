#!/usr/bin/env python3
"""Derive stand-in files of the published ENSIP-15 shapes from Unicode 16.0 data.

usage: derive.py UNICODE_FOLDER [DATA_FOLDER]

UNICODE_FOLDER holds UnicodeData.txt, ppucd.txt, DerivedNormalizationProps.txt,
IdnaMappingTable.txt, emoji-sequences.txt, emoji-zwj-sequences.txt,
confusables.txt and NormalizationTest.txt of Unicode 16.0.  DATA_FOLDER (default:
the data folder of the repository) receives standin/spec.json, standin/nf.json and
unicode/NormalizationTest.txt, the last one shortened.

The rules are those of the "Derivation" part of ENSIP-15.  That part leaves
several lists open; every choice made here in place of one is marked GUESS and
is listed in docs/STANDIN.md.  The output depends on the input files alone.
"""

import os
import re
import sys

FE0F = 0xFE0F
ZWJ = 0x200D
STOP = 0x2E


# ---------------------------------------------------------------- reading

def lines(folder, name):
    with open(os.path.join(folder, name), encoding="utf-8") as f:
        for line in f:
            line = line.rstrip("\n")
            if line:
                yield line


def cp_range(text):
    first, _, last = text.strip().partition("..")
    return int(first, 16), int(last or first, 16)


def cps(text):
    return [int(x, 16) for x in text.split()]


def fields(folder, name):
    """Rows of a semicolon file without comments."""
    for line in lines(folder, name):
        line = line.split("#", 1)[0].strip()
        if line and not line.startswith("@"):
            yield [x.strip() for x in line.split(";")]


class Char:
    __slots__ = ("gc", "ccc", "dm", "name", "sc", "scx", "types", "allowed",
                 "blk", "emoji", "ecomp")


def read_unicode_data(folder):
    """gc, combining class, canonical decomposition and name of each character."""
    chars = {}
    start = None
    for f in lines(folder, "UnicodeData.txt"):
        f = f.split(";")
        cp = int(f[0], 16)
        if f[1].endswith(", First>"):
            start = cp
            continue
        for c in range(start if f[1].endswith(", Last>") else cp, cp + 1):
            ch = Char()
            ch.gc, ch.ccc, ch.name = f[2], int(f[3]), f[1]
            ch.dm = cps(f[5]) if f[5] and not f[5].startswith("<") else None
            ch.sc, ch.scx, ch.types, ch.allowed = "Zzzz", ("Zzzz",), frozenset(), False
            ch.blk, ch.emoji, ch.ecomp = "NB", False, False
            chars[c] = ch
    return chars


def read_properties(folder, chars):
    """Script, script extensions, identifier type and emoji flags (ppucd.txt).

    A cp line overrides its block line, which overrides the defaults line.
    """
    names = {}

    def props(fs):
        out = {}
        for f in fs:
            if f.startswith("-"):
                out[f[1:]] = False
            elif "=" in f:
                k, v = f.split("=", 1)
                out[k] = v
            else:
                out[f] = True
        return out

    def put(first, last, p):
        sc = p["sc"]
        scx = p["scx"]
        scx = (sc,) if scx == "<script>" else tuple(sorted(scx.split()))
        types = frozenset(p["ID_Type"].split())
        for c in range(first, last + 1):
            ch = chars.get(c)
            if ch is not None:
                ch.sc, ch.scx, ch.types = sc, scx, types
                ch.allowed = p["ID_Status"] == "Allowed"
                ch.blk = p["blk"]
                ch.emoji = p.get("Emoji", False)
                ch.ecomp = p.get("EComp", False)

    default, block = {}, {}
    for line in lines(folder, "ppucd.txt"):
        f = line.split(";")
        if f[0] == "value" and f[1] == "sc":
            names[f[2]] = f[3]
        elif f[0] == "defaults":
            default = props(f[2:])
        elif f[0] == "block":
            block = dict(default, **props(f[2:]))
            first, last = cp_range(f[1])
            put(first, last, block)
        elif f[0] == "cp":
            first, last = cp_range(f[1])
            put(first, last, dict(block, **props(f[2:])))
    return names


def read_idna(folder):
    """status of each codepoint and its mapping"""
    status, mapped = {}, {}
    for f in fields(folder, "IdnaMappingTable.txt"):
        first, last = cp_range(f[0])
        for c in range(first, last + 1):
            status[c] = f[1]
            if f[1] == "mapped":
                mapped[c] = cps(f[2])
    return status, mapped


def read_set(folder, wanted):
    out = set()
    for f in fields(folder, "DerivedNormalizationProps.txt"):
        if f[1:] in wanted:
            first, last = cp_range(f[0])
            out.update(range(first, last + 1))
    return out


def read_emoji(folder):
    rows = []
    for name in ("emoji-sequences.txt", "emoji-zwj-sequences.txt"):
        for f in fields(folder, name):
            if ".." in f[0]:
                first, last = cp_range(f[0])
                rows += [([c], f[1]) for c in range(first, last + 1)]
            else:
                rows.append((cps(f[0]), f[1]))
    return rows


def read_confusables(folder):
    out = {}
    for line in lines(folder, "confusables.txt"):
        f = line.lstrip("\ufeff").split("#", 1)[0].split(";")
        if len(f) >= 2:
            src = cps(f[0])
            if len(src) == 1:
                out[src[0]] = tuple(cps(f[1]))
    return out


# ---------------------------------------------------------------- the rules

ASCII_VALID = set(map(ord, "$-_0123456789abcdefghijklmnopqrstuvwxyz"))

# Derivation, ContextO, hyphens and the apostrophe.
EXTRA_MAPPED = {
    0x27: [0x2019],
    0x2E3A: [0x2D] * 2, 0x2E3B: [0x2D] * 3,
    **{c: [0x2D] for c in (0x2010, 0x2011, 0x2012, 0x2013, 0x2014, 0x2015,
                           0x2043, 0x2212, 0x23AF, 0x23E4, 0xFE58)},
    **{0x6F0 + d: [0x660 + d] for d in (0, 1, 2, 3, 7, 8, 9)},
}

# Punctuation that stays; the rest of category P is disallowed.
KEPT_PUNCTUATION = {0x2D, 0x5F, 0x2019, 0x30FB, 0x5F3, 0x5F4}

# GUESS: the source names 2044, shows 2019 and 30FB; the full list is open.
FENCED = [(0x2019, "Apostrophe"), (0x2044, "Fraction Slash"), (0x30FB, "Middle Dot")]

# Disallowed by the source, one by one.
NAMED_DISALLOWED = {0xB7, 0x375, 0x200C, 0x200D, 0x131, 0x294, 0x463, 0xA74F,
                    0x218A, 0x2376, 0x589, 0x2997, 0x2713, 0x3002, 0xFF0E, 0xFF61}

# GUESS: the jamo that syllables are made of stay valid text (mapped to by 3131..318E).
MODERN_JAMO = {*range(0x1100, 0x1113), *range(0x1161, 0x1176), *range(0x11A8, 0x11C3)}

NO_SCRIPT = {"Brai", "Lina", "Linb", "Sgnw"}
EURO = {"Latn", "Grek", "Cyrl", "Zyyy", "Zinh"}
COMMON_GROUPS = ["Latin", "Greek", "Cyrillic", "Han", "Japanese", "Korean"]
WHITELISTED = COMMON_GROUPS + ["Bopomofo"]
AUGMENTED = {"Latn": ["Latin"], "Grek": ["Greek"], "Cyrl": ["Cyrillic"],
             "Hani": ["Han", "Japanese", "Korean", "Bopomofo"],
             "Hira": ["Japanese"], "Kana": ["Japanese"],
             "Hang": ["Korean"], "Bopo": ["Bopomofo"]}
PRIMARY = {"Han": {"Hani"}, "Japanese": {"Hira", "Kana"}, "Korean": {"Hang"}}

# GUESS: names of "reversed, flipped, turned, and partial variations".
VARIATION = re.compile(
    r"\b(TURNED|REVERSED|INVERTED|SIDEWAYS|ROTATED|FLIPPED|MIRRORED|UPSIDE-DOWN"
    r"|(LEFT|RIGHT|TOP|BOTTOM|UPPER|LOWER) HALF)\b")

# GUESS: blocks and names of "esoteric" symbols.
ESOTERIC_BLOCKS = {"Control_Pictures", "OCR", "CJK_Radicals_Sup", "Kangxi", "IDC",
                   "CJK_Strokes", "Yijing", "Tai_Xuan_Jing", "Counting_Rod", "Mahjong",
                   "Domino", "Playing_Cards", "Alchemical", "Geometric_Shapes_Ext",
                   "Symbols_For_Legacy_Computing", "Symbols_For_Legacy_Computing_Sup",
                   "Byzantine_Music", "Music", "Ancient_Greek_Music", "Ancient_Symbols",
                   "Phaistos", "Znamenny_Music", "Sup_Arrows_C", "Chess_Symbols",
                   "Mayan_Numerals", "Kaktovik_Numerals",
                   "Indic_Siyaq_Numbers", "Ottoman_Siyaq_Numbers", "Ornamental_Dingbats"}
ESOTERIC_NAME = re.compile(r"\b(APL FUNCTIONAL|SYMBOL FOR)\b")

# "the variant closest to heavy is selected": weights from best to worst.
WEIGHTS = ["HEAVY", "VERY HEAVY", "EXTREMELY HEAVY", "VERY BOLD", "BOLD", "",
           "MEDIUM", "LIGHT", "VERY LIGHT", "THIN"]
WEIGHT = re.compile(r"^(VERY HEAVY|EXTREMELY HEAVY|HEAVY|VERY BOLD|BOLD|MEDIUM|VERY LIGHT"
                    r"|LIGHT|THIN) ")


class Derivation:
    def __init__(self, folder):
        self.chars = read_unicode_data(folder)
        self.script_names = read_properties(folder, self.chars)
        self.status, self.idna = read_idna(folder)
        self.confusable = read_confusables(folder)
        self.emoji_rows = read_emoji(folder)
        self.full_exclusion = read_set(folder, [["Full_Composition_Exclusion"]])
        self.qc = read_set(folder, [["NFC_QC", "N"], ["NFC_QC", "M"]])
        self.restricted = self.restricted_scripts()
        self.emoji()
        self.candidates()
        self.groups()
        self.mappings()
        self.wholes()

    # -- normalization forms

    def full_decomposition(self, cp):
        if 0xAC00 <= cp <= 0xD7A3:
            s = cp - 0xAC00
            out = [0x1100 + s // 588, 0x1161 + s % 588 // 28]
            return out + ([0x11A7 + s % 28] if s % 28 else [])
        ch = self.chars.get(cp)
        if ch is None or ch.dm is None:
            return [cp]
        return [d for x in ch.dm for d in self.full_decomposition(x)]

    # -- scripts

    def restricted_scripts(self):
        """Excluded and limited-use scripts: those whose characters are mostly of
        identifier type Exclusion or Limited_Use."""
        count = {}
        for ch in self.chars.values():
            n = count.setdefault(ch.sc, [0, 0])
            n[bool(ch.types & {"Exclusion", "Limited_Use"})] += 1
        return {s for s, n in count.items() if n[1] > n[0]} - {"Zyyy", "Zinh", "Zzzz"}

    # -- emoji

    def emoji(self):
        out, singles = [], []
        for seq, kind in self.emoji_rows:
            if kind == "Basic_Emoji":
                c = seq[0]
                assert seq[1:] in ([], [FE0F])
                if c in self.idna:                    # mapped to non-emoji
                    continue
                if self.status[c] != "valid":         # disallowed by IDNA
                    continue
                if 0x1F3FB <= c <= 0x1F3FF or 0x1F1E6 <= c <= 0x1F1FF:
                    continue                          # singular modifiers, indicators
                singles.append(c)
                out.append((c, FE0F))
            else:
                out.append(tuple(seq))
        # Remaining single-character emoji, but for digits.
        for c, ch in sorted(self.chars.items()):
            if ch.emoji and not ch.ecomp and c not in singles and self.status[c] == "valid":
                singles.append(c)
                out.append((c, FE0F))
        self.emoji_list = sorted(set(out))
        self.singles = set(singles)

    # -- valid characters

    def ascii_prototype(self, c):
        """The ASCII character that c looks like, case-folded, or None."""
        p = self.confusable.get(c)
        if p is not None and len(p) == 1 and p[0] < 0x80:
            return ord(chr(p[0]).lower())
        return None

    def reason(self, c, ch):
        """Why an assigned codepoint is no text character, or None."""
        if c < 0x80:
            return None if c in ASCII_VALID else "std3"
        if self.status[c] not in ("valid", "deviation"):
            return "idna"
        if c in NAMED_DISALLOWED:
            return "named"
        if c in EXTRA_MAPPED:
            return "mapped"
        if ch.emoji or ch.ecomp or c == ZWJ:
            return "emoji"
        if ch.gc[0] in "ZC":
            return "space or control"
        if ch.sc in NO_SCRIPT:
            return "script"
        if ch.gc[0] == "P" and c not in KEPT_PUNCTUATION:
            return "punctuation"
        if ch.gc == "Sk":
            return "modifying"
        euro = set(ch.scx) <= EURO
        if ch.gc == "Lm" and euro:                                     # GUESS
            return "modifying"
        if euro and VARIATION.search(ch.name.split(" WITH ")[0]):       # GUESS
            return "variation"
        if ch.sc not in self.restricted:                               # GUESS
            if ch.types & {"Obsolete", "Deprecated"} and c not in MODERN_JAMO:
                return "obsolete"
            if "Technical" in ch.types and euro:
                return "technical"
        if ch.blk in ESOTERIC_BLOCKS or ESOTERIC_NAME.search(ch.name):  # GUESS
            return "esoteric"
        if ch.gc == "Me":                                              # GUESS
            return "enclosing"
        if self.worse_weight(c, ch):
            return "weight"
        if set(ch.scx) <= {"Latn", "Zyyy"} and self.ascii_prototype(c) in ASCII_VALID:  # GUESS
            return "looks like ASCII"
        # A decomposition must not bring in a base that is not valid itself, such as
        # = < > (2260, 226E, 226F) or an emoji (21AE).
        for d in self.full_decomposition(c):
            if d != c and self.chars[d].gc[0] != "M" and self.reason(d, self.chars[d]):
                return "decomposition"
        return None

    def worse_weight(self, c, ch):
        """Whether a symbol of another weight is closer to "heavy"."""
        if ch.gc[0] != "S":
            return False
        return c != self.best_weight.get(WEIGHT.sub("", ch.name), c)

    def candidates(self):
        assert ESOTERIC_BLOCKS <= {ch.blk for ch in self.chars.values()}
        series = {}
        for c, ch in sorted(self.chars.items()):
            if ch.gc[0] == "S" and self.status.get(c) == "valid" and \
                    (c in self.singles or ch.blk not in ESOTERIC_BLOCKS):
                m = WEIGHT.match(ch.name)
                series.setdefault(WEIGHT.sub("", ch.name), []).append(
                    (WEIGHTS.index(m.group(1) if m else ""), c))
        self.best_weight = {stem: min(v)[1] for stem, v in series.items()}
        self.why = {}
        self.candidate = set()
        for c, ch in sorted(self.chars.items()):
            if 0xD800 <= c <= 0xDFFF:
                continue
            r = self.reason(c, ch)
            if r is None:
                self.candidate.add(c)
            else:
                self.why[c] = r

    # -- groups

    def groups(self):
        scripts = sorted({ch.sc for ch in self.chars.values()}
                         - {"Zyyy", "Zinh", "Zzzz"} - NO_SCRIPT)
        # GUESS: the order of the groups.
        free = sorted(self.script_names[s] for s in scripts
                      if s not in self.restricted and s not in AUGMENTED)
        order = WHITELISTED + free + [s for s in scripts if s in self.restricted]
        primary = {name: set() for name in order}
        secondary = {name: set() for name in order}
        of_script = {s: AUGMENTED.get(s) or
                     [s if s in self.restricted else self.script_names[s]] for s in scripts}

        for c in sorted(self.candidate):
            ch = self.chars[c]
            if c == 0x3BE:                           # Ethereum symbol: Common
                for g in COMMON_GROUPS:
                    (primary if g == "Greek" else secondary)[g].add(c)
                continue
            if c in (0x5F3, 0x5F4):                  # ContextO: Greek
                secondary["Greek"].add(c)
                continue
            if ch.scx == ("Zyyy",):
                for g in COMMON_GROUPS:
                    secondary[g].add(c)
                continue
            if 0x61 <= c <= 0x7A:
                for g in ("Han", "Japanese", "Korean"):
                    secondary[g].add(c)
            for s in ch.scx:
                if s in NO_SCRIPT or s in ("Zyyy", "Zinh"):
                    continue
                if s in self.restricted and ch.scx != (s,):
                    continue                         # always single-script
                for g in of_script[s]:
                    own = PRIMARY.get(g, {s}) if g != "Bopomofo" else {"Bopo"}
                    if len(ch.scx) == 1 and s in own:
                        primary[g].add(c)
                    else:
                        secondary[g].add(c)
        # GUESS: whitelisted groups have no compound sequence, so they hold no
        # combining mark.
        for g in WHITELISTED:
            for part in (primary[g], secondary[g]):
                part.difference_update([c for c in part if self.chars[c].gc[0] == "M"])
        self.group_list = []
        for name in order:
            p, s = primary[name], secondary[name] - primary[name]
            if p:
                self.group_list.append((name, p, s))
        # The characters in groups, the groups of each, and the valid set.
        self.in_groups = {}
        for i, (_, p, s) in enumerate(self.group_list):
            for c in p | s:
                self.in_groups.setdefault(c, set()).add(i)
        self.valid = set(self.in_groups)
        for c in self.in_groups:
            self.valid.update(self.full_decomposition(c))
        ascii_valid = {c for c in self.valid if c < 0x80}
        assert ascii_valid == ASCII_VALID, sorted(ascii_valid ^ ASCII_VALID)
        assert not self.valid & self.singles
        assert not self.valid & {STOP, FE0F, ZWJ, 0x20E3, 0x131}

    # -- mapped and ignored

    def mappings(self):
        self.ignored = sorted(c for c, s in self.status.items()
                              if s == "ignored" and c not in self.valid)
        mapped = {}
        for c, to in self.idna.items():
            if c < 0x80 and not (0x41 <= c <= 0x5A):
                continue
            mapped[c] = to
        mapped.update(EXTRA_MAPPED)
        self.dropped = []
        self.mapped = []
        for c, to in sorted(mapped.items()):
            if c in self.valid or c in self.singles:
                continue
            if to and all(t in self.valid for t in to):
                self.mapped.append((c, to))
            else:
                self.dropped.append(c)
        for c, to in EXTRA_MAPPED.items():
            assert (c, to) in self.mapped, hex(c)

    # -- wholes

    def wholes(self):
        """Classes of equal prototype, ASCII prototypes case-folded."""
        classes = {}
        for c in sorted(self.in_groups):
            ch = self.chars[c]
            p = self.confusable.get(c, (c,))
            p = tuple(ord(chr(x).lower()) if x < 0x80 else x for x in p)
            if c < 0x80:
                p = (c,)                  # ASCII characters stay apart
            elif ch.scx == ("Zyyy",) or ch.gc[0] == "P":
                continue                  # GUESS: Common would join every extent, and the
                                          # source takes names with 30FB for valid
            classes.setdefault(p, set()).add(c)
        classes[(0x78,)].add(0x4B3)       # the source's extent of 445
        self.whole_list = []
        for p, members in sorted(classes.items()):
            if len(members) < 2:
                continue
            # GUESS: the members of the first group that has any are the valid ones.
            best = min(min(self.in_groups[c]) for c in members)
            valid = {c for c in members if c < 0x80} or \
                    {c for c in members if min(self.in_groups[c]) == best}
            confused = members - valid
            # Without a member outside some confused extent the whole says nothing.
            if any(not self.in_groups[c] & self.in_groups[m]
                   for c in confused for m in members):
                self.whole_list.append((p, sorted(valid), sorted(confused)))

    # -- output

    def spec(self):
        escape = sorted(c for c, ch in self.chars.items()
                        if not 0xD800 <= c <= 0xDFFF and ch.gc in ("Zs", "Zl", "Zp", "Cc", "Cf"))
        marks = sorted(c for c, ch in self.chars.items() if ch.gc[0] == "M")
        nsm = [c for c in marks if c in self.valid and self.chars[c].gc in ("Mn", "Me")]
        out = ["{"]
        out.append('"created": "stand-in, derived by tools/derive.py",')
        out.append('"unicode": "16.0.0",')
        out.append('"emoji": %s,' % rows("[%s]" % nums(e) for e in self.emoji_list))
        out.append('"ignored": %s,' % cp_list(self.ignored))
        out.append('"mapped": %s,' % rows("[%d,[%s]]" % (c, nums(t)) for c, t in self.mapped))
        out.append('"fenced": %s,' % rows('[%d,"%s"]' % f for f in FENCED))
        groups = []
        for name, p, s in self.group_list:
            row = '{"name":"%s",' % name
            if name in self.restricted:
                row += '"restricted":true,'
            if name in WHITELISTED:
                row += '"cm":[],'
            groups.append(row + '\n"primary":%s,\n"secondary":%s}' % (cp_list(p), cp_list(s)))
        out.append('"groups": %s,' % rows(groups))
        out.append('"wholes": %s,' % rows(
            '{"target":"%s","valid":[%s],"confused":[%s]}'
            % (" ".join("%X" % x for x in p), nums(v), nums(c)) for p, v, c in self.whole_list))
        out.append('"cm": %s,' % cp_list(marks))
        out.append('"nsm": %s,' % cp_list(nsm))
        out.append('"nsm_max": 4,')
        out.append('"escape": %s,' % cp_list(escape))
        out.append('"nfc_check": %s' % cp_list(self.qc & self.valid))
        return "\n".join(out) + "\n}\n"

    def nf(self):
        decomp = [(c, ch.dm) for c, ch in sorted(self.chars.items()) if ch.dm]
        ranks = {}
        for c, ch in self.chars.items():
            if ch.ccc:
                ranks.setdefault(ch.ccc, []).append(c)
        # Composition exclusions proper: not the singletons and the non-starter
        # decompositions, which no composition reaches anyway.
        exclusions = [c for c, dm in decomp if c in self.full_exclusion and len(dm) > 1
                      and not self.chars[c].ccc and not self.chars[dm[0]].ccc]
        out = ["{"]
        out.append('"created": "stand-in, derived by tools/derive.py",')
        out.append('"unicode": "16.0.0",')
        out.append('"exclusions": %s,' % cp_list(exclusions))
        out.append('"decomp": %s,' % rows("[%d,[%s]]" % (c, nums(d)) for c, d in decomp))
        out.append('"ranks": %s,' % rows(cp_list(ranks[k]) for k in sorted(ranks)))
        out.append('"qc": %s' % cp_list(self.qc))
        return "\n".join(out) + "\n}\n"


def normalization_test(folder):
    """NormalizationTest.txt: the lines @Part0 to @Part5 and the five columns of each
    test, without leading zeros; the last two are left out where they repeat the two
    before them."""
    out = []
    for line in lines(folder, "NormalizationTest.txt"):
        line = line.split("#", 1)[0].strip()
        if line.startswith("@"):
            out.append(line)
        elif line:
            columns = line.split(";")[:5]
            if columns[3:] == columns[1:3]:
                del columns[3:]
            out.append(";".join(" ".join("%X" % c for c in cps(x)) for x in columns))
    return "\n".join(out) + "\n"


def nums(xs):
    return ",".join(str(x) for x in xs)


def rows(xs):
    return "[\n" + ",\n".join(xs) + "]"


def cp_list(xs):
    """A list of codepoints, one line for each 64 of the code space."""
    out, block = [], None
    for x in sorted(xs):
        if x >> 6 != block:
            block = x >> 6
            out.append([])
        out[-1].append(x)
    return "[" + ",\n".join(nums(row) for row in out) + "]"


def main():
    if len(sys.argv) not in (2, 3):
        sys.exit(__doc__)
    here = os.path.dirname(os.path.abspath(__file__))
    out = sys.argv[2] if len(sys.argv) == 3 else os.path.join(here, os.pardir, "data")
    d = Derivation(sys.argv[1])
    for name, text in (("standin/spec.json", d.spec()), ("standin/nf.json", d.nf()),
                       ("unicode/NormalizationTest.txt", normalization_test(sys.argv[1]))):
        path = os.path.join(out, *name.split("/"))
        os.makedirs(os.path.dirname(path), exist_ok=True)
        with open(path, "w", encoding="ascii", newline="\n") as f:
            f.write(text)
    print("groups %d, emoji %d, mapped %d, ignored %d, valid %d, wholes %d" % (
        len(d.group_list), len(d.emoji_list), len(d.mapped), len(d.ignored),
        len(d.valid), len(d.whole_list)))
    return d


if __name__ == "__main__":
    main()
