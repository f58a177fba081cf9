#!/usr/bin/env python3
"""respell.py [--check]: brings the repository's own names in specs/, proofs/ and clauses to the spelling of today's Rattle.

Words are in snake case, types and modules in upper camel case; a dash stays only between two names (`length-block_bytes`).
A name is turned where it is declared in specs/ or proofs/ of this repository; what a file imports from elsewhere keeps its spelling, and so do
functions, fields and parameters of src/. Before that it derives Copy and takes int13's λ clauses apart. Run once, behind port.py, at the top of the repository. --check writes nothing and prints the table.
What falls together, or meets a parameter, is printed on lines that begin `meets:`.
"""
import collections, glob, re, sys

# ---- what stands in the way of the names: structs and enums are copied, and `result` is a word of the clauses

def word(name, new, text):
    return re.sub(rf"(?<![\w.'-]){name}(?![\w'-])", new, text)

def first():
    for p in glob.glob("crates/*/src/*.rt"):
        t = read(p)
        new = re.sub(r"^( *)#\[derive\(Drop\)\]", r"\1#[derive(Clone, Copy)]", t, flags=re.M)
        if "/int13/" in p:
            # the definition of 48h, which was `result`
            new = re.sub(r"(ghost use Rattle\.int13\.specs\.Steps\.\{[^}]*)\bresult\b,", r"\1result_into,", new)
            new = new.replace("result known d shown r", "result_into known d shown r")
            taken = lambda m: f"{m[1]} {{ {word(re.escape(m[2]), 'result', m[3].strip())} }}"
            new = re.sub(r"(ensures)\*\s*\{\s*λ (\w+)\. ⌜(.*?)⌝\s*\}", taken, new, flags=re.S)
        if new != t:
            write(p, new)
    for p in antt_files():
        t = read(p)
        if p.endswith("int13/specs/Steps.antt") or re.search(r"^use Rattle\.int13\.specs\.Steps\.\{[^}]*\bresult\b", t, re.M):
            lines = [l if l.lstrip().startswith("--") else word("result", "result_into", l) for l in t.split("\n")]
            write(p, "\n".join(lines))

def write(p, t):
    with open(p, "w", encoding="utf-8") as f:
        f.write(t)

# ---- names

CRATES = sorted(p.split("/")[1] for p in glob.glob("crates/*/src"))
WORD = re.compile(r"[^\s(){}\[\].;,@\"«»⌜⌝]+")
COMMENT = re.compile(r"(?<![^\s(){}.;,])--[^\n]*")
USE = re.compile(r"^[ \t]*(?:pub )?(?:ghost )?use ([^\s{;]+?)(?:\.\{([^}]*)\})?(?: as (\S+?))?;?[ \t]*$", re.M)
HEAD = re.compile(r"^[ \t]*((?:(?:abbrev|unfoldable|pub|opaque|inline) )*)(record |data )?([^\s:(){}.;,]+) (?=[:({])", re.M)
# laws named after the library's getD, which is get_or now; port.py had turned two of them
GET_OR = {
    "getD-before": "get_or_before",
    "get_d_after": "get_or_after",
    "getD-blocks-outside": "get_or-blocks_outside",
    "getD-padded": "get_or_padded",
    "get_d_part": "get_or-part",
    "getD-zeros": "get_or_zeros",
}
# made by Rattle, or a number
MADE = re.compile(r"(Need-|After-|Then-|Else-|returns-\d|0x)")

# laws that port.py gave the spelling of a definition
APART = {
    "crates/feed/proofs/Arrives.antt": ["cut_off"],
    "crates/feed/proofs/Vectors.antt": ["cut_off"],
    "crates/isolation/proofs/Equal.antt": ["goes_on"],
    "crates/isolation/proofs/Exported.antt": ["open_block"],
    "crates/isolation/proofs/Trace.antt": ["placed_by"],
    "crates/isolation/proofs/Accept.antt": ["rows_ok"],
    "crates/table/proofs/TableLaws.antt": ["whole_numbers"],
}

def antt_files():
    return sorted(glob.glob("crates/*/specs/**/*.antt", recursive=True) + glob.glob("crates/*/proofs/**/*.antt", recursive=True))

def read(p):
    with open(p, encoding="utf-8") as f:
        return f.read()

def bare(t):
    return COMMENT.sub(lambda m: " " * len(m[0]), t)

def own(path):
    return path.startswith("Rattle.") and path.split(".")[1] in CRATES

def imports(t):
    """The names that a file has from elsewhere, as they stand there and as they are called here."""
    e = set()
    for m in USE.finditer(t):
        if m[2] and not own(m[1]):
            for n in m[2].split(","):
                e |= {n.split(" as ")[0].strip()}
        if m[3]:
            pass
    return e

def declared(t):
    d = collections.Counter()
    for m in HEAD.finditer(t):
        d[m[3]] += 1
    for m in re.finditer(r"\blet ([^\s:=(){}]+) ", t):
        d[m[1]] += 1
    for m in re.finditer(r"λ ([^.(){}]*)\.", t):
        d.update(m[1].split())
    for m in re.finditer(r"[({]([^\s:(){}]+(?: [^\s:(){}]+)*) : ", t):
        d.update(m[1].split())
    for m in re.finditer(r" as ([^\s,}]+)", t):
        d[m[1]] += 1
    for m in re.finditer(r"^\s*\|?\s*([a-z][^\s:(){}.;,]*) : ", t, re.M):
        d[m[1]] += 1
    return d

def odd(w):
    if w[0] == "#" or MADE.match(w) or not re.search(r"[A-Za-z]", w):
        return False
    if re.search(r"[A-Za-z0-9ℕ₀-₉']-[A-Za-z0-9≡≤≢]", w):
        return True
    return bool(re.match(r"[a-z]", w) and re.search(r"[a-z0-9][A-Z]", w))

def snake(w):
    if re.match(r"[A-Z]", w):
        return w
    w = re.sub(r"([a-z0-9])([A-Z])", lambda m: m[1] + "_" + m[2].lower(), w)
    return w

STD = "length map take drop set get_or append replicate sum concat leb ltb eqb not add mul sub div mod filter reverse".split()

def names_known(files):
    known = set(STD)
    for p, t in files.items():
        if "/specs/" in p:
            for m in HEAD.finditer(bare(t)):
                known.add(snake(m[3]))
    for p in glob.glob("crates/*/src/*.rt"):
        known |= set(re.findall(r"\bfn (\w+)", read(p)))
    return known

def turned(w, known):
    parts = [snake(x) for x in w.split("-")]
    out, done = parts[0], parts[0]
    # `done` is the name since the last dash that stayed
    for k in range(1, len(parts)):
        rest = parts[k:]
        right = any("_".join(rest[:j]) in known for j in range(1, len(rest) + 1))
        if done in known and right and not re.match(r"\d", parts[k]):
            out += "-" + parts[k]
            done = parts[k]
        else:
            out += "_" + parts[k]
            done += "_" + parts[k]
    return out

def main():
    check = "--check" in sys.argv
    if not check:
        first()
    files = {p: read(p) for p in antt_files()}
    for p, names in APART.items():
        for n in names:
            files[p] = re.sub(rf"(?<![\w.'-]){n}(?![\w'-])", n.replace("_", "-"), files[p])
    known = names_known(files)
    table, where = {}, collections.defaultdict(set)
    for p, t in files.items():
        if p.endswith("Proof.antt") and False:
            continue
        for w in declared(bare(t)):
            if odd(w) and w not in table:
                table[w] = turned(w, known)
            where[w].add(p)
    declared_names = set(where)
    table.update({old: new for old, new in GET_OR.items() if old in where})
    # a dash stays where the name would fall together with another
    taken = collections.defaultdict(set)
    for p, t in files.items():
        for w in WORD.findall(bare(t)):
            taken[table.get(w, w)].add(w)
    for w in [w for w in table if "-" in w]:
        if len(taken[table[w]]) > 1:
            table[w] = "-".join(snake(x) for x in w.split("-"))
    # definitions that are facts, which is to say types: upper camel case
    facts = set()
    for p, t in files.items():
        for m in re.finditer(r"^((?:(?:abbrev|unfoldable|pub|opaque|inline) )+)([a-z][^\s:(){}.;,]*) : ((?:.*\n(?=[ \t]+\S))*.*)$", bare(t), re.M):
            sig = " ".join(m[3].split())
            if re.search(r"(→ |^)Type [0-9]$", sig):
                facts.add(m[2])
    if check:
        print("facts:", " ".join(sorted(facts)))
    # what falls together
    back = collections.defaultdict(set)
    everything = set()
    for p, t in files.items():
        everything |= set(WORD.findall(bare(t)))
    for old, new in table.items():
        back[new].add(old)
        if new in everything and new != old:
            back[new].add(new)
    for new, olds in sorted(back.items()):
        if len(olds & (declared_names | set(table))) > 1:
            print("meets:", new, "from", " ".join(sorted(olds)), "in", " ".join(sorted({q.replace("crates/", "") for o in olds for q in where.get(o, ())})[:4]))
    params = set()
    for p in glob.glob("crates/*/src/*.rt"):
        for m in re.finditer(r"\bfn \w+(?:<[^>]*>)?\(([^)]*)\)", read(p)):
            params |= set(re.findall(r"(\w+)\s*:", m[1]))
    for old, new in table.items():
        if new in params:
            print("meets: parameter", new, "from", old)
    for p, t in files.items():
        e = imports(bare(t))
        for w in set(WORD.findall(bare(t))):
            if w in table and w not in e and table[w] in e:
                print("meets: import", table[w], "from", w, "in", p)
    if check:
        for old, new in sorted(table.items()):
            print(old, "->", new)
        return
    def turn(t, e):
        return WORD.sub(lambda m: table[m[0]] if m[0] in table and m[0] not in e else m[0], t)
    for p, t in files.items():
        e = imports(bare(t))
        new = turn(t, e)
        if new != read(p):
            open(p, "w", encoding="utf-8").write(new)
    # clauses and ghost items of src/; nothing else there is antt
    for p in glob.glob("crates/*/src/*.rt"):
        t = read(p)
        e = imports(t)
        def clause(m):
            return turn(m[0], e)
        new = re.sub(r"ghost use [^;]*;", clause, t)
        new = re.sub(r"(?:requires|ensures)\*?\s*(?:\w+\s*)?\{[^\n]*\}\s*\n", clause, new)
        if new != t:
            open(p, "w", encoding="utf-8").write(new)

main()
