#!/usr/bin/env python3
"""answers.py NAMES CRATE..: turns proofs/F/Proof.antt into Invariants.antt and Answers.antt.

NAMES is the folder that `rt names NAMES` wrote at the top of the repository. A proof that walks the code by hand stays as it is.
What needs a look is printed, a line each.
"""
import json, os, re, subprocess, sys

WORD = r"[^\s(){}\[\].;,@\"«»⌜⌝]+"

def norm(w):
    return w.replace("-", "_")

def blocks(text):
    """The file's declarations: a list of texts, comments with the declaration below them."""
    out, cur = [], []
    for line in text.split("\n"):
        if line and not line[0].isspace() and cur and not all(l.startswith("--") for l in cur if l.strip()):
            # a clause of the same name goes on
            head = re.match(WORD, line)
            first = next((l for l in cur if l.strip() and not l.startswith("--") and not l[0].isspace()), "")
            name = re.match(rf"(?:(?:pub|abbrev|unfoldable|opaque) )*({WORD})", first)
            if head and name and (head[0] == name[1] or line.startswith("unfolding")):
                cur.append(line)
                continue
            out.append("\n".join(cur).rstrip())
            cur = []
        cur.append(line)
    if any(l.strip() for l in cur):
        out.append("\n".join(cur).rstrip())
    return [b for b in out if b.strip()]

def turn_function(crate, folder, info, say):
    path = f"{folder}/Proof.antt"
    text = open(path, encoding="utf-8").read()
    if not re.search(r"^use \S+\.Tie as tie$", text, re.M):
        say("walks by hand")
        return
    module = re.search(r"^use (\S+)\.Tie as tie$", text, re.M)[1]
    labels, fields, unsure = {}, {}, set()
    for old_place, parent, (old, new), callee, more in info["places"]:
        if not old:
            continue
        k = norm(old)
        if norm(new) == k + "_1" and not re.match(r"(enum|struct|slice|shared|array)", old):
            continue
        if labels.get(k, new) != new:
            unsure.add(k)
        labels[k] = new
        for a, b in more:
            fields.setdefault(new, {})[a] = b
    needs = {norm(a): b for a, b in info["needs"]}
    def need_of(w):
        """the new name of an old need; its parts may have been spelled otherwise"""
        k = norm(w)
        for cand in (k, re.sub(r"^overflow_", "", k), re.sub(r"^nonzero_", "", k), re.sub(r"^(overflow|nonzero)_(\w+?)_", r"\2_", k)):
            if cand in needs:
                return needs[cand]
        return None
    places = {norm(p[0]): q for p, q in zip(info["places"], info["places_by_name"])}
    loops = {norm(old): (new, vs) for (old, new), vs in info["loops"]}
    changed = {new: c for ((old, new), vs), c in zip(info["loops"], info["changed"])}
    uses, invariants, answers, named, turned = [], [], [], set(), {}
    for m in re.finditer(rf"^(?:pub )?({WORD}) : tie\.Need-(\S+)", text, re.M):
        turned[m[1]] = need_of(m[2]) or "GONE-" + m[2]
    def renamed(t):
        return re.sub(rf"(?<![^\s(){{}}\[\];,@])({WORD})", lambda w: turned.get(w[1], w[1]), t)
    for b in blocks(text):
        lines = [l for l in b.split("\n") if not l.startswith("--")]
        if b.startswith("use "):
            for l in b.split("\n"):
                if not re.search(r"\.(Statement\.\{statement\}|Tie as tie)$", l):
                    uses.append(l)
            continue
        head = lines[0]
        if re.match(rf"pub {WORD} : \{{M : Type 1\}} → statement", head):
            continue
        m = re.match(rf"(?:abbrev )?(?:pub )?({WORD}) : tie\.(invariant|decreases)[_-](\S+)$", head)
        if m:
            new, vs = loops.get(norm(m[3]), (None, None))
            if new is None:
                say(f"no loop {m[3]}")
                continue
            body = re.sub(r"^.*?\n", "", b[b.index(head):], count=1)
            opened = ""
            u = re.match(r"(unfolding[^\n]*\n)", body)
            if u:
                opened, body = u[1], body[u.end():]
            mm = re.match(rf"{re.escape(m[1])}((?: (?:[^\s=]+))*) =\s*(.*)\Z", body, re.S)
            if not mm:
                say(f"cannot read {m[1]}")
                continue
            ps, body = mm[1].split(), mm[2].rstrip()
            ch = changed[new]
            want = list(vs) + [v for v, c in zip(vs, ch) if c]
            if len(ps) != len(want):
                say(f"{m[1]}: {len(ps)} variables, {len(want)} expected: {' '.join(want)}")
            sub = {}
            for i, (p, v) in enumerate(zip(ps, want)):
                sub[p] = (f"l.initial.{v}" if i < len(vs) and ch[i] else f"l.{v}")
            body = re.sub(rf"(?<![^\s(){{}}\[\];,@])({WORD})", lambda w: sub.get(w[1], w[1]), body)
            invariants.append(f"abbrev pub {m[2]}-{new} : goal.{m[2]}-{new}\n{opened}{m[2]}-{new} l = {body}")
            continue
        m = re.match(rf"(?:pub )?({WORD}) : tie\.Need-(\S+)(.*)$", head)
        if m:
            old_need, extra = m[2], m[3].strip()
            new = need_of(old_need)
            if new is None:
                say(f"no goal for Need-{old_need}" + (" (settled)" if True else ""))
                new = "GONE-" + old_need
            above, below = b[:b.index(head)], b[b.index(head) + len(head):]
            body = above + f"pub {new} : goal.{new}" + below
            body = re.sub(rf"^{re.escape(m[1])} c( κs)?", lambda w: f"{new} c", body, count=1, flags=re.M)
            body = re.sub(rf"^{re.escape(m[1])} (\w+) κs", lambda w: f"{new} {w[1]}", body, count=1, flags=re.M)
            body = re.sub(rf"^{re.escape(m[1])}(?= )", new, body, flags=re.M)
            if "κs" in body:
                say(f"{new}: κs")
            first = re.search(rf"^{re.escape(new)} (c|\w+) =", body, re.M)
            if first:
                body = body[:first.end()] + renamed(body[first.end():])
            else:
                say(f"{new}: no line of one variable")
            if re.fullmatch(rf"pub \S+ : goal\.\S+\n\S+ c =\s*search rules", body.strip()) and len(re.findall(rf"(?<![\w.-]){re.escape(m[1])}(?![\w-])", text)) <= 3:
                continue
            answers.append((new, body))
            continue
        answers.append((None, b))
    def relabel(t):
        t = re.sub(rf"\btie\.Need-({WORD})", lambda m: "goal." + (need_of(m[1]) or "GONE-" + m[1]), t)
        def place(m):
            k = norm(m[1])
            if k not in places:
                k = next((q for q in places if q.lower() == k.lower()), k)
            if k in places:
                named.add(places[k])
                return places[k]
            say(f"no place {m[1]}")
            return m[0]
        t = re.sub(rf"\btie\.({WORD})", place, t)
        for pairs in info["args"]:
            a, b = pairs[0].replace(" ", ""), pairs[1].replace(" ", "")
            t = re.sub(re.escape(a) + r"(?![\w-])", b, t)
        def path(m):
            parts = m[0][1:].split(".")
            k = 0
            while k < len(parts) and parts[k] == "before":
                k += 1
            if k == len(parts):
                return m[0]
            lab, rest = parts[k], parts[k + 1:]
            key = norm(lab)
            if key not in labels and key[0].isupper() and key.lower() in labels:
                key = key.lower()
            if key == "type_size" and "size_of" in labels:
                key = "size_of"
            if lab in ("args", "requires", "ranges", "well_formed"):
                return "." + ".".join(parts[k:])
            if lab == "type-inv":
                return "." + ".".join(parts[:k] + ["type_inv"] + rest)
            if key in labels:
                new = labels[key]
                if key in unsure:
                    say(f"label {lab} stands for several")
                if rest and rest[0] in fields.get(new, {}):
                    rest = [fields[new][rest[0]]] + rest[1:]
                return "." + ".".join([new] + rest)
            return m[0]
        return re.sub(rf"(?:\.{WORD})+", path, t)
    body_of = "\n\n".join(relabel(b if n else renamed(b)) for n, b in answers)
    def used(names, t):
        words = set(re.findall(WORD, t))
        keep = []
        for n in names:
            alias = n.split(" as ")[-1].strip()
            parts = [x for x in alias.split("◌") if x]
            if alias in words or (("◌" in alias) and all(p in words or p in t for p in parts)):
                keep.append(n)
        return keep
    def use_lines(t):
        out = []
        for l in uses:
            m = re.match(r"use (\S+?)\.\{(.*)\}$", l)
            if not m:
                out.append(l)
                continue
            keep = used([n.strip() for n in m[2].split(",")], t)
            if keep:
                out.append(f"use {m[1]}.{{{', '.join(keep)}}}")
        return out
    if invariants:
        t = "\n\n".join(invariants)
        lines = use_lines(t) + [f"use {module}.Given as goal"]
        open(f"{folder}/Invariants.antt", "w", encoding="utf-8").write("\n".join(lines) + "\n\n" + t + "\n")
    real = [a for a in answers if a[0]]
    if real:
        lines = use_lines(body_of) + [f"use {module}.Goals as goal"]
        if named:
            lines.append(f"use {module}.Goals.{{{', '.join(sorted(named))}}}")
        open(f"{folder}/Answers.antt", "w", encoding="utf-8").write("\n".join(lines) + "\n\n" + body_of + "\n")
    os.remove(path)

def main():
    names = sys.argv[1]
    for crate in sys.argv[2:]:
        d = json.load(open(f"{names}/crates/{crate}/names.json"))
        for root, dirs, files in sorted(os.walk(f"crates/{crate}/proofs")):
            if "Proof.antt" in files:
                f = os.path.relpath(root, f"crates/{crate}/proofs")
                key = f"Rattle-{crate}-proofs.{f.replace('/', '.')}.Lts"
                say = lambda s: print(f"{crate} {f}: {s}")
                if key not in d:
                    say("not listed")
                    continue
                turn_function(crate, root, d[key], say)

main()
