#!/usr/bin/env python3
"""Turns Proof.antt files that walk the code by places into Invariants.antt and Answers.antt.

usage: tools/convert_proofs.py CRATE_DIR NAMES_JSON [--only SUBSTR]
NAMES_JSON is what `rt check --generated DIR --old-names` writes (while the Proof.antt files are there).
"""
import json, os, re, sys

IDENT = r"[^\W\d][^\s().,=:{}\[\];|]*"

def norm(s):
    return re.sub(r"[^a-z0-9]", "", s.lower())

class Fn:
    def __init__(self, key, d):
        self.key, self.d = key, d
        self.places = {}
        arms = d.get("arms") or [None] * len(d["places"])
        for (p, nn, arm) in zip(d["places"], d["places_by_name"], arms):
            self.places[p[0]] = dict(old=p[0], parent=p[1], step=p[2], callee=p[3], new=nn, arm=arm, fields=dict((norm(a), b) for a, b in (p[4] or [])))
        self.params = d.get("params", {})
        self.needs = d["needs"]
        self.asked = d["asked_at"]
        self.loops = d["loops"]
        self.changed = d["changed"]
        self.arms = d.get("arms")

warn = []
def say(*a):
    warn.append(" ".join(str(x) for x in a))

def blocks(text):
    return [b.strip("\n") for b in re.split(r"\n[ \t]*\n", text) if b.strip()]

def find_place(fn, name):
    """an old place name as a proof file has it: tie.After-word2 -> place"""
    for p in fn.places.values():
        if p["old"] == name: return p
    for p in fn.places.values():
        if norm(p["old"]) == norm(name): return p
    return None

def chain_of(fn, p):
    out = []
    while p is not None:
        out.append(p)
        p = fn.places.get(p["parent"]) if p["parent"] else None
    return out

AT_START = {"args", "requires", "ranges", "wellformed", "good", "lifetimes", "typeinv"}

def conv_paths(body, fn, start, root="c", goalname=None, inplace=False):
    """Rewrites paths through .before in body, where root is at place start. Follows let-aliases. A step is found by its name."""
    alias = {root: 0}
    line = chain_of(fn, start)
    pat = re.compile(r"let (%s) = (%s)((?:\.before)*) in(?![\w-])[ \n]*" % (IDENT, IDENT))
    while True:
        m = None
        for mm in pat.finditer(body):
            if mm[2] in alias: m = mm; break
        if not m: break
        alias[m[1]] = alias[m[2]] + m[3].count(".before")
        body = body[:m.start()] + body[m.end():]
    # names of clauses: written out, so that each use says which clause it is
    pat2 = re.compile(r"let (%s) = (%s(?:\.[A-Za-z0-9_'-]+)*\.(?:requires|ensures)(?:\.[0-9]+)*) in(?![\w-])[ \n]*" % (IDENT, IDENT))
    pos = 0
    while True:
        m = pat2.search(body, pos)
        if not m: break
        if m[2].split(".")[0] not in alias: pos = m.end(); continue
        restb = body[m.end():]
        use = r"(?<![A-Za-z0-9_'.◌₀-₉-])%s(?=\.[0-9a-z])" % re.escape(m[1])
        restb = re.sub(use, lambda _: m[2], restb)
        if re.search(r"(?<![A-Za-z0-9_'.◌₀-₉-])%s(?![A-Za-z0-9_'◌₀-₉-])" % re.escape(m[1]), restb):
            body = body[:m.end()] + restb; pos = m.end()
        else:
            body = body[:m.start()] + restb; pos = m.start()
    def at(k):
        return line[min(k, len(line) - 1)]
    def path(m):
        who, chain = m[1], m[2]
        if who not in alias: return m[0]
        parts = chain.split(".")[1:]
        i = 0
        while i < len(parts) and parts[i] == "before": i += 1
        k = alias[who] + i
        rest = parts[i:]
        if not rest:
            if inplace and i: say(fn.key, goalname, "bare place in a helper:", m[0])
            return "(goal.at.%s %s).%s" % (goalname, root, at(k)["new"])
        f = rest[0]
        if norm(f) in AT_START:
            if norm(f) in ("good", "wellformed"): rest = ["well_formed"] + rest[1:]
            if f == "requires":
                r = rest[1:]
                if fn.cycle:
                    if r and r[0] == "1": r = r[1:]
                    elif r and r[0] == "0": return ".".join([root, "decreases"] + r[1:])
                rest = ["requires"] + (clause(SRC[fn.path][1], r) if fn.path in SRC else r)
            return root + "." + ".".join(rest)
        found = [j for j, p in enumerate(line) if p["parent"] is not None and norm(f) in (norm(p["step"][0]), norm(p["step"][1]))]
        if not found:
            found = [j for j, p in enumerate(line) if p["arm"] and any(norm(o) == norm(f) for _, o, _ in p["arm"][2])]
        if not found:
            say(fn.key, goalname, "no step", f, "in", m[0], "; steps:", " ".join(p["step"][0] for p in line))
            return m[0]
        j = min(found, key=lambda j: abs(j - k))
        p = line[j]
        if p["arm"]:
            # the arm as the deepest place of it on this line has it
            arms = [q for q in line[:j + 1] if q["arm"] and q["arm"][0] == p["arm"][0]]
            best = None
            for q in arms:
                for nw, old, pathto in q["arm"][2]:
                    n = len(pathto)
                    if norm(old) == norm(f) and [norm(x) for x in rest[1:1 + n]] == [norm(x) for x in pathto] and (best is None or n > len(best[1])):
                        best = (nw, pathto)
            if best:
                return root + "." + ".".join([p["arm"][0], best[0]] + rest[1 + len(best[1]):])
            say(fn.key, goalname, "arm", ".".join(rest), "at", p["old"], json.dumps(p["arm"], ensure_ascii=False))
        rest = [p["step"][1]] + rest[1:]
        if len(rest) > 1 and norm(rest[1]) in p["fields"]:
            rest = [rest[0], p["fields"][norm(rest[1])]] + rest[2:]
        # positional parameters of a call
        if len(rest) > 1 and rest[1] in ("new", "auto", "exit") and p["callee"]:
            ps = SRC[p["callee"]][0] if p["callee"] in SRC else fn.params.get(p["callee"], [])
            n, q = 0, 2
            while q < len(rest) and rest[q] == "1": n += 1; q += 1
            if q < len(rest) and rest[q] == "0" and n < len(ps):
                rest = rest[:2] + [ps[n]] + rest[q + 1:]
        if len(rest) > 1 and rest[1] == "ensures" and p["callee"] in SRC:
            rest = rest[:2] + clause(SRC[p["callee"]][2], rest[2:])
        return root + "." + ".".join(rest)
    body = re.sub(r"(?<![A-Za-z0-9_'.◌₀-₉-])(%s)((?:\.[A-Za-z0-9_'◌₀-₉-]+)+)" % IDENT, path, body)
    def bare(m):
        if inplace: say(fn.key, goalname, "bare alias in a helper:", m[1]); return m[0]
        return "(goal.at.%s %s).%s" % (goalname, root, at(alias[m[1]])["new"])
    names = [a for a in alias if a != root]
    if names:
        body = re.sub(r"(?<![A-Za-z0-9_'.◌₀-₉-])(%s)(?![A-Za-z0-9_'.◌₀-₉-])" % "|".join(map(re.escape, names)), bare, body)
    return body

def loop_args(fn, k):
    vs = fn.loops[k][1]; ch = fn.changed[k]
    out = []
    for v, c in zip(vs, ch):
        out.append("l.initial." + v if c else "l." + v)
    for v, c in zip(vs, ch):
        if c: out.append("l." + v)
    return out

def subst(body, mp):
    if not mp: return body
    pat = r"(?<![A-Za-z0-9_'.◌₀-₉-])(%s)(?![A-Za-z0-9_'◌₀-₉-])" % "|".join(sorted(map(re.escape, mp), key=len, reverse=True))
    return re.sub(pat, lambda m: mp[m[1]], body)

def split_decl(b):
    """-> comments, sig (name, type), unfold lines, clauses text"""
    lines = b.split("\n")
    com = []
    while lines and lines[0].lstrip().startswith("--"): com.append(lines.pop(0))
    return com, lines

def dedent(lines, n):
    return [l[n:] if l[:n].strip() == "" else l for l in lines]

def flatten(text):
    """removes `module _ (t : ℕ) where` and the like, dedenting what is inside"""
    out = []; stack = []
    lines = text.split("\n")
    indent = 0
    for l in lines:
        if not l.strip(): out.append(l); continue
        cur = len(l) - len(l.lstrip())
        while stack and cur < stack[-1]: stack.pop()
        if re.match(r"\s*module _ (\(t : ℕ\) )?where$", l) or re.match(r"\s*mutual$", l):
            stack.append(cur + 2)
            out.append("")
            continue
        d = 2 * len(stack)
        out.append(l[d:] if l[:d].strip() == "" else l)
    return "\n".join(out)

def convert(path, fn, prefix, tparam, modpath, crate, outdir=None, write=True):
    text = open(path, encoding="utf-8").read()
    text = flatten(text)
    bs = blocks(text)
    head, uses, inv, ans, helpers, rest = [], [], [], [], [], []
    spec_block = None
    for b in bs:
        lines = b.split("\n")
        code = [l for l in lines if not l.lstrip().startswith("--")]
        if not code:
            head += lines; continue
        first = code[0]
        if first.startswith("use ") or first.startswith("mod "):
            com = [l for l in lines if l.lstrip().startswith("--")]
            head += com
            # continuation lines of a use
            cur = ""
            for l in code:
                if l.startswith("use ") or l.startswith("mod "):
                    if cur: uses.append(cur)
                    cur = l
                else: cur += "\n" + l
            if cur: uses.append(cur)
            continue
        if re.match(r"pub \+?[\w+-]+ : \{M : Type 1\} → statement M", first):
            spec_block = b; continue
        rest.append(b)
    return head, uses, rest, spec_block

def main():
    crate_dir, names = sys.argv[1], json.load(open(sys.argv[2]))
    only = sys.argv[sys.argv.index("--only") + 1] if "--only" in sys.argv else None
    crate = os.path.basename(os.path.abspath(crate_dir))
    sources(os.path.dirname(os.path.abspath(crate_dir)))
    for key, d in names.items():
        if not key.startswith("Rattle-%s-proofs." % crate) or ".Lts" not in key: continue
        tail = key[len("Rattle-%s-proofs." % crate):]
        mod, lts = tail.rsplit(".Lts", 1)
        rel = mod.split(".")
        folder = os.path.join(crate_dir, "proofs", *rel)
        pf = os.path.join(folder, "Proof.antt")
        if not os.path.exists(pf): continue
        if only and only not in mod: continue
        cyc = rel[-1].startswith("+")
        fn = Fn(tail, d)
        fn.cycle = cyc
        fn.path = "::".join([crate] + [r for r in rel if not r.startswith("+")]) if not cyc else "::".join([crate] + rel[:-1] + [lts.lstrip("-")])
        try:
            one(pf, folder, fn, mod, crate, lts.lstrip("-") if cyc else None)
        except Exception as e:
            import traceback; traceback.print_exc()
            say(tail, "FAILED", repr(e))
    print("\n".join(warn))

STATE = {}
SRC = {}

def sources(crates):
    """function path (crate::mod::f) -> parameters, names of requires, names of ensures"""
    for crate in sorted(os.listdir(crates)):
        top = os.path.join(crates, crate, "src")
        for folder, _, files in os.walk(top):
            for f in files:
                if not f.endswith(".rt"): continue
                rel = os.path.relpath(os.path.join(folder, f), top)[:-3].split(os.sep)
                if rel[-1] in ("lib", "main", "mod"): rel = rel[:-1]
                text = re.sub(r"//.*", "", open(os.path.join(folder, f), encoding="utf-8").read())
                for m in re.finditer(r"\bfn (\w+)\(", text):
                    i = m.end(); depth = 1
                    while depth: depth += (text[i] == "(") - (text[i] == ")"); i += 1
                    params = [x.strip().split(":")[0].strip().replace("mut ", "") for x in split_top(text[m.end():i - 1]) if x.strip()]
                    e = re.compile(r"^\s*\{|;|\{\s*$", re.M)
                    j = i; req, ens = [], []
                    c = re.compile(r"\s*(?:->\s*[^{;]*?)?\s*\b(requires|ensures)\*?\s*(\w+)?\s*\{")
                    while True:
                        mm = c.match(text, j)
                        if not mm: break
                        k = mm.end(); depth = 1
                        while depth: depth += (text[k] == "{") - (text[k] == "}"); k += 1
                        (req if mm[1] == "requires" else ens).append(mm[2])
                        j = k
                    SRC["::".join([crate] + rel + [m[1]])] = (params, req, ens)

def split_top(s):
    out, depth, cur = [], 0, ""
    for ch in s:
        depth += (ch in "([<{") - (ch in ")]>}")
        if ch == "," and depth == 0: out.append(cur); cur = ""
        else: cur += ch
    return out + [cur]

def clause(names, rest):
    """positions of a pair of clauses to names: rest begins behind .requires or .ensures"""
    if len(names) < 2 or not all(names): return rest
    k, j = 0, 0
    while k < len(names) - 1:
        if j < len(rest) and rest[j] == "0": return [names[k]] + rest[j + 1:]
        if j < len(rest) and rest[j] == "1": k += 1; j += 1
        else: return rest
    return [names[k]] + rest[j:]

def one(pf, folder, fn, mod, crate, cycfn):
    head, uses, rest, spec = convert(pf, fn, None, None, None, crate)
    names = {cycfn} if cycfn is not None else set()
    if cycfn is not None:
        for u in uses:
            m = re.search(r"\.Lts-%s as (\S+)-lts" % re.escape(cycfn), u)
            if m: names.add(m[1])
        names.add(cycfn.replace("_", "-"))
    members = {}
    for u in uses:
        m = re.search(r"\.Lts-(\S+) as (\S+)-lts", u)
        if m: members[m[2]] = m[1]
    key = pf
    st = STATE.setdefault(key, dict(ans=[], inv=[], done=False))
    # the list of goals in the order of spec's arguments
    tparam = "t " if cycfn is not None else ""
    # order of goals: from the type of each answer  X : tie.Need-Y
    need_re = re.compile(r"^(?:pub )?(%s) : (?:%s\.)?Need-(\S+)(.*)$" % (IDENT, IDENT))
    if cycfn is not None: need_re = re.compile(r"^(?:pub )?(%s) : (?:(?:%s)-lts\.)Need-(\S+)(.*)$" % (IDENT, "|".join(map(re.escape, names))))
    other_re = re.compile(r"^(?:pub )?(%s) : (?:%s\.)?Need-(\S+)(.*)$" % (IDENT, IDENT))
    decls = []
    for b in rest:
        com, lines = split_decl(b)
        # a block may hold several declarations, without blank lines
        decls.append((com, lines))
    # names of answers in order of spec arguments
    answers = {}
    for com, lines in decls:
        m = need_re.match(lines[0])
        if m: answers[m[1]] = (m[2], com, lines)
    order = None
    for n in (names or {None}):
        order = order or spec_order(spec, n, answers)
    stem = fn.d.get("stem") or ""
    needs = [(o, n) for o, n in fn.needs]
    mapping = {}
    if order is not None and len(order) == len(needs):
        for a, (o, n), at in zip(order, needs, fn.asked):
            mapping[a] = (n, at)
    else:
        # by names
        say(fn.key, "order of goals: spec has", None if order is None else len(order), "and Rattle", len(needs), "- by names")
        used = set()
        for a, (needname, com, lines) in answers.items():
            cand = [i for i, (o, n) in enumerate(needs) if i not in used and norm_need(needname) == norm_need(o)]
            if not cand: cand = [i for i, (o, n) in enumerate(needs) if i not in used and norm_need(needname) == norm_need(n)]
            if cand:
                used.add(cand[0]); mapping[a] = (needs[cand[0]][1], fn.asked[cand[0]])
            elif norm(needname) in ("samelength",) or True:
                say(fn.key, "no goal for", a, needname)
    invs, ans, helpers = [], [], []
    loopk = {norm("invariant-" + l[0][0]): i for i, l in enumerate(fn.loops)}
    inv_names = set()
    for com, lines in decls:
        sig = lines[0]
        m = need_re.match(sig)
        if m:
            name = m[1]
            if name not in mapping: continue
            new, at = mapping[name]
            place = fn.places.get(at[0])
            body = "\n".join(lines[1:]) if True else ""
            # signature may continue on more lines until the clause
            k = 1
            while k < len(lines) and not re.match(r"^%s( |$)" % re.escape(name), lines[k]) and not lines[k].startswith("unfolding"): k += 1
            unf = []
            while k < len(lines) and lines[k].startswith("unfolding"): unf.append(lines[k]); k += 1
            clause = lines[k:]
            if not clause: say(fn.key, "no clause for", name); continue
            mm = re.match(r"^%s ((?:%s ?)*)=(.*)$" % (re.escape(name), IDENT), clause[0])
            if not mm: say(fn.key, "odd clause", clause[0]); continue
            args = mm[1].split()
            bodyt = mm[2] + ("\n" + "\n".join(clause[1:]) if clause[1:] else "")
            if bodyt.strip() == "search rules": continue
            cvar = args[0] if args else "c"
            more = "".join(" " + a for a in args[1:] if a != "κs")
            bodyt = conv_paths(bodyt, fn, place, cvar, new)
            asked = fn.d["asked"].get(dict((n, o) for o, n in needs).get(new)) or []
            if len(asked) > 1: bodyt = as_record(bodyt, asked, fn, new)
            full = stem + new
            out = list(com) + ["pub %s : goal.%s" % (full, full)] + unf + ["%s %s%s%s =%s" % (full, tparam, cvar, more, bodyt.replace("goal.at." + new + " ", "goal.at." + full + " " + tparam) if True else bodyt)]
            ans.append((full, "\n".join(out)))
            continue
        if other_re.match(sig): continue
        mc = re.match(r"^(?:pub )?abbrev (?:pub )?(μ-%s|%s[-_](?:at|below|E)) :" % (IDENT, IDENT), sig)
        if cycfn is not None and mc:
            name = mc[1]
            if name.startswith("μ-"):
                fname = name[2:]
                cl = "\n".join(l for l in lines[1:])
                mm = re.match(r"^%s (\S+) (\S+) =(.*)$" % re.escape(name), cl, re.S)
                if not mm: say(fn.key, "odd measure", cl[:100]); continue
                a = mm[2]
                ps = None
                fname = members.get(fname, fname)
                for callee, q in SRC.items():
                    if norm(callee.rsplit("::", 1)[1]) == norm(fname) and callee.rsplit("::", 1)[0] == fn.path.rsplit("::", 1)[0]: ps = q[0]; fname = callee.rsplit("::", 1)[1]
                if ps is None:
                    say(fn.key, "parameters of", fname, "not known"); continue
                def pos(m):
                    k = m[1].count(".1"); return "l." + (ps[k] if k < len(ps) else "ARG%d" % k)
                bodyt = re.sub(r"(?<![\w.'])%s((?:\.1)*)\.0(?!\d)" % re.escape(a), pos, mm[3])
                t = "\n".join(list(com) + ["abbrev pub decreases-%s : goal.decreases-%s" % (fname, fname), "decreases-%s l =%s" % (fname, bodyt)])
                if t not in st["inv"] and t not in invs: invs.append(t)
            continue
        mi = re.match(r"^(?:pub )?abbrev (?:pub )?(%s) : (?:%s\.)?((?:invariant|decreases)-\S+|Inv\S*|μ\S*)" % (IDENT, IDENT), sig)
        if mi:
            name = mi[1]; what = mi[2]
            kind = "invariant" if norm(what).startswith("inv") else "decreases"
            nm = re.sub(r"^(invariant|decreases)-", "", what)
            k = None
            for i, l in enumerate(fn.loops):
                if norm(l[0][0]) == norm(nm): k = i
            if k is None:
                say(fn.key, "loop not found", what); continue
            newn = "%s-%s" % (kind, fn.loops[k][0][1])
            inv_names.add(name)
            j = 1
            while j < len(lines) and not re.match(r"^%s( |$)" % re.escape(name), lines[j]): j += 1
            cl = "\n".join(lines[j:])
            mm = re.match(r"^%s ((?:%s\s+)*)=(.*)$" % (re.escape(name), r"[^\s=]+"), cl, re.S)
            if not mm: say(fn.key, "odd invariant", cl[:100]); continue
            args = mm[1].split()
            tgt = loop_args(fn, k)
            if len(args) != len(tgt):
                say(fn.key, "arguments of", name, args, tgt)
            mp = {a: t for a, t in zip(args, tgt) if a != "_"}
            invs.append("\n".join(list(com) + ["abbrev pub %s : goal.%s" % (newn, newn), "%s l =%s" % (newn, subst(mm[2], mp))]))
            continue
        helpers.append((com, lines))
    # helpers
    hout = []; placed = []
    invtext = "\n".join(invs)
    hinv = []
    for com, lines in reversed(helpers):
        s = "\n".join(lines)
        m = re.match(r"^(?:pub )?(?:abbrev |record |data |unfoldable )?(?:pub )?(?:record |data )?(%s)" % IDENT, lines[0])
        if m and re.search(r"(?<![\w.'-])%s(?![\w'-])" % re.escape(m[1]), invtext): invtext += "\n" + s
    for com, lines in helpers:
        sig = "\n".join(lines)
        m = re.match(r"^(?:pub )?(?:abbrev |record |data |unfoldable |ruleset )?(?:pub )?(?:record |data )?(%s)" % IDENT, lines[0])
        name = m[1] if m else "?"
        mp = re.search(r"\((%s) : (%s)\.((?:After|In|At|Else|Then|Start|Over|Untold|Left|Told)[^\s)]*)[^)]*\)" % (IDENT, IDENT), sig)
        # with nested parentheses in the type of c
        mp2 = re.search(r"\((c) : (%s)\.((?:After|In|At|Else|Then|Start|Over|Untold|Left|Told)[^\s)]*)" % IDENT, sig)
        if mp2:
            p = find_place(fn, mp2[3])
            if p is None:
                if cycfn is None: say(fn.key, "helper", name, "place not found", mp2[3])
                continue
            # cut the type of c up to its closing parenthesis
            i = mp2.start(); depth = 0
            for j in range(i, len(sig)):
                depth += (sig[j] == "(") - (sig[j] == ")")
                if depth == 0: break
            if cycfn is not None:
                sig = sig[:i] + "(t : ℕ) (c : goal.%s t)" % p["new"] + sig[j+1:]
                sig = re.sub(r"(?m)^%s c\b" % re.escape(name), "%s t c" % name, sig)
            else:
                sig = sig[:i] + "(c : goal.%s)" % p["new"] + sig[j+1:]
            sig = conv_paths(sig, fn, p, "c", "?", inplace=True)
            placed.append(name)
            hout.append("\n".join(com + [sig]))
        else:
            if re.search(r"\b(tie|%s-lts)\." % (cycfn or "zz"), sig):
                say(fn.key, "helper", name, "cites the walk")
            t = "\n".join(com + [sig])
            if cycfn is not None and re.match(r"^\(?[\w-]+-lts", sig): continue
            if re.search(r"(?<![\w.'-])%s(?![\w'-])" % re.escape(name), invtext): hinv.append((name, t))
            else: hout.append(t)
    if cycfn is not None and placed:
        call = re.compile(r"(?<![\w.'-])(%s) (c(?![\w.'-])|\(goal\.at)" % "|".join(map(re.escape, placed)))
        hout = [call.sub(r"\1 t \2", h) for h in hout]
        ans = [(n, call.sub(r"\1 t \2", a)) for n, a in ans]
    # a helper that calls another one at an earlier place: its text holds as it stands, since the steps have the same names
    bodies = {}
    for h in hout:
        m = re.match(r"(?:--.*\n)*(%s) :" % IDENT, h)
        if m:
            k = re.search(r"(?m)^%s (?:t )?c =((?:.|\n)*)$" % re.escape(m[1]), h)
            if k: bodies[m[1]] = k[1].strip()
    def inline(m):
        b = bodies.get(m[1])
        if b is None or "let " in b: say(fn.key, "not inlined:", m[0]); return m[0]
        return "(%s)" % b
    hout = [re.sub(r"(?<![\w.'-])(%s) (?:t )?\(goal\.at\.\? (?:t )?c\)\.[\w'-]+" % IDENT, inline, h) for h in hout]
    hout = [re.sub(r"\(goal\.at\.\? (?:t )?c\)\.[\w'-]+(?=\.[\w«])", "c", h) for h in hout]
    st["head"] = head; st["uses"] = uses
    st["inv"] += invs; st.setdefault("hinv", []); st["hinv"] += [h for h in hinv if h not in st["hinv"]]
    st.setdefault("h", []); st["h"] += [h for h in hout if h not in st["h"]]
    st["ans"] += ans
    st["folder"] = folder; st["mod"] = mod; st["crate"] = crate

def norm_need(s):
    s = s.replace("overflow-", "").replace("overflow_", "")
    return norm(s)

def spec_order(spec, cycfn, answers):
    if spec is None: return None
    t = re.sub(r"--.*", "", spec)
    if cycfn is not None:
        m = re.search(r"%s-lts\.spec" % re.escape(cycfn), t) or re.search(r"%s-lts\.spec" % re.escape(cycfn.replace("_", "-")), t)
        if not m: return None
        t = t[m.end():]
        m2 = re.search(r"\w+-lts\.spec", t)
        if m2: t = t[:m2.start()]
    toks = []
    i = 0
    # items: (name t), (λ c. search rules), name
    for m in re.finditer(r"\(λ [^()]*\)|\((%s)(?: t)?\)|(?<![\w.-])(%s)(?![\w.-])" % (IDENT, IDENT), t):
        n = m[1] or m[2]
        if m[0].startswith("(λ"): toks.append(None)
        elif n in answers: toks.append(n)
    return toks

def parts(s):
    """the parts of a tuple, or None"""
    s = s.strip()
    if not (s.startswith("(") and s.endswith(")")): return None
    depth = 0; out = []; cur = ""
    for i, ch in enumerate(s):
        if ch in "([{": depth += 1
        if ch in ")]}": depth -= 1
        if depth == 0 and i < len(s) - 1: return None
        if depth == 1 and ch == "(" and i == 0: continue
        if depth == 1 and ch == ",": out.append(cur); cur = ""; continue
        if i < len(s) - 1: cur += ch
    if cur.strip(): out.append(cur)
    return out if len(out) > 1 else None

def last_let(body):
    """splits a body into its lets and its last expression (by the last ` in` at depth 0)"""
    depth, cut = 0, 0
    for m in re.finditer(r"[()\[\]{}]|(?<![\w.])in(?![\w.-])", body):
        if m[0] in "([{": depth += 1
        elif m[0] in ")]}": depth -= 1
        elif depth == 0: cut = m.end()
    return body[:cut], body[cut:]

def as_record(body, names, fn, new):
    lets, last = last_let(body)
    if last.strip() == "search rules" or last.strip().startswith("record"): return body
    xs = []; rest = last
    for k in range(len(names) - 1):
        ps = parts(rest)
        if ps is None or len(ps) < 2:
            say(fn.key, new, "not a tuple of", names); return body
        xs.append(ps[0].strip())
        rest = "(" + ",".join(ps[1:]) + ")" if len(ps) > 2 else ps[1].strip()
    xs.append(rest.strip())
    ind = "\n    "
    return lets + ind + "record {" + "".join(ind + "  %s = %s;" % (n, x) for n, x in zip(names, xs)) + ind + "}"

def publish(h):
    m = re.match(r"^((?:--.*\n)*)(?:pub )?(abbrev |unfoldable )?(?:pub )?", h)
    out = m[1] + (m[2] or "") + "pub " + h[m.end():]
    if re.search(r"(?m)^pub record ", out): out = re.sub(r"(?m)^  (?!pub )([\w' -]+ :)", r"  pub \1", out)
    return out

def write():
    for pf, st in STATE.items():
        d = st["folder"]
        drop = re.compile(r"\.(Tie|Reads|Kinds|Lts[\w-]*) as |\.Tie\.\{|use borrow\.Author\.Rules\.\{rules\}|borrow\.Fn\.(Kinds|PlainCycle|Cycle)|\.\{statement\}|^mod |^use [A-Z]\w*\.\*$")
        keep = [u for u in st["uses"] if not drop.search(u.split("\n")[0])]
        M = "Rattle.%s.proofs.%s" % (st["crate"], st["mod"])
        head = "\n".join(st["head"])
        if st["inv"] or st["hinv"]:
            t = (head + "\n" if head else "") + "\n".join(keep) + "\nuse %s.Given as goal\n\n" % M
            for n, h in st["hinv"]: t += publish(h) + "\n\n"
            t += "\n\n".join(st["inv"]) + "\n"
            open(os.path.join(d, "Invariants.antt"), "w").write(t)
        if st["ans"] or st["h"]:
            t = (head + "\n" if head else "") + "\n".join(keep) + "\nuse borrow.Author.Rules.{rules}\n"
            if st["hinv"]: t += "use %s.Invariants.{%s}\n" % (M, ", ".join(n for n, _ in st["hinv"]))
            t += "use %s.Goals as goal\n" % M
            body = "\n\n".join(st["h"] + [a for _, a in st["ans"]]) + "\n"
            places = set(re.findall(r"goal\.at\.\S+ \S+\)\.([A-Z][\w'-]*)", body)) | set(re.findall(r"\(c : goal\.([^)\s]+)\)", body))
            if places: t += "use %s.Goals.{%s}\n" % (M, ", ".join(sorted(places)))
            t += "\n"
            t += body
            open(os.path.join(d, "Answers.antt"), "w").write(t)
        os.remove(pf)

main()
if "--dry" not in sys.argv: write()
