#!/usr/bin/env python3
"""Brings the must-fail edits over: each edit is made in the landed text of the older Rattle, that text is turned by the kit's port.py and
tools/spell.py as the repository was, and what then differs from the turned landed text is the edit in today's spelling.
usage: edits_over.py rounds OLD FOLDER      makes the rounds FOLDER/1 .. (clones of OLD with edits of specs/ made), to be turned
       edits_over.py turned FOLDER BASE     writes FOLDER/turned.json: per edit the differing lines
"""
import collections, difflib, glob, json, os, re, subprocess, sys


def pairs(path):
    out, file, old = [], None, None
    for line in open(path, encoding="utf-8").read().split("\n"):
        if line.startswith("file: "):
            file = line[6:]
        elif line.startswith("old: "):
            old = line[5:]
        elif line.startswith("new:") and old is not None:
            out.append((file, old, line[5:] if line[4:5] == " " else line[4:]))
            old = None
    return out


def edits(top):
    for p in sorted(glob.glob(top + "/crates/*/must-fail/*.edit") + glob.glob(top + "/edits/*/*.edit")):
        name = p[len(top) + 1:]
        yield name, name.split("/")[1], pairs(p)


def made(top, crate, ps, texts):
    """The texts after the edit, and the lines it touches: {file: set of line numbers}."""
    before = dict(texts)
    for file, old, new in ps:
        key = "crates/%s/%s" % (crate, file)
        t = texts.get(key)
        if t is None:
            t = before[key] = open(os.path.join(top, key), encoding="utf-8").read()
        assert t.count(old) == 1, (crate, file, old)
        texts[key] = t.replace(old, new)
    touched = {}
    for key, t in before.items():
        a, b = t.split("\n"), texts.get(key, t).split("\n")
        s = {i for i, (x, y) in enumerate(zip(a, b)) if x != y}
        if s:
            touched[key] = s
    return texts, touched


def rounds(top, folder):
    plan = []
    for name, crate, ps in edits(top):
        if not any(f.startswith("specs/") for f, _, _ in ps):
            continue
        _, touched = made(top, crate, ps, {})
        for r in plan:
            if all(min(abs(x - y) for x in s for y in r["lines"].get(k, {-99})) > 2 for k, s in touched.items()):
                break
        else:
            r = {"lines": collections.defaultdict(set), "edits": []}
            plan.append(r)
        for k, s in touched.items():
            r["lines"][k] |= s
        r["edits"].append([name, crate, ps, {k: sorted(s) for k, s in touched.items()}])
    json.dump([r["edits"] for r in plan], open(os.path.join(folder, "plan.json"), "w"), ensure_ascii=False, indent=0)
    print(len(plan), [len(r["edits"]) for r in plan])
    for i, r in enumerate(plan, 1):
        to = os.path.join(folder, str(i))
        subprocess.run(["git", "clone", "-q", top, to], check=True)
        texts = {}
        for name, crate, ps, lines in r["edits"]:
            mine, _ = made(top, crate, ps, {})
            for key, at in lines.items():
                t = texts.setdefault(key, open(os.path.join(top, key), encoding="utf-8").read().split("\n"))
                for j in at:
                    t[j] = mine[key].split("\n")[j]
        for key, t in texts.items():
            open(os.path.join(to, key), "w", encoding="utf-8").write("\n".join(t))
        subprocess.run(["git", "-C", to, "-c", "user.name=e", "-c", "user.email=e@e", "commit", "-qam", "edits"], check=True)


def hunks(a, b):
    """The differing stretches of two files' lines: (first line in a, lines of a, lines of b)."""
    m = difflib.SequenceMatcher(None, a, b, autojunk=False)
    return [(i, a[i:j], b[k:l]) for op, i, j, k, l in m.get_opcodes() if op != "equal"]


def turned(folder, old, base):
    """Per edit the stretches in which its turned text differs from base; those of one file in a round belong to its edits in the order of lines."""
    plan = json.load(open(os.path.join(folder, "plan.json"), encoding="utf-8"))
    out = {}
    for n, r in enumerate(plan, 1):
        if not os.path.exists(os.path.join(folder, "%d.done" % n)):
            continue
        by = collections.defaultdict(list)
        for name, crate, ps, lines in r:
            out[name] = {}
            for key, at in lines.items():
                by[key].append((at, name))
        for key, users in by.items():
            a = open(os.path.join(base, key), encoding="utf-8").read().split("\n")
            b = open(os.path.join(folder, str(n), key), encoding="utf-8").read().split("\n")
            o = open(os.path.join(old, key), encoding="utf-8").read().split("\n")
            hs = hunks(a, b)
            # a line of the old file stands in the new one by its rank among lines that are not imports
            def rank(ls, i, use=re.compile(r"^(ghost |pub )?use ")):
                return sum(1 for l in ls[:i] if not use.match(l))
            places = sorted((rank(o, i), i, name) for at, name in users for i in at)
            if len(users) == 1:
                out[users[0][1]][key] = hs
                continue
            for h in hs:
                near = min(places, key=lambda p: abs(p[0] - rank(a, h[0])))
                out[near[2]].setdefault(key, []).append(h)
    json.dump(out, open(os.path.join(folder, "turned.json"), "w", encoding="utf-8"), ensure_ascii=False, indent=1)


NAMES = dict(l.split() for l in open(os.path.join(os.path.dirname(os.path.abspath(__file__)), "spelling.txt"), encoding="utf-8") if not l.startswith("#"))
WORD = re.compile(r"[^\s(){}\[\],;.:=→λ∷⌜⌝×≡`\"]+")


def spelled(text):
    """A piece of a line of specs/ in today's spelling: as good as words alone can say it."""
    text = re.sub("[«»]", "", text)
    text = WORD.sub(lambda m: NAMES.get(m.group(0), m.group(0)), text)
    text = re.sub(r"\bgetD\b", "get_or", text)
    before = None
    while before != text:
        before = text
        text = re.sub(r"([\w'\)\]]) \.(\w)", r"\1.\2", text)
        text = re.sub(r"\((\w[\w'.]*\.\w+)\)", r"\1", text)
    return text


def snippet(line, old, was, now):
    """The part of the lines was and now that stands for the old text of an old line; None where its surroundings are not recognized."""
    i = line.find(old)
    left, right = spelled(line[:i]), spelled(line[i + len(old):])
    if was.startswith(left) and now.startswith(left) and was.endswith(right) and now.endswith(right) and len(left) + len(right) < min(len(was), len(now)):
        return was[len(left):len(was) - len(right)], now[len(left):len(now) - len(right)]
    return None


def write(folder, old, top, out):
    """Writes each edit to out in today's spelling where that can be done by rule, and lists the others."""
    turns = json.load(open(os.path.join(folder, "turned.json"), encoding="utf-8"))
    left = []
    for name, crate, ps in edits(old):
        head = open(os.path.join(old, name), encoding="utf-8").read().split("\nfile: ")[0]
        lines, why, seen = [], None, set()
        texts = {}
        for file, o, n in ps:
            key = "crates/%s/%s" % (crate, file)
            if file.startswith("src/"):
                lines.append((file, o, n))
                continue
            if name not in turns:
                why = "not turned yet"
                break
            if o == "FIRST" or n == "FIRST":
                why = "two steps"
                break
            src = open(os.path.join(old, key), encoding="utf-8").read().split("\n")
            at = [i for i, l in enumerate(src) if o in l]
            hs = [h for h in turns[name].get(key, [])]
            imports = [h for h in hs if re.match(r"(pub )?use ", (h[1] + h[2] + [""])[0])]
            others = [h for h in hs if h not in imports]
            mine = sorted({i for f, q, _ in ps if f == file for i, l in enumerate(src) if q in l and not re.match(r"(pub )?use ", l)})
            if len(at) != 1:
                why = "old: is not in one line"
                break
            if re.match(r"(pub )?use ", src[at[0]]):
                for h in imports:
                    if (key, h[0]) in seen:
                        continue
                    seen.add((key, h[0]))
                    if len(h[1]) == len(h[2]):
                        lines += [(file, a, b) for a, b in zip(h[1], h[2]) if a != b]
                    else:
                        why = "imports of another number of lines"
                continue
            flat = [(h[0] + j, a, b) for h in others if len(h[1]) == len(h[2]) for j, (a, b) in enumerate(zip(h[1], h[2]))]
            if any(len(h[1]) != len(h[2]) for h in others) or len(flat) != len(mine):
                why = "%d lines for %d" % (len(flat), len(mine))
                break
            i, was, now = flat[mine.index(at[0])]
            if sum(1 for f, q, _ in ps if f == file and q in src[at[0]]) > 1:
                if (key, i) not in seen:
                    seen.add((key, i))
                    lines.append((file, was.strip(), now.strip()))
                continue
            got = snippet(src[at[0]], o, was, now)
            text = open(os.path.join(top, key), encoding="utf-8").read()
            if not got or text.count(got[0]) != 1 or got[0].strip() != got[0] or not got[1].strip():
                got = was.strip(), now.strip()
            lines.append((file, *got))
        if why:
            left.append((name, why))
            continue
        texts = {}
        for f, o, n in lines:
            key = os.path.join(top, "crates", crate, f)
            t = texts.setdefault(key, open(key, encoding="utf-8").read())
            if t.count(o) != 1:
                why = "%d times in today's %s: %s" % (t.count(o), f, o)
                break
            texts[key] = t.replace(o, n)
        if why:
            left.append((name, why))
            continue
        with open(os.path.join(out, name), "w", encoding="utf-8") as f:
            f.write(head + "\n" + "".join("file: %s\nold: %s\nnew:%s\n" % (f_, o, " " + n if n else n) for f_, o, n in lines))
    for n, w in left:
        print(n, "|", w)
    print(len(left), "by hand")


if __name__ == "__main__":
    {"rounds": rounds, "turned": turned, "write": write}[sys.argv[1]](*sys.argv[2:])
