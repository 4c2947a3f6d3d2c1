#!/usr/bin/env python3
"""Turns the proofs that walk the code, proofs/F/Proof.antt, to Invariants.antt and Answers.antt.

    cd crates/NAME; rt check --generated /tmp/names --old-names; python3 ../../tools/port_proofs.py /tmp/names/names.json

The names of goals and steps go by that list; an answer stays as it was but for them.
"""
import json
import os
import re
import sys


def norm(word):
    word = re.sub(r"^overflow[-_]", "", word)
    return word.replace("_", "-").lower()


def find(names, crate, function):
    key = "Rattle-%s-proofs.%s.Lts" % (crate, function)
    return names.get(key)


TOKEN = re.compile(r"[^\s()\[\]{},;.]+")


def put_names(body, names):
    """Names of parameters in a body give way to fields of `l`."""
    out = []
    last = 0
    for m in TOKEN.finditer(body):
        out.append(body[last:m.start()])
        before = body[m.start() - 1] if m.start() > 0 else " "
        word = m.group(0)
        out.append(names[word] if before != "." and word in names else word)
        last = m.end()
    out.append(body[last:])
    return "".join(out)


def put_steps(body, steps):
    body = re.sub(r"\bapply\.new\.0", "apply.new.disk", body)
    body = re.sub(r"(\.before)+(?![\w-])", "", body)
    same = "|".join(["c"] + re.findall(r"let (\w+) = c in", body))

    def one(m):
        word = m.group(2)
        return m.group(1) + "." + steps.get(norm(word), word)

    return re.sub(r"(?<![\w.'-])((?:%s)\.if-not-[\w-]+\.(?:true|false))(?![\w-])" % same, r"(ap not \1)", re.sub(r"(?<![\w.'-])(%s)\.([A-Za-z][\w-]*'?)" % same, one, body))


def add_imports(uses, text):
    """What `ap not` needs."""
    if "(ap not " in text:
        for name, module in (("ap", "mathlib.Core.Path"), ("not", "mathlib.Core.Bool")):
            if not re.search(r"[{ ]%s[,}]" % name, "\n".join(uses)):
                uses.append("use %s.{%s}" % (module, name))


def tables(known):
    """The goals and the steps of a function, each by its old name."""
    goals = {norm(a): b for a, b in known["needs"]}
    steps = {}
    for place in known["places"]:
        old, new = place[2]
        if old:
            steps.setdefault(norm(old), new)
    return goals, steps


def turn(path, crate, function, names):
    text = open(path, encoding="utf-8").read()
    known = find(names, crate, function)
    if known is None:
        print("no names for", function)
        return False
    goals, steps = tables(known)
    loops = {}
    for (labels, variables), changed in zip(known["loops"], known["changed"]):
        loops[norm(labels[0])] = (labels[1], variables, changed)
        steps[norm(labels[0])] = labels[1]
        steps[norm(labels[0]) + "-test"] = labels[1] + "-test"
    header, uses, invariants, answers, others = [], [], [], [], []
    for block in re.split(r"\n[ \t]*\n", text.strip("\n")):
        lines = block.split("\n")
        while lines and (lines[0].startswith("--") or lines[0].startswith("use ")):
            line = lines.pop(0)
            if line.startswith("use "):
                if not re.search(r"\.(Tie|Statement)(\.|\s|$)", line):
                    uses.append(line)
            elif not lines or answers or invariants or others:
                others.append(line)
            else:
                header.append(line)
        if not lines:
            continue
        block = "\n".join(lines)
        m = re.match(r"(?:abbrev |unfoldable )?(?:pub )?(invariant|decreases)-([\w-]+)\s*:\s*tie\.", block)
        if m:
            kind, label = m.group(1), norm(m.group(2))
            if label not in loops:
                print(function, "no loop", label)
                others.append(block)
                continue
            new, variables, changed = loops[label]
            rest = "\n".join(lines[1:])
            if rest.startswith("unfolding"):
                extra, rest = rest.split("\n", 1)
            else:
                extra = None
            head, body = rest.split("=", 1)
            params = head.split()[1:]
            want = [("l.initial." if c else "l.") + v for v, c in zip(variables, changed)] + ["l." + v for v, c in zip(variables, changed) if c]
            if len(params) != len(want):
                print(function, label, "parameters", params, want)
            table = dict(zip(params, want))
            name = "%s-%s" % (kind, new)
            invariants.append("abbrev pub %s : goal.%s\n%s%s l =%s" % (name, name, extra + "\n" if extra else "", name, put_names(body, table)))
            continue
        m = re.match(r"(?:pub )?([^\s:]+)\s*:\s*tie\.Need-([^\s]+)[^\n]*\n", block)
        if m:
            goal = goals.get(norm(m.group(2)))
            if goal is None:
                print(function, "no goal", m.group(2), "; there are", sorted(goals))
                others.append("-- no goal\n" + re.sub(r"(?m)^", "-- ", block))
                continue
            rest = block[m.end():]
            extra = ""
            while rest.startswith("unfolding"):
                one, rest = rest.split("\n", 1)
                extra += one + "\n"
            head, body = rest.split("=", 1)
            answers.append((goal, "pub %s : goal.%s\n%s%s c =%s" % (goal, goal, extra, goal, put_steps(body, steps))))
            continue
        if re.match(r"pub [\w-]+[-_]spec\s*:", block):
            continue
        others.append(block)
    folder = os.path.dirname(path)
    base = "use Rattle.%s.proofs.%s" % (crate, function)
    if invariants:
        with open(os.path.join(folder, "Invariants.antt"), "w", encoding="utf-8") as f:
            f.write("\n".join(header + uses + [base + ".Given as goal"]) + "\n\n" + "\n\n".join(invariants) + "\n")
    add_imports(uses, "\n".join(a for _, a in answers))
    if answers or others:
        with open(os.path.join(folder, "Answers.antt"), "w", encoding="utf-8") as f:
            f.write("\n".join(header + uses + [base + ".Goals as goal"]) + "\n\n" + "\n\n".join(others + [a for _, a in answers]) + "\n")
    os.remove(path)
    return True


def turn_cycle(path, crate, function, names):
    """The same of a function that calls itself: proofs/+F."""
    text = open(path, encoding="utf-8").read()
    known = names["Rattle-%s-proofs.+%s.Lts-%s" % (crate, function, function)]
    goals, steps = tables(known)
    header, uses, answers, others, measure = [], [], [], [], None
    for block in re.split(r"\n[ \t]*\n", text.strip("\n")):
        lines = block.split("\n")
        while lines and (lines[0].startswith("--") or lines[0].startswith("use ")):
            line = lines.pop(0)
            if line.startswith("--"):
                header.append(line)
            elif not re.search(r"\.(Tie|Statement|Kinds|Reads|PlainCycle|Lts-\w+|\+\w+\.\{statement\}|\+\w+\.Tie)(\.|\s|$)", line) and ".{statement}" not in line:
                uses.append(line)
        if not lines:
            continue
        block = "\n".join(lines)
        m = re.match(r"abbrev μ-", block)
        if m:
            path_of = block.rsplit("=", 1)[1].strip()
            params = known["params"]["%s::%s" % (crate, function)]
            measure = params[path_of.count(".1")]
            continue
        if re.match(r"abbrev [\w-]+[-_](at|below)\s*:", block) or re.match(r"pub [+\w-]+[-_]spec\s*:", block):
            continue
        m = re.match(r"(?:pub )?[^\s:]+\s*:\s*\(t : ℕ\) → [\w-]+-lts\.Need-([\w-]+)", block)
        if m:
            goal = goals.get(norm(m.group(1)))
            if goal is None:
                print(function, "no goal", m.group(1), "; there are", sorted(goals))
                continue
            at = re.search(r"(?m)^[\w-]+ t c( κs)? =", block)
            answers.append("pub %s : goal.%s\n%s t c =%s" % (goal, goal, goal, put_steps(block[at.end():], steps)))
            continue
        others.append(block)
    folder = os.path.dirname(path)
    base = "use Rattle.%s.proofs.+%s" % (crate, function)
    add_imports(uses, "\n".join(answers))
    with open(os.path.join(folder, "Invariants.antt"), "w", encoding="utf-8") as f:
        f.write("\n".join(header + [base + ".Given as goal"]) + "\n\nabbrev pub decreases-%s : goal.decreases-%s\ndecreases-%s l = l.%s\n" % (function, function, function, measure))
    with open(os.path.join(folder, "Answers.antt"), "w", encoding="utf-8") as f:
        f.write("\n".join(header + uses + [base + ".Goals as goal"]) + "\n\n" + "\n\n".join(others + answers) + "\n")
    os.remove(path)
    return True


def main():
    names = json.load(open(sys.argv[1], encoding="utf-8"))
    crate = os.path.basename(os.getcwd())
    count = 0
    for folder, _, files in sorted(os.walk("proofs")):
        if "Proof.antt" in files and "+" in folder:
            count += turn_cycle(os.path.join(folder, "Proof.antt"), crate, os.path.basename(folder)[1:], names)
        elif "Proof.antt" in files:
            function = os.path.relpath(folder, "proofs").replace(os.sep, ".")
            count += turn(os.path.join(folder, "Proof.antt"), crate, function, names)
    print(count, "turned")


if __name__ == "__main__":
    main()
