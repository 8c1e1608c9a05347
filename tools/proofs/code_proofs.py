# Writes a function's proof file from what the check generates for it and from short answers. How to run it: see
# names_proofs.py. An answer is antt with @NAME for the record of that name on the way to the need (a call, a test, a
# loop), and @@ for the entry.
import os
import re


def parse(path):
    """The records of an Lts file, with their fields, and each need's record."""
    records, needs, current, waiting = {}, {}, None, None
    for line in open(path, encoding="utf8"):
        m = re.match(r"^ +pub record (\S+) ", line)
        if m:
            current, waiting = m.group(1), None
            records[current] = []
            continue
        m = re.match(r"^ +pub (\S+) :\s*(.*)$", line)
        if m and current is not None:
            records[current].append((m.group(1), m.group(2).strip()))
            continue
        m = re.match(r"^ +Need-(\S+) =\s*(?:\(c : (\S+)\))?", line)
        if m:
            waiting = m.group(1)
            if m.group(2):
                needs[waiting] = m.group(2).rstrip(")")
                waiting = None
            continue
        m = re.match(r"^ +\(c : (\S+)\)", line)
        if m and waiting:
            needs[waiting] = m.group(1)
            waiting = None
    return records, needs


def way_to(records, place):
    """The things on the way from the entry to a place: name, path from c, own fields; and the entry's path."""
    out, path = [], "c"
    while records.get(place) and records[place][0][0] == "before":
        thing = records[place][1][0]
        out.append((thing, path, [f[0] for f in records.get(place + "·own", [])]))
        path += " .before"
        place = records[place][0][1]
    return out[::-1], path


class Crate:
    def __init__(self, name, generated, crate, calls, looks):
        self.name, self.calls, self.looks = name, calls, looks
        self.generated = os.path.join(generated, f"Rattle·{name}·proofs", "proofs")
        self.out = os.path.join(crate, "proofs")
        self.written = []

    def progress(self, way, own, tests):
        """What the calls on the way ensure of what is left."""
        facts, test = [], {}
        tests = {v: k for k, v in tests.items()}
        for i, (thing, _, fields) in enumerate(way):
            if "taken" in fields or "left" in fields:
                call = tests.get(thing) or next((w[0] for w in reversed(way[:i]) if self.kind(w[0], own)), None)
                if call and call not in test:
                    test[call] = (thing, "taken" if "taken" in fields else "left")
        for thing, _, fields in way:
            kind = self.kind(thing, own)
            if kind == "le":
                facts.append(f"@{thing} .ensures .1")
            elif kind == "all":
                facts.append(f"@{thing} .ensures .1 (@@ .args .tokens .now)")
            elif kind in ("yes", "end"):
                facts.append(f"@{thing} .ensures .1 .0")
                if thing in test and test[thing][1] == "taken" and kind == "yes":
                    facts.append(f"@{thing} .ensures .1 .1 (@{test[thing][0]} .taken)")
                if thing in test and test[thing][1] == "left" and kind == "end":
                    facts.append(f"@{thing} .ensures .1 .1 .0 (@{test[thing][0]} .left)")
            elif thing.startswith("loop") and "inv" in fields:
                facts.append(f"@{thing} .inv .1 .0")
        return ", ".join(facts)

    def kind(self, thing, own):
        base = re.sub(r"\d+$", "", thing)
        return own.get(thing) or own.get(base) or self.calls.get(base)

    def kept(self, way, own):
        facts = []
        for thing, _, fields in way:
            if self.kind(thing, own) and re.sub(r"\d+$", "", thing) not in self.looks:
                facts.append(f"@{thing} .kept")
            elif thing.startswith("loop") and "inv" in fields:
                facts.append(f"@{thing} .inv .1 .1")
        return ", ".join(facts)

    def resolve(self, text, way, start):
        """The answer with paths for names; a path of some length gets a name by `let`."""
        places = {thing: path for thing, path, _ in way}
        used = [t for t, _, _ in way if re.search(r"@" + re.escape(t) + r"(?![\w-])", text)]
        lets, names, last = [], {}, None
        letters = iter("adefgijlmnopqruvwxyz")
        for thing in reversed(used):
            path = places[thing]
            name = next(letters)
            if last:
                rest = path[len(last[1]):]
                lets.append(f"let {name} = {last[0]}{rest} in")
            else:
                lets.append(f"let {name} = {path} in")
            names[thing] = name
            last = (name, path)
        if "@@" in text:
            rest = start[len(last[1]):] if last else start[1:]
            lets.append(f"let s = {(last[0] if last else 'c')}{rest} in")
        text = text.replace("@@", "s")
        text = re.sub(r"@([A-Za-z][\w-]*)", lambda m: f"{names[m.group(1)]} .{m.group(1)}", text)
        return lets, text

    def proof(self, fn, answers, head, uses=(), own={}, tests={}, inv=None, measure=None):
        records, needs = parse(os.path.join(self.generated, fn, "Lts.antt"))
        module = f"Rattle·{self.name}·proofs.proofs." + fn.replace("/", ".")
        lines = [f"-- {head}", *uses]
        body, names = [], []
        extra = ""
        if inv:
            extra = " Inv-loop μ-loop"
            body += ["abbrev Inv-loop : tie.InvT-loop", f"Inv-loop {inv[0]} = {inv[1]}", ""]
            body += ["abbrev μ-loop : tie.MeasureT-loop", f"μ-loop {inv[0]} = {measure}", ""]
        for need, place in needs.items():
            names.append(need)
            way, start = way_to(records, place)
            answer = answers.get(need)
            if answer is None:
                answer = self.usual(need, way, own)
            unfolds = None
            if isinstance(answer, tuple):
                unfolds, answer = answer
            answer = answer.replace("PROGRESS", self.progress(way, own, tests)).replace("KEPT", self.kept(way, own))
            lets, answer = self.resolve(answer, way, start)
            more = " κs" if re.search(r"-requires(-\d+)?$", need) else ""
            body.append(f"{need} : tie.Need-{need}{extra}")
            if unfolds:
                body.append(f"unfolding {unfolds}")
            if lets:
                body.append(f"{need} c{more} =")
                body += ["    " + l for l in lets]
                body.append("    " + answer)
            else:
                body.append(f"{need} c{more} = {answer}")
            body.append("")
        spec = fn.split("/")[-1].replace("_", "-") + "-spec"
        arguments = (["Inv-loop", "μ-loop"] if inv else []) + names
        body += [f"pub {spec} : {{M : Type 1}} → statement M", f"{spec} = tie.close (tie.spec {' '.join(arguments)})", ""]
        if "search needs" in "\n".join(body):
            lines.append("use borrow.Author.Needs.{needs}")
        lines += [f"use {module}.Statement.{{statement}}", f"use {module}.Tie as tie", ""]
        self.write(fn, "\n".join(lines + body))

    def usual(self, need, way, own):
        if re.search(r"-requires(-\d+)?$", need):
            return "tt"
        if re.match(r"enum-(told|known)", need):
            return f"@{way[-1][0]} .{way[-1][2][0]}"
        if need.startswith("same-length"):
            return "omega (arith, KEPT)"
        if need.startswith("slice-aggregate"):
            return "search needs"
        return "?"

    def write(self, fn, text):
        path = os.path.join(self.out, fn, "Proof.antt")
        os.makedirs(os.path.dirname(path), exist_ok=True)
        self.written.append(path)
        if not os.path.exists(path) or open(path, encoding="utf8").read() != text:
            open(path, "w", encoding="utf8").write(text)
