"""What a document cites of documents: links with their anchors, sections and decisions by number."""
import os
import re

LINK = re.compile(r"!?\[[^\]\n]*\]\(([^)\s]+)\)")
SECTION = re.compile(r"(?:\b([A-Z]{4,})(?:\.md)?,? )?section (\d+)\b")
DECISION = re.compile(r"\bdecisions? (\d+)(?: and (\d+))?")
DECISIONS = "docs/DECISIONS.md"


def anchor(heading):
    """The anchor that a heading gets on the web."""
    kept = re.sub(r"[^\w\- ]", "", heading.replace("`", "").lower())
    return kept.strip().replace(" ", "-")


def headings(repository, path):
    return re.findall(r"^#+ (.*)$", repository.text(path), re.M)


class Cited:
    def __init__(self, repository, document, exceptions, faults):
        self.repository, self.document, self.exceptions, self.faults = repository, document, exceptions, faults
        self.counts = {"links": 0, "citations": 0}

    def fault(self, place, thing, why):
        if not self.exceptions.has(self.document.path, thing):
            self.faults.append(f"{self.document.at(place)}: {thing}: {why}")

    def link(self, place, target):
        if "://" in target:
            return
        self.counts["links"] += 1
        name, _, part = target.partition("#")
        path = os.path.normpath(os.path.join(os.path.dirname(self.document.path), name)) if name else self.document.path
        if not self.repository.has(path):
            self.fault(place, target, "the link leads nowhere")
        elif part and part not in map(anchor, headings(self.repository, path)):
            self.fault(place, target, "no heading has this anchor")

    def section(self, place, name, number):
        """A section of the document that is named right before, or of this one."""
        path = f"docs/{name}.md" if name else self.document.path
        if path not in self.repository.files:
            return
        self.counts["citations"] += 1
        if not any(heading.startswith(f"{number}. ") for heading in headings(self.repository, path)):
            self.fault(place, f"section {number}", f"{path} has no such section")

    def decision(self, place, number):
        self.counts["citations"] += 1
        if not re.search(rf"^\| {number} \|", self.repository.text(DECISIONS), re.M):
            self.fault(place, f"decision {number}", f"{DECISIONS} has none of this number")


def check(repository, document, exceptions, faults):
    cited = Cited(repository, document, exceptions, faults)
    for block in document.blocks:
        if block.kind == "code":
            continue
        for match in LINK.finditer(block.text):
            cited.link(block.start + match.start(), match[1])
        for match in SECTION.finditer(block.text):
            cited.section(block.start + match.start(), match[1], match[2])
        for match in DECISION.finditer(block.text):
            for number in filter(None, match.groups()):
                cited.decision(block.start + match.start(), number)
    return cited.counts
