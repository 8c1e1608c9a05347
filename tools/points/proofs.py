"""Point 8: the files in which a proof is answered by hand, and the answers in them."""
import re

from .sources import COUNTED, Place

ANSWER = re.compile(r"(?m)^(?:abbrev )?pub (\S+) :")


def files(name):
    def places(sources):
        return [
            Place(COUNTED.match(path)[1], path, 1, path)
            for path in sources.proofs
            if path.endswith(f"/{name}.antt")
        ]

    return places


def answers(sources):
    places = []
    for path, text in sources.proofs.items():
        for found in ANSWER.finditer(text):
            places.append(Place(COUNTED.match(path)[1], path, text.count("\n", 0, found.start()) + 1, found[1]))
    return places


def lines(sources):
    return [
        Place(COUNTED.match(path)[1], path, number, "")
        for path, text in sources.proofs.items()
        for number in range(1, len(text.splitlines()) + 1)
    ]


POINTS = [
    ("8a", "files Answers.antt", files("Answers")),
    ("8b", "files Invariants.antt", files("Invariants")),
    ("8c", "answers in them", answers),
    ("8d", "lines of them", lines),
]
