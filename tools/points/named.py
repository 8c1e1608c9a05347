"""named.txt: what was found by reading, and which of it still stands."""
import os

FILE = os.path.join(os.path.dirname(os.path.abspath(__file__)), "named.txt")


def read():
    """By point: what is read, and the lines below it as pairs of names and a note."""
    points, lines = {}, None
    with open(FILE, encoding="utf8") as file:
        for line in file:
            if not line.strip() or line.startswith("#"):
                continue
            if not line.startswith(" "):
                point, title = line.strip().split(" ", 1)
                points[point] = (title, lines := [])
            else:
                names, _, note = line.partition(" -- ")
                lines.append((names.split(), note.strip()))
    return points


POINTS = read()


def title(point):
    return POINTS[point][0]


def standing(sources, point):
    """The places of a point's names that still stand."""
    places = []
    for names, note in POINTS[point][1]:
        for name in names:
            if place := sources.place(name):
                places.append(place._replace(what=f"{name}  {note}" if note else name))
    return places


def groups(sources, point):
    """The groups of which two names or more still stand, each as the places of these names."""
    for names, _ in POINTS[point][1]:
        places = [place for place in map(sources.place, names) if place]
        if len(places) > 1:
            yield places


def gone(sources, point):
    """The names of a point that no longer stand."""
    return [name for names, _ in POINTS[point][1] for name in names if not sources.place(name)]
