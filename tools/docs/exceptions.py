"""What is passed over, with a reason each: exceptions.txt. One that no document needs any more is a fault too."""
import os

FILE = "tools/docs/exceptions.txt"


class Exceptions:
    def __init__(self, root):
        self.lines = {}
        with open(os.path.join(root, FILE), encoding="utf8") as file:
            for number, line in enumerate(file, 1):
                if line.strip() and not line.startswith("#"):
                    document, thing, reason = line.split(maxsplit=2)
                    self.lines[document, thing] = number
        self.met = set()

    def has(self, document, thing):
        for key in ((document, thing), ("*", thing)):
            if key in self.lines:
                self.met.add(key)
                return True
        return False

    def unused(self):
        left = sorted((self.lines[key], key) for key in self.lines.keys() - self.met)
        return [f"{FILE}:{number}: {key[1]} is not met in {key[0]} any more" for number, key in left]
