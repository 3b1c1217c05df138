"""Files of named parts and of cases about them: the input of `replay_cases` and of `job_cases`."""

import sys

from selector_texts import UnknownText


class Container:
    """The parts so far, by name. `begin` is the word of a line that begins one."""

    def __init__(self, content, begin):
        self.content = content
        self.begin = begin
        self.parts = {}
        self.last = None

    def next_line(self):
        line, _, self.content = self.content.partition(b"\n")
        return line

    def next_bytes(self, count):
        part, self.content = self.content[:count], self.content[count + 1 :]
        return part

    def cases(self):
        """The lines of the cases. Each part of the file is read before the cases behind it are done."""
        while self.content:
            line = self.next_line().decode()
            if line and not line.startswith("#") and not self.add(*line.partition(" ")[::2]):
                yield line

    def add(self, word, rest):
        """Begins a part, or appends to the last one. Returns false for a line that is a case."""
        if word == self.begin:
            self.last = rest
            self.parts[rest] = b""
            return True
        if word == "lines":
            new = b"".join(self.next_line() + b"\n" for _ in range(int(rest)))
        elif word == "bytes":
            new = self.next_bytes(int(rest))
        elif word == "octets":
            new = bytes(map(int, rest.split(" ")))
        elif word == "copies":
            first, last, name = rest.split(" ")
            numbers = range(int(first), int(last) + 1)
            new = b"".join(self.parts[name].replace(b"#", b"%d" % number) for number in numbers)
        else:
            return False
        self.parts[self.last] += new
        return True


def print_case(line, case, parts):
    """Prints the line of a case and what the case prints, or that it is left out."""
    try:
        text = case(line, parts)
    except UnknownText as unknown:
        text = f"left out, since a selector is unknown: {unknown}\n".encode()
    sys.stdout.buffer.write(f"== {line}\n".encode() + text)
