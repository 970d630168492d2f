"""The lines of `list`, `stat` and `get` (docs/FORMAT.md, "Lines"), of what was read of an image."""


class Refused(Exception):
    """A command was refused, with the text of its line."""

    def line(self):
        return b"refused " + str(self).encode()


class Lines:
    """Answers the commands that only read. Who reads the image says what a path leads to (`resolve`), and what stands there
    (`list_parts`, `stat_words` and `get_parts`)."""

    def answer(self, command):
        """The line of a command."""
        word, path, *numbers = command.split(b" ")
        try:
            return {b"list": self.list_line, b"stat": self.stat_line, b"get": self.get_line}[word](self.resolve(path), *map(int, numbers))
        except Refused as refused:
            return refused.line()

    def list_line(self, at):
        return b" ".join([b"names", *self.list_parts(at)])

    def stat_line(self, at):
        is_file, size, names = self.stat_words(at)
        return b"stat %s %d %d" % (b"file" if is_file else b"dir", size, names)

    def get_line(self, at, offset, length):
        return b" ".join([b"got", *self.get_parts(at, offset, length)])


# The parts of a line of `list`

def pair(name, is_folder):
    return name + b"/" * is_folder


def dead(name):
    return b"/dead:" + name


def lost_slot(number):
    return b"/lost:%d" % number


def unread(place):
    return b"/unread:%d" % place


# The parts of a line of `get`, one a slot

def some(data):
    return b"bytes:" + data.hex().encode()


def none(what, length):
    """Of a slot without bytes: `hole`, `lost`, `unread`."""
    return b"%b:%d" % (what, length)
