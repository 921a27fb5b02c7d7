"""Where the commands of a session end, and what a session comes to that is cut off after so many of its bytes."""
import collections
import re

import calls

LINE = re.compile(rb"report|quit|put ([A-Za-z0-9_]{1,64}\.(?:lsl|lp)) (0|[1-9][0-9]{0,7})|"
                  rb"drop [A-Za-z0-9_]{1,64}\.(?:lsl|lp)|"
                  rb"derive [A-Za-z0-9_]{1,64} (?:assume|imply|convert)\.[1-9][0-9]{0,5}|")
# A command's line and all that belongs to it, by its first byte and the one behind its last.
Command = collections.namedtuple("Command", "begin end")


def next_command(source, begin):
    """The command of a session that begins at a byte; None where it is none, or isn't whole. The last line may lack
    its end."""
    stop = source.find(b"\n", begin)
    line, behind = (source[begin:], len(source)) if stop < 0 else (source[begin:stop], stop + 1)
    match = LINE.fullmatch(line)
    if not match or len(line) > 200:
        return None
    end = behind + int(match[2] or 0)
    return Command(begin, end) if end <= len(source) else None


def commands_of(source):
    """The commands of a session as far as they are whole, `quit` being the last."""
    found, begin = [], 0
    while begin < len(source):
        command = next_command(source, begin)
        if not command:
            break
        found.append(command)
        begin = command.end
        if source[command.begin:command.end].rstrip(b"\n") == b"quit":
            break
    return found


class Replies:
    """What the fronts of a session's input come to, as a program answers them where they are whole commands."""

    def __init__(self, program, source):
        self.source, self.commands = source, commands_of(source)
        self.expected, self.status = calls.answer(program, ["session"], {}, source)
        self.answers = {0: (0, 0)}
        for command in self.commands:
            written, status = calls.answer(program, ["session"], {}, source[:command.end])
            if not self.expected.startswith(written) or status > 1:
                raise ValueError(f"the first {command.end} bytes of a session are answered by {status}, {written!r}")
            self.answers[command.end] = len(written), status

    def behind_fault(self, given):
        """How many bytes have been written where a read fails behind so many bytes: the replies to whole commands, the
        last of which has the end of its line."""
        whole = [command.end for command in self.commands
                 if command.end <= given and (self.source[:command.end].endswith(b"\n") or self.is_put(command))]
        return self.answers[whole[-1] if whole else 0][0]

    def is_put(self, command):
        return self.source.startswith(b"put ", command.begin)

    def at_cut(self, given):
        """What the first bytes of the input come to: how many bytes of the expected output, what else, the status."""
        front = self.source[:given]
        commands = commands_of(front)
        begin = commands[-1].end if commands else 0
        is_over = commands and front[commands[-1].begin:begin].rstrip(b"\n") == b"quit"
        ends = [command.end for command in self.commands if command.begin in {other.begin for other in commands}]
        length, status = self.answers[ends[-1] if ends else 0]
        if is_over or begin == given:
            return length, b"", status
        return length, b"malformed at byte %d\n" % begin, 6
