"""What a run may write, and with which status it may end, where something was refused."""

MEMORY, LIMIT, READ = b"fault memory", b"fault limit", b"fault read"


class Session:
    """An input of the program, and what it writes where nothing is refused."""

    is_small = True
    # The arguments of the program.
    words = ()

    def __init__(self, name, stdin, output):
        self.name, self.stdin, self.output = name, stdin, output
        self.lines = output.splitlines()
        # How many threads are made where nothing is refused.
        self.threads = 0

    def succeeds(self, run):
        if run.status != 0 or run.output != self.output:
            return "the run does not succeed"

    def runs_out(self, run):
        """It succeeds, or its last line says that memory, or a thread, was not there."""
        if run.status == 0:
            return self.succeeds(run)
        if run.status == 4:
            fault = MEMORY
        elif run.status == 3 and self.lacks_a_thread(run):
            fault = LIMIT
        else:
            return "a status that no refusal has"
        lines = run.output.splitlines()
        if not run.output.endswith(b"\n") or not lines or lines[-1] != fault:
            return f"the last line is not {fault.decode()}"
        if not self.may_precede(lines[:-1]):
            return "lines before the fault that the input does not give"

    def lacks_a_thread(self, run):
        return run.counts["threads"] - run.counts["threads_not_made"] < self.threads

    def fails_to_read(self, run):
        if run.status != 2 or run.output != READ + b"\n":
            return "the run does not end in fault read"

    def fails_to_write(self, run):
        if run.status != 1 or not self.output.startswith(run.output):
            return "the run does not end with status 1 after a part of its output"

    def is_interrupted(self, run):
        """A read that a signal interrupts is made again, or has failed."""
        if self.succeeds(run) and self.fails_to_read(run):
            return "the run neither succeeds nor ends in fault read"


class Once(Session):
    def may_precede(self, lines):
        return not lines


class Whole(Once):
    """What is written whole or not at all: a fault stands alone, or on standard error alone."""

    def runs_out(self, run):
        if run.status == 0:
            return self.succeeds(run)
        if run.status != 4:
            return "a status that no refusal has"
        if run.output not in (b"", MEMORY + b"\n"):
            return "something is written before a fault"

    def fails_to_read(self, run):
        if run.status != 2 or run.output:
            return "the run does not end with status 2 and without output"


class Steps(Session):
    def may_precede(self, lines):
        return self.lines[:len(lines)] == lines


class Areas(Steps):
    """Areas in words, which are written as they are read."""

    def fails_to_read(self, run):
        lines = run.output.splitlines()
        if run.status != 2 or lines[-1:] != [READ] or not self.may_precede(lines[:-1]):
            return "the run does not end in fault read behind its first lines"


class LongSteps(Steps):
    is_small = False


class Threads(Session):
    def may_precede(self, lines):
        """Of each agent a prefix of its lines, then at most one that says that it met a limit."""
        for agent in (b"1", b"2"):
            own = [line for line in lines if line.startswith(agent)]
            wanted = [line for line in self.lines if line.startswith(agent)]
            if lines[:len(own)] != own:
                return False
            lines = lines[len(own):]
            if own and own[-1] in (agent + b" limit", agent + b" until limit"):
                own.pop()
            if wanted[:len(own)] != own:
                return False
        return not lines


def over_both(kind, name, stdin, output):
    """The same input over shared words and over rings."""
    return [kind(f"{name} over words", stdin, output),
            kind(f"{name} over rings", stdin.replace(b" words\n", b" rings\n", 1), output)]


def many_commands(board):
    """1,025 commands of one agent: the tokens wrap after 1,024."""
    stdin = b"steps words\n" + board + b"do 1 0x10 0x0\n" * 1025
    headers = (token % 1024 << 18 | 0x4000 for token in range(1025))
    replies = (f"1 reply 0x{header:08x} 0x00000000 0x00020000\n" for header in headers)
    return stdin, "".join(replies).encode() + b"trace 1025\n"


def sessions(here, examples):
    def stored(folder, name):
        return (folder / f"{name}.in").read_bytes(), (folder / f"{name}.out").read_bytes()

    flood, flood_output = stored(here, "flood")
    board = flood[flood.index(b"board "):flood.index(b"end\n")] + b"end\n"
    return [Once("one area", *stored(examples, "version")),
            *over_both(Steps, "a flood of notifications", flood, flood_output),
            *over_both(LongSteps, "1,025 commands", *many_commands(board)),
            *over_both(Threads, "two agents in threads", *stored(here, "two_agents"))]


def decoded(crate):
    """The first areas of the stored run of scmi: those before its first blank line."""
    stdin, _, _ = (crate / "stdin").read_bytes().partition(b"\n\n")
    stdin += b"\n"
    lines = (crate / "stdout").read_bytes().splitlines(keepends=True)
    numbers = [int(line.split()[0]) if line[:1].isdigit() else 0 for line in lines]
    end = next(at for at, number in enumerate(numbers) if number > stdin.count(b"\n"))
    session = Areas("areas in words", stdin, b"".join(lines[:end]))
    session.words = ("decode",)
    return session


def drawn(charts, examples):
    """A session that is drawn: nothing is written before the picture stands."""
    stdin = (examples / "two_agents.in").read_bytes()
    session = Whole("a chart", stdin, (charts / "two_agents.svg").read_bytes())
    session.words = ("chart",)
    return session


def pictured(charts, sessions):
    """A record that is drawn: nothing is written before the picture stands."""
    stdin = (sessions / "check/linux.ftrace").read_bytes()
    session = Whole("a picture of a record", stdin, (charts / "record.mmd").read_bytes())
    session.words = ("chart", "--mermaid", str(sessions / "boards/reference"), "-")
    return session


def tabled(examples):
    """A board whose tables are written: nothing is written before the board is read."""
    session = Whole("the tables of a board", (examples / "phone.board").read_bytes(),
                    (examples / "c/phone_board.c").read_bytes())
    session.words = ("table",)
    return session


class Probe:
    """The calls that are made one by one. A refused call is followed by the same call again."""

    # The calls that memory may be refused to.
    CALLS = (b"make", b"board", b"check", b"command", b"advance", b"sent", b"connect", b"serve")

    def __init__(self, output):
        self.output = output
        self.lines = output.splitlines()

    def succeeds(self, run):
        if run.status != 0 or run.output != self.output:
            return "the calls do not answer as they should"

    def is_repeated(self, run):
        lines = run.output.splitlines()
        refused = [at for at, line in enumerate(lines) if line.endswith(b" memory")]
        if not refused:
            return self.succeeds(run)
        if run.status != 0 or len(refused) > 1:
            return "more than one call is refused"
        at = refused[0]
        if lines[at] == b"serve memory" and lines[at + 1] == b"close withdrawn":
            # What was withdrawn is not in the history, which is the last that is written.
            served = lines[:at] + [b"serve done", *self.lines[-2:]]
            if served != self.lines or lines[at + 2:] != [b"trace 0"]:
                return "a withdrawn command leaves something"
            return None
        if lines[at].split()[0] in (b"command", b"advance", b"sent"):
            # The history and what is next to be posted stay.
            if lines[at + 1:at + 3] != lines[at - 2:at]:
                return "a refused call changed something"
            del lines[at + 1:at + 3]
        del lines[at]
        if lines != self.lines:
            return "a call that is made again does not answer as it should"

    def unmet(self, runs):
        """Each call is refused in some run, and a command is withdrawn in one."""
        met = {line for run in runs for line in run.output.splitlines()}
        wanted = {call + b" memory" for call in self.CALLS} | {b"close withdrawn"}
        if not wanted <= met:
            return f"no run has {sorted(wanted - met)}"
