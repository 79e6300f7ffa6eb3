"""bands.py INPUT PICTURE: the session of one thread that the picture of agents in threads shows, by the texts of its
bands, on the board of the input. Fails if the commands of an agent are not the calls of its script, in order."""

import sys
import xml.etree.ElementTree

STATE_GET = [0x11, 0x5]


def bands(picture):
    """The texts of the bands, in order."""
    texts = xml.etree.ElementTree.parse(picture).iter("{http://www.w3.org/2000/svg}text")
    return [text.text for text in texts if text.get("class") == "mono"]


def numbers(words):
    return [int(word, 0) for word in words]


def wanted(script):
    """The commands of each agent: a list of words for a call, and for the polls of an `until`, which may be many,
    the word of its domain."""
    calls, agent = {}, None
    for line in script:
        word, *rest = line.split()
        if word == "script":
            agent = int(rest[0])
            calls[agent] = []
        elif word == "call":
            calls[agent].append(numbers(rest))
        elif word == "until":
            calls[agent].append(int(rest[0], 0))
    return calls


def fits(commands, calls):
    """Whether commands are those of these calls."""
    for call in calls:
        if isinstance(call, int):
            poll = [*STATE_GET, call]
            if commands[:1] != [poll]:
                return False
            while commands[:1] == [poll]:
                commands = commands[1:]
        elif commands[:1] != [call]:
            return False
        else:
            commands = commands[1:]
    return not commands


def main(script, picture):
    with open(script) as lines:
        lines = [line for line in lines.read().split("\n") if line and not line.startswith("#")]
    end = lines.index("end") + 1
    steps = bands(picture)
    done = [line.split() for line in steps if line.startswith("do ")]
    for agent, calls in wanted(lines[end:]).items():
        commands = [numbers(words[2:]) for words in done if words[1] == str(agent)]
        if not fits(commands, calls):
            print(f"{script}: agent {agent} has the calls {calls}, and the picture {commands}", file=sys.stderr)
            return False
    print("\n".join(["steps words", *lines[1:end], *steps]))
    return True


sys.exit(0 if main(*sys.argv[1:]) else 1)
