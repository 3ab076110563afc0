"""What the tools for a run's trace share: reading what `gablecumin wire` prints (docs/FORMATS.md, "Printed text")."""
import collections
import struct

# A datagram that was posted, or that nobody posted (its number is None), with what became of it: `delivered` counts
# its deliveries. `side` posted it, or pretends to have: l for the loader, t for the target.
Datagram = collections.namedtuple("Datagram", "number side from_port to_port payload fate")
Fate = collections.namedtuple("Fate", "delivered lost injected")
OTHER = {"l": "t", "t": "l"}


class NoTrace(Exception):
    """The text is no whole trace of a run."""


def read(lines):
    """The lines of a trace in order: each a Datagram, or a list of words of any other line."""
    given, steps = collections.Counter(), []
    lost = set()
    for line in lines:
        words = line.split()
        try:
            if words[0] == "give":
                given[int(words[1])] += 1
            elif words[0] == "lose":
                lost.add(int(words[1]))
            elif words[0] == "post":
                _, number, side, source, to, payload = words
                steps.append((int(number), side, int(source), int(to), bytes.fromhex(payload)))
                continue
            elif words[0] == "inject":
                _, side, source, to, payload = words
                steps.append((None, OTHER[side], int(source), int(to), bytes.fromhex(payload)))
                continue
            steps.append(words)
        except (IndexError, KeyError, ValueError) as fault:
            raise NoTrace(f"no trace of `gablecumin wire`: {line.strip()[:60]!r}") from fault
    if not steps or steps[-1] != ["end"]:
        last = " ".join(steps[-1])[:200] if steps and isinstance(steps[-1], list) else ""
        raise NoTrace(f"no whole trace of `gablecumin wire`: its last line isn't `end`, but {last!r}")
    return [
        step if isinstance(step, list) else Datagram(*step, Fate(given[step[0]], step[0] in lost, step[0] is None))
        for step in steps
    ]


def fate_of(datagram):
    """What became of a datagram, in words; nothing where it was delivered once, as it should be."""
    if datagram.fate.injected:
        return "injected"
    times = {0: "", 1: "delivered"}.get(datagram.fate.delivered, f"delivered {datagram.fate.delivered} times")
    words = [it for it in ("lost" if datagram.fate.lost else "", times) if it]
    return "" if words == ["delivered"] else ", ".join(words) or "never delivered"


def texts(payload):
    """Zero-ended texts."""
    return [it.decode("ascii", "replace") for it in payload.split(b"\0")[:-1]]


def pairs(words):
    return "".join(f" {name}={value}" for name, value in zip(words[::2], words[1::2]))


def packet(payload):
    """The opcode's name and the rest of what a packet of TFTP says."""
    if len(payload) < 2:
        return "no packet", ""
    (opcode,) = struct.unpack(">H", payload[:2])
    if opcode in (1, 2):
        words = texts(payload[2:]) + ["", ""]
        return ("RRQ", "WRQ")[opcode - 1], words[0] + pairs(words[2:-2])
    if opcode in (3, 4, 5) and len(payload) >= 4:
        (number,) = struct.unpack(">H", payload[2:4])
        return ("DATA", "ACK", "ERROR")[opcode - 3], str(number)
    if opcode == 6:
        return "OACK", pairs(texts(payload[2:])).strip()
    return "no packet", ""
