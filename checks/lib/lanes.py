"""Calls in several lanes: a script with `wait` lines, what its answers and requests have to be, and how many calls are under way at once."""
import smb

LANES = 16
# so many seconds the replies are held back, so that what may be asked at once is asked by then
PAUSE = 0.03
EVERY_BIT = 16 * b"\xff"


def script(paths):
    """The lines that ask for these paths: in groups of 24 with a `wait` behind, in which each lane has one or two; and some more."""
    lines = ["wait"]
    for number, path in enumerate(paths):
        lines.append(f"{7 * number % LANES} stat {path}")
        if number % 24 == 23:
            lines += ["# all that stands above is answered before what stands below", "wait"]
    return lines + ["wait", "wait", *(3 * ["5 stat /one"]), "4 stat /links", "5 stat /", "wait", "15 stat /one"]


def is_chain(requests):
    """Whether these are one frame: the first alone, the others related to it and with the file id that means its file."""
    shape = [(smb.command(part), smb.following(part) != 0, smb.is_related(part)) for part in requests]
    if shape != [(smb.CREATE, True, False), (smb.QUERY, True, True), (smb.CLOSE, False, True)]:
        return False
    return requests[1][88:104] == requests[2][72:88] == EVERY_BIT


def disorder(lines, numbers):
    """The numbers of the answers that came too early or too late: those of a lane come in the order of its lines, and all those before a
    `wait` come before those behind it."""
    last, behind = {}, 0
    for number in numbers:
        lane, waits = lines[number - 1].split()[0], lines[:number].count("wait")
        if waits < behind or number < last.get(lane, 0):
            yield number
        last[lane], behind = number, max(waits, behind)


def frames_of(log):
    """The messages of each frame of a relay's log, in order, and whether they were sent."""
    held = {True: b"", False: b""}
    for is_sent, data in log:
        held[is_sent] += data
        for frame in smb.frames(held[is_sent]):
            held[is_sent] = held[is_sent][4 + len(frame):]
            yield is_sent, list(smb.parts(frame))


class Flights:
    """What a relay saw of the calls of these lines. Each is one frame, and they begin in the order of the lines: `early` are the lines of
    those that began while one of the same lane, or one above a `wait`, was not yet answered. `most` is how many were under way at once."""

    def __init__(self, log, lines):
        self.early, self.most, flying = [], 0, {}
        calls = iter([(number, line.split()[0], lines[:number].count("wait")) for number, line in enumerate(lines, 1) if line[0].isdigit()])
        for is_sent, parts in frames_of(log):
            if not is_sent:
                for part in parts:
                    if smb.status(part) != smb.PENDING:
                        flying.pop(smb.message_id(part), None)
            elif smb.command(parts[0]) == smb.CREATE:
                number, lane, waits = next(calls, (0, "", 0))
                if any(each[1] == lane or each[2] != waits for each in flying.values()):
                    self.early.append(number)
                flying.update({smb.message_id(part): (number, lane, waits) for part in parts})
                self.most = max(self.most, len(set(flying.values())))


def faults(done, lines, names, answers):
    """What is wrong with a run over these lines, where each path has this name in a CREATE and this answer."""
    asked = {number: line.split()[2] for number, line in enumerate(lines, 1) if line[0].isdigit()}
    found = done.printed.splitlines()
    if (done.status, done.complaint) != (0, "") or sorted(found) != sorted(f"{number} {answers[path]}" for number, path in asked.items()):
        yield f"status {done.status}, {done.complaint!r}, {found}"
        return
    for number in disorder(lines, [int(text.split()[0]) for text in found]):
        yield f"the answer to line {number} came too early, or too late"
    between = done.requests[len(smb.MOUNT):-len(smb.BYE)]
    if not all(is_chain(between[at:at + 3]) for at in range(0, len(between), 3)):
        yield "a stat is no frame of its three requests"
    created = [smb.created_name(part) for part in between if smb.command(part) == smb.CREATE]
    if created != [names[path].replace("/", "\\") for path in asked.values()]:
        yield f"the names {created} are opened"
    flights = Flights(done.log, lines)
    for number in flights.early:
        yield f"the call of line {number} began too early"
    if flights.most != LANES:
        yield f"at most {flights.most} calls were under way at once"
