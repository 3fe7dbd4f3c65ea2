"""The drivers' rules, as questions over a driver's whole log. They are asked after a run, of every vehicle.

An item of a log is ("sent", step, seq, text), ("got", step, seq, reply) or ("entered", step, reservation).
"""


def broken_rule(log):
    """The first rule that a log breaks, in words, or None."""
    for place in range(len(log)):
        fault = _fault(log[:place], log[place])
        if fault:
            return fault
    return None


def _fault(before, item):
    """The rule that an item breaks behind those before it."""
    if before and item[1] < before[-1][1]:
        return "the steps fall"
    if item[0] == "sent":
        return _fault_of_sent(before, item)
    if item[0] == "entered":
        return _fault_of_entered(before, item)
    return None


def _fault_of_sent(before, item):
    _, step, seq, text = item
    sent = [(other[2], other[3]) for other in before if other[0] == "sent"]
    if (seq, text) in sent:
        return None
    if any(other >= seq for other, _ in sent):
        return "a new message has no greater number"
    words = text.split(" ")
    entered = [other for other in before if other[0] == "entered"]
    if entered:
        grant = granted(before, entered[0][2])
        if words[0] != "done":
            return f"a {words[0]} is sent inside"
        if grant is None or step <= entered[0][1] + grant.last - grant.start:
            return "done is sent before the crossing is over"
    held = active(before)
    if words[0] == "change" and int(words[2]) not in (held, suspended(before)):
        return "a change names a reservation that isn't held"
    if words[0] == "request" and (held is not None or suspended(before) is not None):
        return "a request is sent while a reservation is held"
    return None


def _fault_of_entered(before, item):
    _, step, reservation = item
    if any(other[0] == "entered" for other in before):
        return "it enters twice"
    if any(other[0] == "got" and other[3].kind == "emergency-stop" for other in before):
        return "it enters after an emergency stop"
    if reservation is None or active(before) != reservation:
        return "it enters without a reservation"
    grant = granted(before, reservation)
    if not grant.start - grant.early <= step <= grant.start + grant.late:
        return "it enters outside its window"
    return None


def counting(log):
    """The replies that count, each with the place of its item and the message that it answers."""
    latest, text, waits, found = 0, "", False, []
    for place, item in enumerate(log):
        if item[0] == "sent" and item[2] > latest:
            latest, text, waits = item[2], item[3], True
        elif item[0] == "got" and item[2] == latest and waits:
            waits = False
            found.append((place, text, item[3]))
    return found


def active(log):
    """The reservation on which the driver is active, or None."""
    answers = {place: (text, reply) for place, text, reply in counting(log)}
    held, seen = None, 0
    for place, item in enumerate(log):
        if item[0] == "sent" and item[2] > seen:
            seen = item[2]
            if not item[3].startswith("request"):
                held = None
        if place in answers:
            text, reply = answers[place]
            if reply.kind == "confirm":
                held = reply.reservation
            elif reply.kind == "reject" and text.startswith("change") and str(reply.held) == text.split(" ")[2]:
                held = reply.held
    return held


def suspended(log):
    """The reservation that the latest message, an unanswered change, names, or None."""
    sent = [item for item in log if item[0] == "sent"]
    if not sent:
        return None
    latest = max(sent, key=lambda item: item[2])
    answered = any(text == latest[3] for _, text, _ in counting(log))
    if latest[3].startswith("change") and not answered:
        return int(latest[3].split(" ")[2])
    return None


def granted(log, reservation):
    """The last counting confirm of a reservation, or None."""
    found = [reply for _, _, reply in counting(log) if reply.kind == "confirm" and reply.reservation == reservation]
    return found[-1] if found else None
