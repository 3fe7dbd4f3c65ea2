"""A vehicle's part of the protocol: its messages, the answers that count, the reservation that it may use.

It keeps the drivers' rules and a log by which that can be checked (`rules.py`).
"""

import math
from dataclasses import dataclass, field


@dataclass
class Driver:
    """Asks for one vehicle; `listener` is told each answer that counts: `answered(step, kind, reply)`.

    Its number, and the greatest `seq` that was used with it, are lent to it before its first message.
    """

    number: int
    mail: object
    listener: object
    resend: int
    seq: int = 0
    grant: object = None
    named: int = None
    is_waiting: bool = False
    has_given_up: bool = False
    is_halted: bool = False
    has_entered: bool = False
    is_through: bool = False
    messages: int = 0
    log: list = field(default_factory=list)
    replies: list = field(default_factory=list)
    _kind: str = ""
    _text: str = ""
    _sent: int = 0
    _until: float = math.inf

    @property
    def may_ask(self):
        """True where a new request may be sent: nothing is held, nothing is waited for, nothing is over."""
        is_free = not self.is_waiting or self.has_given_up
        return self.grant is None and self.named is None and is_free and not self.is_halted

    def request(self, step, words, until=math.inf):
        """Asks for a crossing; `words` are those behind the number. It isn't sent again after the step `until`."""
        self._new(step, "request", words, until)

    def change(self, step, words, until=math.inf):
        """Asks for another crossing in place of the one held, which isn't used until the answer is there."""
        self.named = self.grant.reservation
        self.grant = None
        self._new(step, "change", f"{self.named} {words}", until)

    def cancel(self, step, reservation=None):
        """Gives back the reservation that is held, or the one that is named."""
        given = self.grant.reservation if reservation is None else reservation
        self.grant = None
        self.named = None
        self._new(step, "cancel", str(given))

    def enter(self, step):
        """Notes that the front passed the line; true where the reservation allows it."""
        grant = self.grant
        allowed = grant is not None and not self.is_halted and (
            grant.start - grant.early <= step <= grant.start + grant.late)
        self.log.append(("entered", step, grant.reservation if grant else None))
        self.has_entered = True
        return allowed

    def done(self, step):
        """Tells that the vehicle is through."""
        reservation = self.grant.reservation
        self.grant = None
        self._new(step, "done", str(reservation))

    def again(self, step):
        """Where an answer is overdue, sends the message again; one that came too late now is given up.

        After that another request may be sent, since nothing is held as far as this driver knows. A change that is
        given up is followed by a cancel of the reservation that it named.
        """
        if not self.is_waiting or self.has_given_up or step - self._sent < self.resend:
            return
        if step <= self._until:
            self._post(step)
        elif self.named is not None:
            self.cancel(step, self.named)
        else:
            self.has_given_up = True

    def _new(self, step, kind, words, until=math.inf):
        self.seq += 1
        self._until = until
        self.has_given_up = False
        self._kind = kind
        self._text = f"{kind} {self.seq} {words}"
        self.is_waiting = True
        self._post(step)

    def _post(self, step):
        self._sent = step
        self.messages += 1
        self.log.append(("sent", step, self.seq, self._text))
        self.mail.post(step, self, self.seq, self._text)

    def served(self, reply):
        """Notes an answer as the manager gave it, for the counts by reason."""
        self.replies.append(reply)

    def got(self, step, seq, reply):
        """Takes an answer from the link; only the first one to the latest message counts."""
        self.log.append(("got", step, seq, reply))
        if reply.kind == "emergency-stop":
            self.is_halted = True
        if seq != self.seq or not self.is_waiting:
            return
        self.is_waiting = False
        self.named = None
        if reply.kind == "confirm":
            self.grant = reply
        self.is_through = self._kind == "done" and reply.kind == "ack"
        self.listener.answered(step, self._kind, reply)
