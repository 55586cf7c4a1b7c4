"""A refusal of the library as an exception."""
from . import _raw


class Error(Exception):
    """A call that the library refused: which call, the refusal's number and place, and what they say in words.

    Whatever was handed to the call is then as it came, with the exceptions that the functions name.

    call     the library's call, as include/tyngyrlak.h names it
    number   the refusal's number, 1 to 13
    place    for 2 the number of atoms, for 3 a 1 where a drifted coordinate is meant, for 4 the row (of a sheet the atom), for 8 the full count, for 9 and
             10 a sheet's line, for 11 the atom (0xffffffff: the header); else 0
    stopped  whether a step stopped after its drift: `verlet_finish` then takes it to its end
    words    what the number says
    iteration  of `fire`: the iteration that was refused, 0 before the first; of other calls 0"""

    def __init__(self, call, number, place, stopped=False, iteration=0):
        super().__init__(call, number, place, stopped, iteration)
        self.call, self.number, self.place, self.stopped, self.iteration = call, number, place, stopped, iteration

    @property
    def words(self):
        return next((w for n, p, w in _raw.WORDS if n == self.number and p in (None, self.place)), "the library refused")

    def __str__(self):
        more = " (in iteration %d)" % self.iteration if self.iteration else ""
        more += " (the step stopped after its drift)" if self.stopped else ""
        return "%s: refusal %d, place %d: %s%s" % (self.call, self.number, self.place, self.words, more)


def answered(call, answer):
    """The answer of a call; an Error where it is a refusal."""
    done = answer.done
    if done.number:
        raise Error(call.name, done.number, done.place, bool(getattr(answer, "stopped", 0)), getattr(answer, "iteration", 0))
    return answer
