"""A replay of a schedule over a world, as plain as can be: from an opening tree and the records."""
from dataclasses import dataclass

from .history import History
from .texts import Malformed, lines, read_label, read_request, read_world, write_world

MOST_SESSIONS = 4_096


@dataclass(frozen=True)
class Answered:
    """The number of a line, what it asked for, and the answer. The aborts at the end stand behind the last line; a line in
    no grammar asks for nothing."""

    line: int
    request: tuple
    answer: str


def replay(world, schedule, bound):
    """The answers to a schedule over a world, both in bytes, and the text of the tree that it leaves."""
    return replay_on(read_world(world), schedule, bound)


def replay_on(opening, schedule, bound):
    """The same over an opening tree."""
    history = History(opening, bound)
    answers = [*answers_to(history, schedule)]
    behind = schedule.count(b"\n") + 1
    for session, _ in sorted(history.open_transactions().items(), key=lambda it: it[1]):
        answers.append(Answered(behind, ("abort",), history.step(session, ("abort",))))
    return answers, write_world(history.tree())


def answers_to(history, schedule):
    sessions = set()
    for number, words in lines(schedule):
        try:
            session, request = read_line(words, sessions)
        except Malformed:
            yield Answered(number, (), "refused 1 syntax")
        else:
            yield Answered(number, request, history.step(session, request))


def read_line(words, sessions):
    """The session and the request of a line. The session is one of those that were named, or the next one."""
    if not words:
        raise Malformed
    session, request = read_label(words[0]), read_request(words[1:])
    if len(sessions | {session}) > MOST_SESSIONS:
        raise Malformed
    sessions.add(session)
    return session, request
