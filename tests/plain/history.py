"""The records, what they say, and the answer to the next request."""
from dataclasses import dataclass

from . import commands
from .tree import Refused


@dataclass(frozen=True, eq=False)
class Record:
    """A request of a session in a transaction, and its answer. Of a command also the marks that it had in the tree of the
    records before."""

    session: str
    transaction: int
    request: tuple
    answer: str
    marks: list

    @property
    def is_command(self):
        return self.request[0] in commands.WORDS

    @property
    def is_accepted(self):
        return not self.answer.startswith("refused")


class History:
    """An opening tree, and the records over it, the oldest first. `bound` is how many slots there are."""

    def __init__(self, opening, bound):
        self.opening = opening
        self.bound = bound
        self.records = []

    def open_transactions(self):
        """The number of each session's open transaction."""
        numbers = {}
        for record in self.records:
            match record.request[0]:
                case "begin":
                    numbers[record.session] = record.transaction
                case "commit" | "abort":
                    del numbers[record.session]
        return numbers

    def standing(self):
        """The records that stand: the accepted commands and savepoints that nothing has taken off."""
        standing = []
        for record in self.records:
            if record.request[0] in ("undo", "back", "abort"):
                gone = taken_off([it for it in standing if it.transaction == record.transaction], record.request)
                standing = [it for it in standing if it not in gone]
            elif record.is_accepted and (record.is_command or record.request[0] == "save"):
                standing.append(record)
        return standing

    def run(self, records):
        """The opening tree, changed by the commands of these records."""
        tree = self.opening.copy()
        for record in records:
            if record.is_command:
                commands.answer_on(tree, record.request)
        return tree

    def tree(self):
        return self.run(self.standing())

    def own_tree(self, transaction):
        """The opening tree, changed by the committed transactions in the order of their commits, and then by this one."""
        order = [it.transaction for it in self.records if it.request[0] == "commit"] + [transaction]
        own = [it for it in self.standing() if it.transaction in order]
        return self.run(sorted(own, key=lambda it: order.index(it.transaction)))

    def count(self, word):
        return sum(it.request[0] == word for it in self.records)

    def slots(self):
        """A slot for each record, for the end of each open transaction, and for each record that stands of it."""
        numbers = self.open_transactions().values()
        return len(self.records) + len(numbers) + sum(it.transaction in numbers for it in self.standing())

    def check_room(self):
        if self.slots() > self.bound - 2:
            raise Refused("4 full")

    def step(self, session, request):
        """Answers a request, and records it where it is one to be recorded."""
        is_command = request[0] in commands.WORDS
        marks = commands.footprint(self.tree(), request) if is_command else []
        try:
            answer = self.reply(session, request, marks)
        except Refused as refusal:
            answer = f"refused {refusal}"
        heard = is_command and not answer.startswith(("refused 2 ", "refused 4 "))
        if heard or not answer.startswith("refused"):
            transaction = self.open_transactions().get(session, self.count("begin") + 1)
            self.records.append(Record(session, transaction, request, answer, marks))
        return answer

    def reply(self, session, request, marks):
        """The answer to a request; the marks are those of a command."""
        transaction = self.open_transactions().get(session)
        if request == ("begin",):
            if transaction is not None:
                raise Refused("3 alreadyopen")
            self.check_room()
            return f"begun {self.count('begin') + 1}"
        if transaction is None:
            raise Refused("2 notransaction")
        own = [it for it in self.standing() if it.transaction == transaction]
        match request:
            case ["save", name]:
                if savepoint(own, name):
                    raise Refused("17 nametaken")
                self.check_room()
                return "saved"
            case ["back", name]:
                if not savepoint(own, name):
                    raise Refused("16 nosavepoint")
                return f"back {sum(it.is_command for it in taken_off(own, request))}"
            case ["undo"]:
                if not own or not own[-1].is_command:
                    raise Refused("18 nothingtoundo")
                return "done"
            case ["commit"]:
                return f"committed {self.count('commit') + 1}"
            case ["abort"]:
                return f"aborted {transaction}"
        self.check_room()
        self.check_clashes(transaction, marks)
        return commands.answer_on(self.own_tree(transaction), request)

    def check_clashes(self, transaction, marks):
        """No other open transaction has a command that stands and whose marks clash with these."""
        others = set(self.open_transactions().values()) - {transaction}
        holders = [it.transaction for it in self.standing() if it.transaction in others and commands.clash(it.marks, marks)]
        if holders:
            raise Refused(f"5 busy {min(holders)}")


def taken_off(own, request):
    """What going back takes off of the records that stand of its transaction."""
    match request:
        case ["undo"]:
            return own[-1:]
        case ["back", name]:
            return own[own.index(savepoint(own, name)):]
    return own


def savepoint(records, name):
    """The record of these that set a savepoint of this name."""
    return next((it for it in records if it.request == ("save", name)), None)
