#!/usr/bin/env python3
"""Keeps accounts by bursts of `snapper run`, each request exactly once: whatever is killed, the program, the service or both.

A request has a key, which its client chooses and sends again until it has the answer. The folder has, beside the logs:

  answers.jsonl   a line for each request that was done: its key and its value
  pending.json    the burst that is under way: the number of its first transaction, and its requests

1. Before a burst is run, `recover` tells the number T of the next transaction, and pending.json is made durable with it.
2. The text is the head, and one PACT a request. With one coordinator the Nth of them gets the number T + N, and none of them fails, so
   what commits is the first ones of the text.
3. If the call ended with 0, the replies have the values. If not, `recover` is asked: a line `kept B.0.M VALUE` with M = T + N is the
   reply that was lost. Requests without such a line changed nothing, and are run again.
4. The answers are made durable, and then pending.json goes. A service that is started anew begins with 3.

Usage: accounts.py FOLDER PROGRAM
PROGRAM is the program itself (crates/snapper/out/snapper, or a copy), not the script. Requests are lines of standard input, answers
lines of standard output, as in
  k1 deposit 0 100        k1 100
  k2 transfer 0 1 30      k2 70
  k3 balance 1            k3 30
A line that is no request is answered `KEY refused`.
"""
import fcntl, json, os, select, subprocess, sys

ACCOUNTS, MOST, WAIT = 256, 256, 0.02  # accounts of the folder, requests of a burst, seconds for which a burst is collected
COMPACT = 50_000  # requests after which the logs are compacted. Their files do not get shorter, so their length does not tell
TRIES = 5  # calls in a row that end badly, before the service gives up
KINDS = {"deposit": ("account", "amount"), "transfer": ("account", "account", "amount"), "balance": ("account",)}
HEAD = os.path.join(os.path.dirname(os.path.abspath(__file__)), "head.txt")


class Trouble(Exception):
    """The program ended with a status that a further call does not mend."""


def request(words):
    """The request of these words, as a list; None where they are none. Numbers alone get into a text."""
    fields = KINDS.get(words[0]) if words else None
    if fields is None or len(words) != 1 + len(fields):
        return None
    for field, word in zip(fields, words[1:]):
        if not (word.isascii() and word.isdigit() and word == str(int(word))) or int(word) >= (ACCOUNTS if field == "account" else 2**63):
            return None
    return [words[0], *map(int, words[1:])]


def line(request):
    """The transaction of a request. It declares each actor that it may call, in ascending order."""
    kind, account, *arguments = request
    actors = sorted({account, arguments[0]} if kind == "transfer" else {account})
    return " ".join(["pact", str(account), kind, *map(str, arguments), "uses", *(f"{actor}:1" for actor in actors)])


def durable(path, text):
    """Puts the text in place of the file's, whole or not at all."""
    with open(path + ".new", "w") as file:
        file.write(text)
        file.flush()
        os.fsync(file.fileno())
    os.replace(path + ".new", path)
    sync_folder(path)


def sync_folder(path):
    folder = os.open(os.path.dirname(path), os.O_RDONLY)
    try:
        os.fsync(folder)
    finally:
        os.close(folder)


class Accounts:
    def __init__(self, folder, program):
        self.folder, self.program = os.path.abspath(folder), os.path.abspath(program)
        os.makedirs(self.folder, exist_ok=True)
        with open(HEAD) as file:
            self.head = file.read()
        # One service at a time. Calls of the program inherit the lock, so it also waits for a call that outlives a service that was killed.
        self.lock = os.open(self.folder, os.O_RDONLY)
        fcntl.flock(self.lock, fcntl.LOCK_EX)
        self.pending_file, self.answers_file = (os.path.join(self.folder, name) for name in ("pending.json", "answers.jsonl"))
        self.done = {}
        self.read_answers()
        self.next, kept = self.kept()
        self.since = len(kept)  # how many are kept since the last checkpoint
        sync_folder(self.answers_file)  # a call syncs what is in its files, not the names of new ones
        if os.path.exists(self.pending_file):
            with open(self.pending_file) as file:
                pending = json.load(file)
            self.settle(pending["first"], [tuple(pair) for pair in pending["requests"]])

    def read_answers(self):
        """Reads the answers, and cuts off a line that a crash left unfinished."""
        with open(self.answers_file, "a+b") as file:
            file.seek(0)
            text = file.read()
            whole = text.rfind(b"\n") + 1
            file.truncate(whole)
        self.done.update(json.loads(one) for one in text[:whole].decode().splitlines())

    def call(self, *words, text=""):
        """A call of the program in the folder: its exit status, what it printed, and why it did not end well."""
        ran = subprocess.run([self.program, *words], cwd=self.folder, input=text, capture_output=True, text=True, pass_fds=[self.lock])
        return ran.returncode, ran.stdout.splitlines(), ran.stderr.strip() or f"{words[0]} was ended by signal {-ran.returncode}"

    def kept(self):
        """The number of the next transaction, and the values that are kept, by the numbers of their PACTs."""
        for _ in range(TRIES):
            status, lines, why = self.call("recover")
            if status == 3 and why.endswith(": NoGenesis"):
                return 1, {}  # nothing was run in this folder yet
            if status == 0:
                break
        else:
            raise Trouble(why)
        kept = {}
        for one in lines:
            words = one.split()
            if words[0] == "kept":
                _, side, number = map(int, words[1].split("."))
                if side == 0:
                    kept[number] = int(words[2])
        return int(lines[-1].split()[-3]), kept  # recovered batches X acts Y next T B C

    def do(self, requests):
        """The values of the requests, which are pairs of a key and a request. One whose key was done before is not done again."""
        new = {}
        for key, what in requests:
            if key not in self.done:
                new.setdefault(key, what)
        todo = list(new.items())
        for at in range(0, len(todo), MOST):
            self.run(todo[at : at + MOST])
        return {key: self.done[key] for key, _ in requests}

    def run(self, todo):
        """Runs a burst, again and again where calls do not end well, until all of it is answered."""
        for _ in range(TRIES):
            first = self.next
            durable(self.pending_file, json.dumps({"first": first, "requests": todo}))
            status, lines, why = self.call("run", text=self.head + "".join(line(what) + "\n" for _, what in todo))
            if status in (1, 2, 3):
                raise Trouble(why)  # nothing was run, and nothing will be until somebody looks
            replies = {}
            for one in lines:
                words = one.split()
                if len(words) == 5 and words[0] == "tx" and words[2] == "committed":
                    replies[int(words[1])] = int(words[4])
            if status == 0:
                self.next = first + len(todo)
                return self.answer([(key, replies[at]) for at, (key, _) in enumerate(todo)], True)
            todo = self.kept_of(first, todo)
            if not todo:
                return
        raise Trouble(why)

    def settle(self, first, todo):
        """After a service that did not end well: what committed of its burst is answered, and the rest is run."""
        todo = self.kept_of(first, todo)
        if todo:
            self.run(todo)

    def kept_of(self, first, todo):
        """Answers those of a burst that committed, which are the first ones of it, and gives the others."""
        self.next, kept = self.kept()
        values = [kept[number] for number in range(first, first + len(todo)) if number in kept]
        self.answer([(key, value) for (key, _), value in zip(todo, values)], len(values) == len(todo))
        return todo[len(values) :]

    def answer(self, values, whole):
        """Makes the answers durable. Behind the last of a burst nothing is pending any more."""
        with open(self.answers_file, "a") as file:
            file.writelines(json.dumps(pair) + "\n" for pair in values)
            file.flush()
            os.fsync(file.fileno())
        self.done.update(values)
        self.since += len(values)
        if whole:
            os.remove(self.pending_file)
            sync_folder(self.pending_file)
            # nobody will ask for what is kept so far
            if self.since >= COMPACT and self.call("compact")[0] == 0:
                self.since = 0


def bursts(source):
    """The lines of a source, in bursts: what comes within a moment behind the first line."""
    rest = b""
    while True:
        piece = os.read(source, 65536)
        if not piece:
            return
        rest += piece
        while rest.count(b"\n") < MOST and select.select([source], [], [], WAIT)[0]:
            piece = os.read(source, 65536)
            if not piece:
                break
            rest += piece
        *whole, rest = rest.split(b"\n")
        if whole:
            yield [one.decode("utf8", "replace").split() for one in whole]


def main():
    accounts = Accounts(*sys.argv[1:])
    for burst in bursts(0):
        asked = [(words[0], request(words[1:])) for words in burst if words]
        values = accounts.do([(key, what) for key, what in asked if what])
        for key, what in asked:
            print(key, values[key] if what else "refused")
        sys.stdout.flush()


if __name__ == "__main__":
    if len(sys.argv) != 3:
        sys.exit(__doc__)
    try:
        main()
    except Trouble as trouble:
        sys.exit(f"accounts: {trouble}")
