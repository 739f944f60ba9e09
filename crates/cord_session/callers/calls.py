#!/usr/bin/env python3
"""calls.py: the calls of calls.cpp by the module cordkit. What the module cannot ask, as bytes that changes do not take, is not given to it."""

import sys

import cordkit



def from_hex(word):
    return b"" if word == "-" else bytes.fromhex(word)


def spelled(data):
    return data.hex() or "-"


def run_told(run):
    return f"{run.kind} {run.source} {run.function} {run.start} {run.len} {spelled(run.pattern)}"


class Callers:
    def __init__(self):
        self.session, self.store, self.made = cordkit.Session(), cordkit.Store(), []
        self.session.close()
        self.store.close()

    def text(self, owner, word):
        """The text of a revision or a rope, which need not be there."""
        if owner == "s":
            return cordkit.Text(self.session, cordkit._number(int(word), 32))
        return self.made[int(word)] if int(word) < len(self.made) else cordkit.Rope(self.store, cordkit._number(-1, 64))

    def common(self, owner, call, words):
        """What a call that a session and a store have in common tells, or nothing."""
        texts = self.session if owner == "s" else self.store
        if call == "source":
            return texts.add_source(from_hex(words[0]))
        if call == "length":
            return texts.add_source(int(words[0]))
        if call not in ("len", "read", "text", "locate", "find", "chr", "rchr", "compare"):
            return None
        return self.asked(owner, call, self.text(owner, words[0]), words[1:])

    def asked(self, owner, call, x, words):
        if call == "len":
            return len(x)
        if call == "read":
            return spelled(next(x.pieces(int(words[0]), int(words[1])), b""))
        if call == "text":
            return spelled(bytes(x))
        if call == "locate":
            return run_told(x.locate(int(words[0])))
        if call == "compare":
            return x.compare(self.text(owner, words[1]), int(words[0]), int(words[2]), int(words[3]))
        search, wanted = {"find": (x.find, from_hex), "chr": (x.find_byte, int), "rchr": (x.find_last_byte, int)}[call]
        place = search(wanted(words[1]), int(words[0]))
        return "none" if place < 0 else place

    def session_call(self, call, words):
        session = self.session
        if call == "save":
            session.save(words[0])
            return len(cordkit.read(words[0]))
        if call == "sizes":
            return f"{session.sizes.revisions} {session.sizes.sources} {session.sizes.pool}"
        if call == "many":
            taken, places, changes = from_hex(words[1]), list(map(int, words[3:])), []
            for p, m, n in zip(places[::3], places[1::3], places[2::3]):
                changes.append((p, m, taken[:n]))
                taken = taken[n:]
            return session.many(int(words[0]), changes)
        text_at = {"insert": 2, "replace": 3}.get(call)
        return getattr(session, call)(*[from_hex(word) if k == text_at else int(word) for k, word in enumerate(words)])

    def resume(self, words):
        sources = list(map(from_hex, words[1:]))
        try:
            self.session = cordkit.Session.resume(words[0], sources)
        except cordkit.Refused as refused:
            return f"{int(refused.code)} {refused.verdict.code} 0 0"
        counts = cordkit.check(cordkit.read(words[0]), sources)
        return f"0 0 {counts.revisions} {counts.rows}"

    def store_call(self, call, words):
        store = self.store
        if call == "depth":
            return self.text("t", words[0]).depth
        if call == "fetch":
            return self.text("t", words[0]).fetch(int(words[1]))
        if call == "bytes":
            self.made.append(store.rope(from_hex(words[0])))
        elif call == "part":
            self.made.append(store.source(*map(int, words)))
        elif call == "function":
            self.made.append(store.function(int(words[0]), from_hex(words[1]), int(words[2])))
        else:
            self.made.append(self.of_rope(call, self.text("t", words[0]), words[1:]))
        return len(self.made) - 1

    def of_rope(self, call, x, words):
        if call == "cat":
            return x + self.text("t", words[0])
        if call == "append":
            return x + from_hex(words[0])
        if call == "substr":
            return self.store.cut(x, int(words[0]), int(words[1]))
        return x.balanced()

    def answer(self, owner, call, words):
        if call == "begin" and owner == "s":
            self.session = cordkit.Session()
        elif call == "begin":
            self.store = cordkit.Store()
        elif call == "end":
            (self.session if owner == "s" else self.store).close()
        else:
            told = self.common(owner, call, words)
            if told is None:
                told = self.session_call(call, words) if owner == "s" else self.store_call(call, words)
            return f"0 {told}"
        return "0"


def main():
    callers = Callers()
    for line in sys.stdin:
        owner, call, *words = line.split()
        try:
            print(callers.resume(words) if call == "resume" else callers.answer(owner, call, words))
        except cordkit.Error as error:
            print(int(error.code))


if __name__ == "__main__":
    main()
