#!/usr/bin/env python3
"""What the module cordkit makes of sessions and ropes in Python's own terms, beside bytes: slices, indices, iteration, sums; numbers that fit no type of
C; errors; a session that is closed, or asked on another thread; files that are saved. The last line is 'N passed, M failed'."""

import os
import pickle
import random
import sys
import tempfile
import threading

import cordkit
from cordkit import Code, Rope, Session, Store

HERE = os.path.dirname(os.path.abspath(__file__))
HEADER = os.path.join(os.path.dirname(HERE), "cord_session.h")
passed = failed = 0


def same(what, got, wanted):
    global passed, failed
    passed, failed = passed + (got == wanted), failed + (got != wanted)
    if got != wanted:
        print(f"FAILED: {what}: {got!r} and not {wanted!r}")


def refusal(call, *words):
    """The code by which a call is refused, or the name of another exception, or nothing."""
    try:
        call(*words)
    except cordkit.Error as error:
        return error.code
    except Exception as error:
        return type(error).__name__
    return None


def parts(size, chance):
    """Slices of a text of this size, from either end and past both."""
    ends = [None, *(chance.randrange(-size - 3, size + 4) for _ in range(4))]
    return [slice(start, stop) for start in ends for stop in ends]


def try_text(what, text, data, chance):
    """A text beside its bytes."""
    same(f"{what}: its length and bytes", (len(text), bytes(text), bytes(iter(text))), (len(data), data, data))
    for part in parts(len(data), chance):
        same(f"{what}{part}", bytes(text[part]), data[part])
    for i in {0, 1, -1, len(data) - 1, len(data), -len(data), -len(data) - 1}:
        try:
            wanted = data[i]
        except IndexError:
            wanted = Code.RANGE
        same(f"{what}[{i}]", refusal(lambda at=i: text[at]) or text[i], wanted)
    same(f"{what}: every second byte", refusal(lambda: text[::2]), "ValueError")
    same(f"{what}: a pattern", text.find(data[2:5]), data.find(data[2:5]))
    same(f"{what}: a byte", (text.find_byte(data[0], 1), text.find_last_byte(data[0])), (data.find(data[:1], 1), data.rfind(data[:1])))


def try_ropes(chance):
    data = bytes(chance.choice(b"abc") for _ in range(50))
    with Store([b"source bytes", 10]) as store:
        rope = store.rope(data[:20]) + data[20:30] + store.rope(data[30:])
        try_text("rope", rope, data, chance)
        same("bytes in front", bytes(b"front " + rope), b"front " + data)
        same("a long text", bytes(store.rope(b"xyz" * 50000)), b"xyz" * 50000)
        same("a source", bytes(store.source(0, 7, 5)), b"bytes")
        same("no rope changes", (bytes(rope), bytes(rope.balanced()), bytes(store.rope())), (data, data, b""))
        same("order", (rope.compare(rope), rope.compare(rope[:5]), rope[:5].compare(rope), rope.compare(rope, 3, 3, 9)), (0, 1, -1, 0))
        same("a source that is not held", refusal(bytes, store.source(1, 0, 5)), Code.UNHELD)
        for word in "text", 5, None:
            same(f"a sum with {word!r}", refusal(lambda other=word: rope + other), "TypeError")
        with Store() as other:
            foreign = other.rope(b"foreign")
            refused = [refusal(lambda: rope + foreign), refusal(rope.compare, foreign), refusal(store.cut, foreign, 0, 1), refusal(len, Rope(store, 99))]
            same("ropes of another store", refused, [Code.NO_ROPE] * 4)
        same("a rope of a store that was closed", refusal(len, foreign), Code.CLOSED)
        for far in -1, 1 << 32, 1 << 64, 1 << 80:
            same(f"the source {far}", refusal(store.source, far, 0, 1), Code.BAD_SPAN)
            same(f"a place {far}", (refusal(rope.fetch, far), refusal(rope.locate, far), bytes(store.cut(rope, far, 5))), (Code.RANGE, Code.RANGE, b""))
            same(f"a function of {far}", refusal(store.function, far, b"a", 5), Code.NO_COMMAND)
        same("a source of another sort", (refusal(store.add_source, -1), refusal(store.add_source, 1 << 64)), (Code.TOO_LONG, Code.TOO_LONG))


def try_session(chance):
    with Session() as session:
        data = bytes(chance.choice(b"abc") for _ in range(40))
        k = session.insert(session.new(), 0, data)
        try_text("text", session[k], data, chance)
        session.fill(k, 3, 65, 4)
        texts = [b"", data, data[:3] + b"AAAA" + data[3:]]
        same("all texts", ([bytes(text) for text in session], len(session), bytes(session[-1]), session[-2].revision), (texts, 3, texts[-1], 1))
        for far in 3, 1 << 32, (1 << 32) + 1, 1 << 64, 1 << 80:
            calls = [lambda: session[far], lambda: session.back(far), lambda: session.insert(far, 0, b"x"), lambda: session.join(0, far)]
            same(f"revision {far}", [refusal(call) for call in calls], [Code.NO_REVISION] * 4)
        same("revisions from the end", (bytes(session[-3]), refusal(lambda: session[-4])), (b"", Code.NO_REVISION))
        for far in 41, -1, 1 << 64, (1 << 64) + 1:
            calls = [lambda: session.insert(k, far, b"x"), lambda: session.delete(k, 0, far), lambda: session.cut(k, far, 0)]
            calls += [lambda: session.many(k, [(far, 0, b"x")]), lambda: session.paste(0, 0, k, far, 0)]
            same(f"place {far}", [refusal(call) for call in calls], [Code.RANGE] * 5)
        same("a byte of 256", refusal(session.fill, k, 0, 256, 1), "ValueError")
        same("a text of letters", refusal(session.insert, k, 0, "x"), "TypeError")
        same("nothing is made", (len(session), [bytes(text) for text in session]), (3, texts))
        same("which index errors", refusal_is_index_error(session), True)
    same("a session that was closed", (refusal(session.new), refusal(len, session), refusal(session.close)), (Code.CLOSED, Code.CLOSED, None))


def refusal_is_index_error(session):
    try:
        session[99]
    except IndexError as error:
        return isinstance(error, cordkit.Error) and str(error).startswith("CORD_NO_REVISION (11): ")
    return False


def try_errors():
    """What an error says, also where it came from another process."""
    for error in cordkit.Error(13), cordkit.Missing(39), cordkit.NotHeld(), cordkit.Refused("refused C2"):
        again = pickle.loads(pickle.dumps(error))
        same(f"{error!r}, sent", (type(again), again.code, str(again)), (type(error), error.code, str(error)))
    range_line = "CORD_RANGE (13): a place or a span is not inside its text, or changes are out of order"
    same("what an error says", (str(cordkit.Error(13)), str(cordkit.Refused("refused C2"))), (range_line, "refused C2"))


def on_another_thread(call):
    told = []
    thread = threading.Thread(target=lambda: told.append(refusal(call)))
    thread.start()
    thread.join()
    return told[0]


def try_threads():
    session = Session()
    session.new()
    same("a call on another thread", (on_another_thread(lambda: session.back(0)), on_another_thread(session.close)), ("RuntimeError", "RuntimeError"))
    same("the session goes on", (session.back(0), len(session)), (1, 2))
    same("one that began there", on_another_thread(lambda: Session().new()), None)


def try_files():
    with tempfile.TemporaryDirectory() as folder:
        path = os.path.join(folder, "fox.cord")
        with Session([b"source"]) as session:
            session.insert(session.open(0), 0, b"a ")
            session.save(path)
            older = cordkit.read(path)
            session.back(0)
            os.mkdir(path + ".new")
            same("a save that fails", (refusal(session.save, path), cordkit.read(path)), ("IsADirectoryError", older))
            os.rmdir(path + ".new")
            session.save(path)
            same("the saved image", (cordkit.read(path), os.listdir(folder)), (session.image(), ["fox.cord"]))
        with Session.resume(path, [b"source"]) as again:
            same("a session that goes on", ([bytes(text) for text in again], again.back(0)), ([b"source", b"a source", b"source"], 3))
        wrong = [(path,), (path, [5]), (older[:-1], [b"source"])]
        same("without its source, or cut off", [refusal(Session.resume, *words) for words in wrong], [Code.REFUSED] * 3)
        try:
            Session.resume(path)
        except cordkit.Refused as refused:
            same("the verdict", (str(refused), refused.verdict.code), ("refused C2", 2))
        same("its length alone", [len(text) for text in Session.resume(path, [6])], [6, 8, 6])
        same("an image beside it", cordkit.Image(path, [b"source"]).text(1), b"a source")


def try_codes():
    """The names and numbers of the header, of this module, and of the wrapper for Rust."""
    with open(HEADER, encoding="ascii") as file:
        words = [line.split()[1:3] for line in file if line.startswith("#define CORD_") and line.split()[2].endswith("u")]
    numbers = {name[5:]: int(number[:-1]) for name, number in words if not name.startswith("CORD_COMMAND_") and name != "CORD_DONE"}
    same("the codes of the header", {code.name: code.value for code in Code}, numbers)
    with open(os.path.join(HERE, "cord_session.rs"), encoding="utf-8") as file:
        listed = file.read().partition("codes! {\n")[2].partition("\n}")[0]
    in_rust = dict(pair.split(" = ") for pair in " ".join(listed.split()).strip(" ,").split(", "))
    same("those of the wrapper for Rust", in_rust, {name: str(number) for name, number in numbers.items()})
    with open(os.path.join(os.path.dirname(HERE), "cord_session.hpp"), encoding="utf-8") as file:
        named = {line.split()[1].strip(":")[5:] for line in file if line.lstrip().startswith("case CORD_")}
    same("those of the wrapper for C++", named - {"DONE"}, set(numbers))


def main():
    for seed in range(20):
        try_ropes(random.Random(seed))
        try_session(random.Random(seed))
    try_errors()
    try_threads()
    try_files()
    try_codes()
    print(f"{passed} passed, {failed} failed")
    return failed != 0


if __name__ == "__main__":
    sys.exit(main())
