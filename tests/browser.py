#!/usr/bin/env python3
"""Opens history.html in a browser without a window, from the disk, drops and selects images there, and compares what the page says with the tables of
tests/vectors, and with the second checker over images that chance makes; the texts that it shows, and where it says that their bytes come from. Then
pages that bin/cordkit-page wrote: of a session with times, of hostile texts, names and times, and one that was changed afterwards. The checker there is
the library as WebAssembly: `make wasm` builds it, and the page. Where there is no chromium nothing is tried, which is told.

Usage: browser.py [IMAGES]: so many images of chance (42 if left out). The last line is 'N passed, M failed'.
"""

import base64
import itertools
import json
import os
import random
import re
import shutil
import struct
import subprocess
import sys
import tempfile
import time

from damaged_images import damaged
from made_images import made
from second_checker import TOP, verify
from worked_images import worked

PAGE = os.path.join(TOP, "crates/cord_c/out/history.html")
WRITER = os.path.join(TOP, "bin/cordkit-page")
NAMES = ["chromium", "chromium-browser", "google-chrome"]
IMAGES_OF_A_SEED = 21
LONGEST_SHOWN = 1 << 16


class Browser:
    """A browser, asked by its protocol for developers over two pipes, which it has as 3 and 4."""

    def __init__(self, program, folder):
        to_read, self.to_browser = os.pipe()
        self.from_browser, to_write = os.pipe()
        words = [program, "--headless", "--disable-gpu", "--remote-debugging-pipe", "--user-data-dir=" + folder, "about:blank"]
        if os.geteuid() == 0:
            words.insert(1, "--no-sandbox")
        start = ["sh", "-c", 'exec "$@" 3<&%d 4>&%d' % (to_read, to_write), "sh", *words]
        quiet = {"stdin": subprocess.DEVNULL, "stdout": subprocess.DEVNULL, "stderr": subprocess.DEVNULL}
        self.process = subprocess.Popen(start, pass_fds=[to_read, to_write], **quiet)
        os.close(to_read)
        os.close(to_write)
        self.replies = os.fdopen(self.from_browser, "rb")
        self.numbers, self.session = itertools.count(1), None

    def ask(self, method, **words):
        """What the browser answers; it is stopped where it says that something failed."""
        number = next(self.numbers)
        message = {"id": number, "method": method, "params": words}
        if self.session:
            message["sessionId"] = self.session
        os.write(self.to_browser, json.dumps(message).encode() + b"\0")
        while True:
            reply = json.loads(self.next_reply())
            if reply.get("id") == number:
                if "error" in reply:
                    raise RuntimeError(f"{method}: {reply['error']}")
                return reply["result"]

    def next_reply(self):
        reply = bytearray()
        while True:
            byte = self.replies.read(1)
            if not byte:
                raise RuntimeError("the browser has ended")
            if byte == b"\0":
                return bytes(reply)
            reply += byte

    def open(self, address):
        target = self.ask("Target.createTarget", url=address)["targetId"]
        self.session = self.ask("Target.attachToTarget", targetId=target, flatten=True)["sessionId"]
        self.ask("DOM.enable")

    def value(self, code):
        """What code of a page comes to, when it is there."""
        result = self.ask("Runtime.evaluate", expression=code, awaitPromise=True, returnByValue=True)
        if "exceptionDetails" in result:
            raise RuntimeError(str(result["exceptionDetails"]))
        return result["result"].get("value")

    def close(self):
        self.process.kill()
        self.process.wait()


# The text of what the page tells, once there is one, or a minute has gone.
TOLD = """new Promise((done, fail) => {
  const end = performance.now() + 60000;
  const look = () => {
    const text = document.getElementById("told").textContent;
    if (text !== "" && !/^loading|: (reading|checking)/.test(text)) done(text);
    else if (performance.now() > end) fail(new Error("no answer"));
    else setTimeout(look, 5);
  };
  look();
})"""


# What the page lays out of a revision's text, once it has gone there.
LAID = """new Promise((done, fail) => {
  const at = (id) => document.getElementById(id);
  const end = performance.now() + 60000;
  window.print = () => done(at("text").textContent);
  at("controls").checked = true;
  at("controls").dispatchEvent(new Event("change"));
  at("revision").value = %d;
  at("revision").dispatchEvent(new Event("change"));
  const look = () => {
    if (at("command").textContent.startsWith(at("revision").value + ": ")) at("print").click();
    else if (performance.now() > end) fail(new Error("no revision"));
    else setTimeout(look, 5);
  };
  setTimeout(look, 20);
})"""


def laid(text):
    """Bytes as the page shows them, with marks for tabs, returns and line ends: UTF-8 as text, other bytes as \\xNN, control bytes as pictures."""
    told = ""
    for piece in re.findall("[\udc80-\udcff]|[^\udc80-\udcff]", text.decode("utf-8", "surrogateescape")):
        if "\udc80" <= piece <= "\udcff":
            told += "\\x%02x" % (ord(piece) - 0xdc00)
        elif piece == "\t":
            told += "\u2192\t"
        elif piece < " ":
            told += chr(0x2400 + ord(piece))
        else:
            told += "\u2421" if piece == "\x7f" else piece
    return told


class Page:
    """The page, with what a user does there."""

    def __init__(self, browser, address):
        self.browser = browser
        browser.open(address)
        end = time.monotonic() + 60
        while not browser.value("document.readyState === 'complete' && document.getElementById('told') !== null"):
            if time.monotonic() > end:
                raise RuntimeError("the page does not load")
            time.sleep(0.1)
        told = browser.value(TOLD)
        if told != "ready":
            raise RuntimeError(told)

    def forget(self):
        self.browser.value("document.getElementById('told').textContent = ''; document.getElementById('files').value = ''")

    def select(self, files):
        """Selects files with the page's own field for them."""
        root = self.browser.ask("DOM.getDocument")["root"]["nodeId"]
        field = self.browser.ask("DOM.querySelector", nodeId=root, selector="#files")["nodeId"]
        self.browser.ask("DOM.setFileInputFiles", nodeId=field, files=files)

    def drop(self, files):
        """Drops files on the page."""
        place = self.browser.value("(({x, y, width, height}) => [x + width / 2, y + 5])(document.getElementById('drop').getBoundingClientRect())")
        data = {"items": [], "files": files, "dragOperationsMask": 1}
        for kind in ("dragEnter", "dragOver", "drop"):
            self.browser.ask("Input.dispatchDragEvent", type=kind, x=place[0], y=place[1], data=data)

    def told(self):
        """What it says of the image: the line behind the file's name."""
        return self.browser.value(TOLD).split("\n")[0].partition(": ")[2]

    def shown(self, revision):
        """The text that it shows of a revision, as it lays all of it out for the printer."""
        return self.browser.value(LAID % revision)

    def limit(self, looks):
        self.browser.value("document.getElementById('most').value = %d" % looks)


def chanced(images):
    """Images that chance makes, whole and damaged, with the lines of the second checker."""
    for number in range(images):
        seed, k = divmod(number, IMAGES_OF_A_SEED)
        if k == 0:
            chance = random.Random(seed)
            image = made(chance)
            sections = image.sections()
        data = b"".join(b"".join(section) for section in sections) if k == 0 else damaged(sections, chance)
        yield data, image.sources, verify.line(data, image.sources)


def takes_lengths(data, sources):
    """Whether the page takes the lengths that an image states for its sources, since none was dropped."""
    return not sources and len(data) >= 40 and data[12:16] != bytes(4)


def newest_text(data, sources):
    """The number of the last revision and its text, where it is not too long."""
    image = verify.checked(data, sources)
    if image.revisions and all(image.length(revision.root) <= LONGEST_SHOWN for revision in image.revisions):
        return len(image.revisions) - 1, verify.all_texts(image, sources)[-1]
    return None


def fault_of(page, folder, number, data, sources, line):
    """What is wrong with what the page says of an image, or nothing. Half of the images are dropped, the others selected."""
    files = [os.path.join(folder, "image.cord"), *(os.path.join(folder, f"source{k}") for k in range(len(sources)))]
    for name, content in zip(files, [data, *sources]):
        with open(name, "wb") as file:
            file.write(content)
    page.forget()
    (page.drop if number % 2 else page.select)(files)
    told = page.told()
    if told != line:
        return f"the page says {told!r} and not {line!r}"
    newest = newest_text(data, sources) if line.startswith("accepted ") else None
    if newest and page.shown(newest[0]) != laid(newest[1]):
        return f"the page shows revision {newest[0]} as another text"
    return None


def all_faults(page, images):
    passed, faults = 0, []
    with tempfile.TemporaryDirectory() as folder:
        for number, (data, sources, line) in enumerate(itertools.chain(worked(), chanced(images))):
            if takes_lengths(data, sources):
                continue
            fault = fault_of(page, folder, number, data, sources, line)
            passed += fault is None
            if fault:
                faults.append(f"image {number}, {data[:4000].hex()}: {fault}")
        image = os.path.join(TOP, "crates/cordkit/stdin")
        page.forget()
        page.limit(1)
        page.select([image])
        told = page.told()
        passed += told == "refused looks 137"
        if told != "refused looks 137":
            faults.append(f"with a limit of looks the page says {told!r}")
    return passed, faults


# ---- pages that hold an image


def written_page(folder, image, sources=(), times=None, name="session.cord"):
    """What cordkit-page writes of an image, as a file."""
    paths = [os.path.join(folder, name), *(os.path.join(folder, f"source{k}") for k in range(len(sources)))]
    for path, content in zip(paths, [image, *sources]):
        with open(path, "wb") as file:
            file.write(content)
    words = [sys.executable, WRITER]
    if times is not None:
        words += ["--times", os.path.join(folder, "times")]
        with open(words[-1], "w") as file:
            file.write(times)
    page = os.path.join(folder, "page.html")
    with open(page, "wb") as file:
        subprocess.run([*words, "--", *paths], stdout=file, check=True)
    return page


# What the page tells of a byte, once that is shown and its origin is known.
CLICKED = """new Promise((done, fail) => {
  const end = performance.now() + 60000;
  const look = () => {
    document.querySelector('#text [data-place="%d"]')?.click();
    const told = document.getElementById("origin").textContent;
    if (told.startsWith("Byte ")) done(told);
    else if (performance.now() > end) fail(new Error("no byte"));
    else setTimeout(look, 20);
  };
  look();
})"""


class Carried(Page):
    """A page that holds an image, with what it says once that is checked."""

    def __init__(self, browser, path):
        self.browser = browser
        browser.open("file://" + path)
        end = time.monotonic() + 60
        while not re.search("accepted|refused|is not what|had |stopped", self.said()):
            if time.monotonic() > end:
                raise RuntimeError("the page does not answer: " + self.said())
            time.sleep(0.05)

    def said(self):
        return self.browser.value("document.getElementById('told')?.textContent ?? ''")

    def title(self):
        return self.browser.value("document.title")

    def told_of(self, place):
        """What it tells of the byte at a place of what it shows, when that is clicked."""
        return self.browser.value(CLICKED % place)

    def legend(self):
        wait = "new Promise((done) => setTimeout(() => done([...document.querySelectorAll('#legend li')].map((row) => row.textContent)), 1500))"
        return self.browser.value(wait)


HOSTILE = b"</script><script>document.title = 'ran'</script><img src=x onerror=\"document.title = 'ran'\"><!-- \xff\x00 ]]>"


def session_of(texts):
    """An image whose revisions are these texts, each put into the empty text at once."""
    pool, nodes, revisions, rows = b"", b"", struct.pack(">BBHIIIQQQQII", 1, 0, 0, 0xFFFFFFFF, 0, 0, 0, 0, 0, 0, 0, 0), b""
    for number, text in enumerate(texts):
        nodes += struct.pack(">BBBBIQQQ", 1, 0, 0, 0, 0, len(text), len(pool), 0)
        revisions += struct.pack(">BBHIIIQQQQII", 3, 1, 0, number, 0, 0, 0, 0, len(pool), len(text), 1, 0)
        rows += struct.pack(">B3xIQQ", 2, 0, len(text), 0)
        pool += text
    counts = struct.pack(">8s6IQ", b"CORDSESS", 2, 0, len(texts), len(texts) + 1, len(texts), 0, len(pool))
    return counts + nodes + revisions + rows + pool


def carried_faults(browser):
    """How many checks of pages that hold an image pass, and what is wrong with the others."""
    faults, passed = [], 0

    def is_same(name, got, wanted):
        nonlocal passed
        passed += got == wanted
        if got != wanted:
            faults.append(f"{name}: the page says {got!r} and not {wanted!r}")

    with tempfile.TemporaryDirectory() as folder:
        image = session_of([b"typed", b"a whole paragraph that was put in at once"])
        times = "1 2026-11-28 09:31:00\n2 2026-11-29 10:00:00\n"
        page = Carried(browser, written_page(folder, image, times=times))
        is_same("a page with times", page.said().split("\n")[0], "session.cord: " + verify.line(image, []))
        is_same("its title", page.title(), "The history of session.cord")
        is_same("a byte of it", page.told_of(0).split(";")[0], "Byte 0: put in by revision 2, 2026-11-29 10:00, at place 0 of its text")
        is_same("its legend", page.legend()[:2], ["typed: 0 bytes, 0 %", "put in at once: 41 bytes, 100 %"])
        is_same("the text before it", page.shown(1), "typed")
        image = session_of([HOSTILE])
        page = Carried(browser, written_page(folder, image, times="1 2026-11-28 09:31 </script><script>document.title='ran'</script>\n",
                                             name="<img src=x onerror=alert(1)>.cord"))
        is_same("hostile texts", page.shown(1), laid(HOSTILE))
        is_same("a hostile name", page.title(), "The history of <img src=x onerror=alert(1)>.cord")
        path = written_page(folder, session_of([b"abc"]))
        with open(path, "rb") as file:
            html = file.read()
        with open(path, "wb") as file:
            file.write(html.replace(base64.b64encode(session_of([b"abc"])), base64.b64encode(session_of([b"abd"]))))
        is_same("a changed page", Carried(browser, path).said(), "session.cord is not what was put into this page")
    return passed, faults


def main():
    images = int(sys.argv[1]) if len(sys.argv) > 1 else 42
    program = next(filter(None, map(shutil.which, NAMES)), None)
    if program is None:
        print("LEFT OUT: the page in a browser: there is no chromium here")
        print("0 passed, 0 failed")
        return 0
    if not os.path.exists(PAGE):
        print(f"there is no {PAGE}: make wasm builds it", file=sys.stderr)
        print("0 passed, 1 failed")
        return 1
    with tempfile.TemporaryDirectory(ignore_cleanup_errors=True) as folder:
        browser = Browser(program, folder)
        try:
            page = Page(browser, "file://" + PAGE)
            passed, faults = all_faults(page, images)
            carried, others = carried_faults(browser)
            passed, faults = passed + carried, faults + others
        except RuntimeError as error:
            passed, faults = 0, [str(error)]
        finally:
            browser.close()
    for fault in faults:
        print(f"FAILED: {fault}")
    print(f"{passed} passed, {len(faults)} failed")
    return bool(faults)


if __name__ == "__main__":
    sys.exit(main())
