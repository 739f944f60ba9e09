#!/usr/bin/env python3
"""pack.py MODULE PAGE: writes history.html, one page of the files in this folder and the checker's module (`make wasm`), which opens from a disk. Its policy
allows its own script and style by their digests, the module, and a worker of its own; and no address at all."""

import base64
import hashlib
import json
import os
import re
import sys

HERE = os.path.dirname(os.path.abspath(__file__))
SCRIPT = ["checker.js", "characters.js", "rows.js", "records.js", "times.js", "shares.js", "graph.js", "pane.js", "main.js"]
WORKER = ["records.js", "worker.js"]


def read(name):
    with open(os.path.join(HERE, name), encoding="utf-8") as file:
        return file.read()


def joined(names):
    """Files of a script as one: what they import of each other stands there."""
    texts = [re.sub(r"^export ", "", re.sub(r"^import .*\n", "", read(name), flags=re.M), flags=re.M) for name in names]
    return "\n".join(texts)


def digest(text):
    return "'sha256-" + base64.b64encode(hashlib.sha256(text.encode()).digest()).decode() + "'"


def packed(module):
    constants = {"MODULE": base64.b64encode(module).decode(), "WORKER": joined(WORKER)}
    told = "".join(f"const {name} = {json.dumps(text)};\n" for name, text in constants.items()).replace("</", "<\\/")
    script = '(() => {\n"use strict";\n' + told + joined(SCRIPT) + "})();\n"
    style = read("style.css")
    policy = "; ".join([
        "default-src 'none'",
        f"script-src {digest(script)} 'wasm-unsafe-eval'",
        f"style-src {digest(style)}",
        "worker-src blob:",
        "base-uri 'none'",
        "form-action 'none'",
    ])
    page = read("page.html")
    for name, text in [("@POLICY@", policy), ("@STYLE@", style), ("@SCRIPT@", script)]:
        page = page.replace(name, text)
    return page


def main():
    module, page = sys.argv[1:]
    with open(module, "rb") as file:
        text = packed(file.read())
    with open(page + ".new", "w", encoding="utf-8") as file:
        file.write(text)
    os.replace(page + ".new", page)


if __name__ == "__main__":
    main()
