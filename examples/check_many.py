#!/usr/bin/env python3
"""Checks every session image in a folder by the proved library, side by side, and prints a line for each that is not accepted.

  check_many.py FOLDER                         on this machine, by as many processes as it has processors (--processes N)
  check_many.py FOLDER --scheduler ADDRESS     on a cluster, by dask's `distributed`; its workers see the folder under the same name

An image is a file NAME.cord; the files of its sources, in their order, are NAME.cord.0, NAME.cord.1 and so on, and where there is none
the lengths that the image states are taken: an image that the editor wrote needs no more. With --at-most LOOKS an image whose check
may take more looks at nodes is refused by that number (300,000,000 looks are about a second), so that no image holds up the others.

The library is that of the module cordkit, an installed one or crates/cord_c/callers/cordkit.py, or CORDKIT_LIBRARY. The last line counts: images,
accepted, refused, not read, and images a second. Status: 0 where all are accepted, else 1.
"""

import argparse
import collections
import concurrent.futures
import itertools
import os
import struct
import sys
import time
from typing import Iterable, Iterator, List, Optional, Tuple

# Where the module is in a checkout, and below the prefix of an installation.
HERE = os.path.dirname(os.path.realpath(__file__))
MODULES = [os.path.join(HERE, folder) for folder in ("../crates/cord_c/callers", "../../../../lib/cordkit/python")]

# So many images are handed out at once.
BATCH = 64

Answers = Tuple["collections.Counter[str]", List[str]]


def sources_of(path: str, image: bytes) -> List["bytes | int"]:
    """The bytes of the files of an image's sources, or their lengths as the image states them."""
    files = []
    for number in itertools.count():
        try:
            with open(f"{path}.{number}", "rb") as file:
                files.append(file.read())
        except FileNotFoundError:
            break
    count = struct.unpack_from(">I", image, 12)[0] if len(image) >= 40 else 0
    stated = min(count, 256, (len(image) - 40) // 8)
    return files or [struct.unpack_from(">Q", image, 40 + 8 * s)[0] for s in range(stated)]


def line_of(path: str, at_most: Optional[int]) -> str:
    """What `cordkit check` prints for an image, or `read` where it cannot be read."""
    sys.path.extend(folder for folder in MODULES if folder not in sys.path)
    import cordkit

    try:
        image = cordkit.read(path)
        return str(cordkit.check(image, sources_of(path, image), at_most))
    except cordkit.Refused as refused:
        return str(refused)
    except OSError:
        return "read"


def answers_on(paths: List[str], at_most: Optional[int]) -> Answers:
    """How many images are accepted, refused and not read, and the line of each that is not accepted."""
    lines = [(path, line_of(path, at_most)) for path in paths]
    counted = collections.Counter(line.split(" ")[0] for _, line in lines)
    return counted, [f"{path}: {line}" for path, line in lines if not line.startswith("accepted ")]


def images_in(folder: str) -> Iterator[str]:
    for here, _, names in os.walk(folder):
        yield from (os.path.join(here, name) for name in sorted(names) if name.endswith(".cord"))


def batches_of(paths: Iterable[str]) -> Iterator[List[str]]:
    paths = iter(paths)
    return iter(lambda: list(itertools.islice(paths, BATCH)), [])


def here(batches: Iterable[List[str]], at_most: Optional[int], processes: int) -> Iterator[Answers]:
    if processes == 1:
        yield from (answers_on(batch, at_most) for batch in batches)
        return
    with concurrent.futures.ProcessPoolExecutor(processes) as pool:
        yield from pool.map(answers_on, batches, itertools.repeat(at_most))


def take_library(path: str) -> None:
    os.environ.setdefault("CORDKIT_LIBRARY", path)


def on_cluster(batches: Iterable[List[str]], at_most: Optional[int], scheduler: str) -> Iterator[Answers]:
    from distributed import Client, as_completed

    with Client(scheduler) as client:
        # The workers get this file's functions by their code, and find the module and its library as this machine does.
        if "CORDKIT_LIBRARY" in os.environ:
            client.run(take_library, os.environ["CORDKIT_LIBRARY"])
        asked = client.map(answers_on, list(batches), at_most=at_most, pure=False)
        yield from (result for _, result in as_completed(asked, with_results=True))


def main() -> int:
    words = argparse.ArgumentParser(description=__doc__, formatter_class=argparse.RawDescriptionHelpFormatter)
    words.add_argument("folder")
    words.add_argument("--at-most", type=int, metavar="LOOKS")
    words.add_argument("--processes", type=int, default=os.cpu_count() or 1)
    words.add_argument("--scheduler", metavar="ADDRESS")
    asked = words.parse_args()
    batches, begun = batches_of(images_in(asked.folder)), time.monotonic()
    if asked.scheduler:
        answers = on_cluster(batches, asked.at_most, asked.scheduler)
    else:
        answers = here(batches, asked.at_most, asked.processes)
    counted = collections.Counter()
    for found, lines in answers:
        counted += found
        for line in lines:
            print(line)
    images, seconds = sum(counted.values()), time.monotonic() - begun
    print(f"{images} images: {counted['accepted']} accepted, {counted['refused']} refused, {counted['read']} not read; {images / seconds:.0f} a second")
    return int(counted["accepted"] != images)


if __name__ == "__main__":
    sys.exit(main())
