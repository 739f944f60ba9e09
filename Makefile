# make try [IMAGE=..]  checks the stored image, or the one that is named, by the program with no proof: a minute; it keeps no program
# make run       proves and builds the program, and runs it on the stored image
# make library   proves and builds the C libraries, and, where there is a C compiler, a shared one of each for Python
# make check     the merge gate: every proof and test, edits that must be refused, of most public functions or of what they call, and the built program
# make long [OLD=..]  what takes more than a minute and is no proof, over the built program: random images and keys, failing devices, dear refusals;
#                and, where OLD names a clone at c89b5a8 over which crates/cord_answers and its line of crates.txt were laid, in which
#                `rt run` built that crate: more answers of both builds, compared
# make hostile   has the program check images at the format's limits: ten minutes, 5 GB of memory and of disk
# make fuzz MINUTES=60  has the program and the second checker answer images that are made from those that reached something new
# make audit     the edits that must be refused and that the gate has no time for; wrong reads of files, which the test of open files has to tell
# make bench     times the program beside the usual tools, on data that it makes, and a check over the size of its image
# make figures   measures anew what docs/PERF.md and docs/SCALE.md tell of the program alone and beside others, and prints their rows: ten minutes
# make speed OLD=..  times the jobs and the tools over files beside those of another built checkout; an error names what lost a twentieth in two runs
# make instructions  counts the instructions of each job, where valgrind is installed, and compares them with bench/instructions.txt
# make refuse    refuses each allocation of the tests' runs and of the program's in turn, and fails its reads and writes by real devices
# make crate NAME=.. DEPS=".."  makes the folders and files of a new crate, and its line in crates.txt
# make callers IMAGES=2100  builds the C libraries and their callers in each language, and compares their answers with each other and the program's
# make boehm     builds the C library, and cord.h of the collector's over it, in examples/boehm/out, and tries that beside plain arrays
# make wasm      builds the C library as WebAssembly, and history.html with it, and tries them in node and in chromium, where these are installed
# make page      builds history.html anew, of the files in page/ and of that module
# make memcheck  runs the tests of ropes under valgrind's memcheck, where it is installed
# make install PREFIX=/usr/local [DESTDIR=..] [PROGRAM=..] [LIBRARY=..] [SESSIONS=..]  installs the program that `make run` built, or another, with scripts,
#                man pages and completions, and the C libraries, their headers and the Python module, where `make library` built them
# make uninstall PREFIX=/usr/local [DESTDIR=..]  takes away what make install put there
# make deb       makes a package for Debian of what `make run` and `make library` built, or of PROGRAM=.., LIBRARY=.. and SESSIONS=.., in the folder out
# make installed tries all three in folders of their own, over what is built, or PROGRAM=.., LIBRARY=.. and SESSIONS=..

.PHONY: try run library check long hostile fuzz audit bench figures speed instructions refuse callers boehm wasm page memcheck crate install uninstall deb installed

IMAGE = crates/cordkit/stdin
MINUTES = 10
PREFIX = /usr/local
DESTDIR =
PROGRAM = crates/cordkit/out/cordkit
LIBRARY = crates/cord_c/out/libcord_c.a
SESSIONS = crates/cord_session/out/libcord_session.a
IMAGES = 2100
OLD =

try:
	(cd crates/cordkit && rt try) < "$(IMAGE)"

run:
	cd crates/cordkit && rt run < stdin

library:
	cd crates/cord_c && rt lib && sh shared.sh
	cd crates/cord_session && rt lib && sh archive.sh

check:
	rt ci
	sh tests/at_once.sh 'sh tests/program.sh' 'sh tests/program.sh bin/cordkit launcher' 'sh tests/slice.sh' 'sh tests/devices.sh' '$(MAKE) installed'

long:
	OLD="$(OLD)" sh tests/long.sh

hostile:
	python3 tests/hostile.py

fuzz:
	python3 tests/fuzz_images.py $(MINUTES)

audit:
	sh audit/run.sh
	sh tests/wrong_reads.sh

bench:
	sh bench/check.sh
	sh bench/sources.sh
	sh bench/write.sh
	sh bench/show.sh
	sh bench/rope.sh
	sh bench/tools.sh
	sh bench/scripts.sh
	sh bench/onto.sh
	sh bench/blame.sh
	python3 bench/serve.py
	sh bench/commit.sh
	sh bench/edit.sh
	python3 bench/plot.py "$(PROGRAM)"

figures:
	sh bench/figures.sh

speed:
	@[ -d "$(OLD)" ] || { echo "make speed OLD=CHECKOUT: CONTRIBUTING.md tells how one is built" >&2; exit 2; }
	status=0; bench/run --lost "$(OLD)" . || status=1; bench/files --lost "$(OLD)" . || status=1; exit $$status

instructions:
	bench/instructions

refuse:
	python3 tests/refused.py
	sh tests/devices.sh

callers: library
	sh crates/cord_c/callers/run.sh $(IMAGES) "$(PROGRAM)"
	sh crates/cord_session/callers/run.sh 6 "$(PROGRAM)"

boehm: library
	sh examples/boehm/build.sh
	sh examples/boehm/tests/run.sh

wasm:
	sh crates/cord_c/wasm.sh

page:
	python3 page/pack.py crates/cord_c/out/cord_c.wasm crates/cord_c/out/history.html

memcheck:
	sh tests/memcheck.sh

install:
	sh packaging/install.sh install "$(DESTDIR)$(PREFIX)" "$(PROGRAM)" "$(LIBRARY)" "$(SESSIONS)"

uninstall:
	sh packaging/install.sh uninstall "$(DESTDIR)$(PREFIX)"

deb:
	sh packaging/deb.sh "$(PROGRAM)" out "$(LIBRARY)" "$(SESSIONS)"

installed:
	sh tests/install.sh "$(PROGRAM)" launcher "$(LIBRARY)" "$(SESSIONS)" && sh tests/deb.sh "$(PROGRAM)" "$(LIBRARY)" "$(SESSIONS)"

crate:
	@sh tests/new_crate.sh "$(NAME)" $(DEPS)
