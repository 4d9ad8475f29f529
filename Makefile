# Needs the toolchain's command `rt` on the path, bash and Python 3.9; `check` and `bench` use other programs too, each where it is installed.

BUILT := crates/smooth/out/smooth
PROGRAM := $(BUILT)
BENCH := crates/smooth_bench/out/smooth_bench
PREFIX := /usr/local

.PHONY: run test build install uninstall deb check check-checks bench wrong-bodies clean

# Starts an origin, pushes a sample, shows the manifest, plays the sample back, and ends: with the program that `build` proved, or else
# with one that is built in some minutes and not proved, and says so.
run:
	@scripts/first_run

# The merge gate.
test:
	bash .ci/run

# Tries all wrong bodies, of which the gate tries one of each crate, and writes docs/WRONG_BODIES.md.
wrong-bodies:
	scripts/check_edits --write

# Proves what the program stands on, as many crates side by side as there are processors, tells each as it is done, and builds
# the program. `rt run` runs it as well, without words, which it refuses.
build:
	scripts/prove smooth
	rm -f $(BUILT)
	cd crates/smooth && { rt run < /dev/null > /dev/null; test -x out/smooth; }
	mkdir -p out/bin
	ln -sf ../../$(BUILT) out/bin/smooth

# Installs the program that is there, or the one of PROGRAM=FILE, with its tools, manual page and units: scripts/install has the list.
# It proves and builds nothing, and needs no toolchain. DESTDIR= and PREFIX= say where to.
install:
	@PREFIX='$(PREFIX)' DESTDIR='$(DESTDIR)' scripts/install '$(PROGRAM)'

# Takes away what `install` put there. Stores, journals and /etc/smooth stay.
uninstall:
	@PREFIX='$(PREFIX)' DESTDIR='$(DESTDIR)' scripts/install --remove

# Makes out/smooth_VERSION_amd64.deb of the program that `build` proved, and out/SHA256SUMS. It takes no other program.
deb:
	@scripts/make_deb

# Holds the program against a plain reference in Python, on the samples and on many inputs made of them, and tries it with ffmpeg,
# curl, nginx and strace, each where it is installed, and with the session of README; then kills, a loss of power, an hour of a push, slow
# readers, whether memory comes back, many clients at once, and whoever means it ill. The last line says which checks ran whole, and what was
# left out and why. `scripts/check_kill 100` and `scripts/check_crash` are the long forms.
check: build
	bash scripts/check_all $(PROGRAM)

# Shows that the checks can fail: each is run over a program that does one thing wrong, and has to find it. CONTRIBUTING has the table.
check-checks: build
	SMOOTH=$(PROGRAM) scripts/check_checks --write

# Figures of the readers, the store and the running origin: docs/PERFORMANCE.md says what they came to.
bench: build
	cd crates/smooth_bench && rt run > /dev/null
	bash scripts/bench_push $(PROGRAM)
	bash scripts/bench_fragment $(BENCH)
	bash scripts/bench_conn $(BENCH)
	bash scripts/bench_catalog $(BENCH)
	bash scripts/bench_archive $(BENCH)
	scripts/bench_shelf $(BENCH)
	SMOOTH=$(PROGRAM) scripts/bench_rehearse
	SMOOTH=$(PROGRAM) scripts/bench_serve
	SMOOTH=$(PROGRAM) scripts/bench_players
	SMOOTH=$(PROGRAM) scripts/bench_export
	SMOOTH=$(PROGRAM) scripts/bench_journal
	SMOOTH=$(PROGRAM) scripts/bench_relay

clean:
	rm -rf crates/*/out out
