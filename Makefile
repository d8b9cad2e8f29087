# `make run` does the main job, `make test` is the gate.
PREFIX ?= /usr/local
DESTDIR ?=

archive = crates/tension_host/out/libtension_host.a

.PHONY: run test cases host install compare turns count

# proves and builds the program, saying which function is proved, and searches the recording in examples/; crates/bench/out/run.log has
# all that the check says. A file tells whether it passed, since sh has only the status of a pipe's end.
run:
	@echo "Proving and building bench (the first time takes some minutes) .."
	@mkdir -p crates/bench/out && rm -f crates/bench/out/run.passed
	@{ (cd crates/bench && rt run <../../examples/ribbing.krec 2>&1 >/dev/null) && touch crates/bench/out/run.passed; } | tee crates/bench/out/run.log | grep --line-buffered ': proved$$' || true
	@[ -e crates/bench/out/run.passed ] || { tail -n 20 crates/bench/out/run.log; exit 1; }
	@echo "examples/start crates/bench/out/bench < examples/ribbing.krec"
	@examples/start crates/bench/out/bench < examples/ribbing.krec

test:
	@bash .ci/run

# the cases that crates/replay runs, and what they must come to
cases:
	@reference/record

# the archive for C hosts: crates/tension_host/out/libtension_host.a
host:
	@cd crates/tension_host && rt lib

# our speed beside the same algorithm in C, the KMP matcher and the naive one, and on frames beside a plain matcher, as ratios in one run
compare:
	@bash host/compare/run.sh

# our speed beside that of an earlier commit: make turns OLD=REVISION
turns:
	@bash host/compare/turns.sh "$(OLD)"

# instructions of one call beside those of the same algorithm in C
count:
	@bash host/compare/count.sh

install: host
	install -d "$(DESTDIR)$(PREFIX)/include" "$(DESTDIR)$(PREFIX)/lib/pkgconfig"
	install -m 644 host/tension.h "$(DESTDIR)$(PREFIX)/include/tension.h"
	install -m 644 $(archive) "$(DESTDIR)$(PREFIX)/lib/libtension_host.a"
	sed 's,@PREFIX@,$(PREFIX),' host/tension.pc.in > "$(DESTDIR)$(PREFIX)/lib/pkgconfig/tension.pc"
