# make test: the gate, as .ci/run. make prove: every crate, with what is unchanged taken as proved.
# make demo: the walk-through, proved and run: document 01's morning, with the tables after each call.
# make lib: the archive target/staticlib/libslp.a, of the crate slp_c. make bench: the cost of the audit and of the operations beside the same by hand, as ratios.
# make follows: how often an audit follows next on worst-case pools, beside the bound, by the test entry target/staticlib/libfollows.a.
# make stack: how much stack each call takes at the largest pool, by tests/c/stack.c.
# make soak: CALLS random calls of the library beside the model, compared after each; SEED starts another run.
# make install: archive, header and pkg-config file to PREFIX (under DESTDIR, if given); the archive as it stands, made first if there is none.
# make uninstall: takes the three away again.
.PHONY: test prove demo lib bench follows stack soak fmt clean install uninstall

CALLS = 20000000
SEED = 1
PREFIX = /usr/local
ARCHIVE = target/staticlib/libslp.a
# PREFIX from the root, for the pkg-config file; and where the files go
whole = $(if $(filter /%,$(PREFIX)),$(PREFIX),$(CURDIR)/$(PREFIX))
to = $(DESTDIR)$(whole)

test:
	.ci/run

prove:
	rt all check

demo:
	@tools/demo

lib:
	tools/archives slp

bench:
	tools/bench

follows: lib
	tools/archives follows
	cd rust && cargo test --offline --test follows worst_cases -- --nocapture

stack: lib
	$(CC) -std=c11 -O2 -Iinclude tests/c/stack.c $(ARCHIVE) -o target/stack && target/stack

soak: lib
	cd rust && FULCRUMNEST_CALLS=$(CALLS) FULCRUMNEST_SEED=$(SEED) cargo test --offline --test changing random_lists -- --nocapture

fmt:
	for crate in crates/*/src; do (cd "$${crate%src}" && rt fmt) || exit 1; done

clean:
	rm -rf target rust/target crates/*/out

$(ARCHIVE):
	tools/archives slp

install: $(ARCHIVE)
	install -d "$(to)/lib/pkgconfig" "$(to)/include"
	install -m 644 $(ARCHIVE) "$(to)/lib/libslp.a"
	install -m 644 include/slp.h "$(to)/include/slp.h"
	{ echo "prefix=$(whole)"; cat tools/slp.pc.in; } >"$(to)/lib/pkgconfig/slp.pc"
	chmod 644 "$(to)/lib/pkgconfig/slp.pc"

uninstall:
	rm -f "$(to)/lib/libslp.a" "$(to)/include/slp.h" "$(to)/lib/pkgconfig/slp.pc"
