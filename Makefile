# pawk: the released program in a minute, or proved and built from scratch.
#
# With a C compiler, make and xz:
#
#   make demo        link the released program as build/pawk, and run it on three lines: the last line is 6
#   make test        the rows, the tables, the cookbook and the memory drive on build/pawk (linked as by `make demo`
#                    where it is missing)
#   make static      the released program as build/pawk-static, one file that needs no library
#   make deb         the released program as a Debian package in build/
#   make install     put the program, its page and its completions below $(DESTDIR)$(PREFIX) (PREFIX is /usr/local)
#   make uninstall   remove those files
#
# With the Rattle kit (the command rt) too:
#
#   make             prove and build build/pawk, and keep in build/proved what was proved (release/gate)
#   make prove       the whole gate, then what `make test` tries, what the gate's programs do where memory is refused, chosen
#                    keys, runs over shards, the scripts of the release, and the comparison of the proved object with the
#                    released one
#   make release     make release/ of what the gate proved (release/README.md)
#   make wrong       the wrong bodies that the gate leaves out (tests/wrong)
#   make bench       compare build/pawk's user time with that of mawk and gawk, its elapsed time by workers, the times of
#                    expressions and of fields, and 24 programs beside mawk, gawk and original-awk
#   make engines     run shards of a file by GNU parallel, Slurm, Dask and Open MPI on this machine (docs/engines.md)
#
#   make clean       remove what was built and what checks keep here (what the gate passed stays kept)

PREFIX = /usr/local
BENCH_DATA = bench/files
MAKEFLAGS += --no-print-directory
export CC

.PHONY: all build fetch program demo test prove release static deb install uninstall wrong bench engines clean toolchain

all: build

toolchain:
	$(if $(shell command -v rt 2>/dev/null),@:,$(error the command rt of the Rattle kit is missing on PATH: make demo links the released program without it))

# The gate is what builds the program: it proves crates side by side. What it proved is not proved again (release/gate).
build: toolchain
	@release/gate
	@$(MAKE) fetch

# The program as the gate built it last.
fetch:
	@release/fetch

# The program in build/, whichever it is; where there is none, the released one.
program:
	@test -x build/pawk || release/link build/pawk

demo:
	@release/link build/pawk
	@printf '1\n2\n3\n' | build/pawk -j 2 -c 1 '{ n += $$1 } END { print n }'

test: program
	@tests/run rows programs tables devices flows threads bounds requests cookbook completions memory

prove: toolchain
	@release/gate always
	@$(MAKE) fetch
	@$(MAKE) --jobs="$$(nproc)" --output-sync=target $(BESIDE)
	@tests/run devices flows threads flood
	@release/compare

# What `make prove` tries side by side: all that measures no time.
BESIDE = beside-programs beside-memory beside-pieces beside-crates beside-shards beside-release
.PHONY: $(BESIDE)

beside-programs:
	@tests/run rows programs tables bounds requests cookbook completions

beside-memory beside-pieces beside-crates:
	@tests/run $(@:beside-%=%)

beside-shards:
	@tests/shards quick

beside-release:
	@tests/release

release: toolchain
	@release/make

static:
	@release/link build/pawk-static -static-pie -s

deb:
	@release/deb

# Where each file is put, after its name here.
FILES = \
	build/pawk:bin/pawk:755 \
	man/pawk.1:share/man/man1/pawk.1:644 \
	completions/pawk.bash:share/bash-completion/completions/pawk:644 \
	completions/_pawk:share/zsh/site-functions/_pawk:644 \
	completions/pawk.fish:share/fish/vendor_completions.d/pawk.fish:644

install: program
	@for file in $(FILES); do \
	    from=$${file%%:*}; to=$${file#*:}; \
	    install -D -m "$${to#*:}" "$$from" "$(DESTDIR)$(PREFIX)/$${to%:*}" || exit 1; \
	done
	@echo "installed below $(DESTDIR)$(PREFIX)"

uninstall:
	@for file in $(FILES); do to=$${file#*:}; rm -f "$(DESTDIR)$(PREFIX)/$${to%:*}" || exit 1; done
	@echo "removed from $(DESTDIR)$(PREFIX)"

wrong: toolchain
	tests/wrong

bench: toolchain program
	@test -e $(BENCH_DATA)/wide.txt || bench/data $(BENCH_DATA)
	@test -e $(BENCH_DATA)/log.txt || bench/log $(BENCH_DATA)
	@test -e $(BENCH_DATA)/suite/values.txt || bench/records $(BENCH_DATA)/suite
	bench/run $(BENCH_DATA)
	bench/workers $(BENCH_DATA)
	bench/expressions $(BENCH_DATA)
	@test -e $(BENCH_DATA)/paragraphs.txt || bench/words $(BENCH_DATA)
	bench/fields $(BENCH_DATA)
	bench/suite $(BENCH_DATA)/suite

engines: program
	@PAWK=$${PAWK:-build/pawk} engines/run

clean:
	rm -rf build crates/*/out $(BENCH_DATA)
