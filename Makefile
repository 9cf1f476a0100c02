# make              proves and builds jasonrun, jasonlook, explore and chart, in crates/*/out (the first time takes hours: docs/PERFORMANCE.md)
# make trial        builds them without the proofs, in minutes, for ./jasonrun, ./jasonlook, ./explore and ./chart
# make install      puts the four programs, jasonport, the manual pages, the completions, the documents, the examples and the files of editors into PREFIX
# make uninstall    removes them
# make dist         packs them, for x86-64 Linux with glibc 2.34 or later, into dist/; SHA256SUMS there has the checksum

# the many files below are made by no rule
MAKEFLAGS += --no-builtin-rules

PREFIX = $(HOME)/.local
DESTDIR =

JASONRUN = crates/jasonrun/out/jasonrun
JASONLOOK = crates/jasonlook/out/jasonlook
EXPLORE = crates/explore/out/explore
CHART = crates/chart/out/chart

to = $(DESTDIR)$(PREFIX)
bin = $(to)/bin
man = $(to)/share/man/man1
bash = $(to)/share/bash-completion/completions
zsh = $(to)/share/zsh/site-functions
fish = $(to)/share/fish/vendor_completions.d
own = $(to)/share/jasonrun
exec = $(to)/libexec/jasonrun

name := jasonrun-$(shell cat VERSION)-$(shell git describe --always --dirty --exclude '*' 2>/dev/null || echo unknown)-x86_64-linux
time := $(shell git log -1 --format=%ct 2>/dev/null || stat -c %Y VERSION)

all: rt $(JASONRUN) $(JASONLOOK) $(EXPLORE) $(CHART)

# whatever is built needs it; a program that is there, and newer than the sources, needs it no more
rt:
	@command -v rt >/dev/null || [ -z "$$($(MAKE) -s -n $(JASONRUN) $(JASONLOOK) $(EXPLORE) $(CHART))" ] || \
	    { echo 'make: rt, the command of the Rattle kit, is not in your path, and proves and builds the programs (README.md, "Run it")' >&2; exit 1; }

# `rt run` proves what is not proved, builds it and runs it. Where the text of the program is the same it builds nothing, so the file gets its time here:
# that at which the proof began.
$(JASONRUN): crates.txt $(shell find crates/*/src crates/*/specs crates/*/proofs)
	mkdir -p $(@D)
	touch $@.begun
	cd crates/jasonrun && rt run -- demo 1 >/dev/null
	touch -r $@.begun $@
	rm $@.begun

$(JASONLOOK): crates.txt $(shell find crates/*/src crates/*/specs crates/*/proofs)
	mkdir -p $(@D)
	touch $@.begun
	cd crates/jasonlook && rt run -- --version >/dev/null
	touch -r $@.begun $@
	rm $@.begun

$(EXPLORE): crates.txt $(shell find crates/*/src crates/*/specs crates/*/proofs)
	mkdir -p $(@D)
	touch $@.begun
	cd crates/explore && rt run -- --version >/dev/null
	touch -r $@.begun $@
	rm $@.begun

$(CHART): $(shell find crates/chart/src crates/chart_page/src crates/chart_page/specs crates/chart_page/proofs)
	mkdir -p $(@D)
	touch $@.begun
	cd crates/chart && rt run <stdin >/dev/null
	touch -r $@.begun $@
	rm $@.begun

trial:
	./jasonrun demo 1 >/dev/null
	./jasonlook --version
	./explore --version
	./chart --version

.PHONY: trial

install: all
	install -d "$(bin)" "$(exec)" "$(man)" "$(bash)" "$(zsh)" "$(fish)" "$(own)/docs"
	install -m 755 $(JASONLOOK) $(EXPLORE) $(CHART) "$(bin)"
	install -m 755 $(JASONRUN) "$(exec)"
	install -m 755 jasonrun "$(own)"
	ln -sfn ../share/jasonrun/jasonrun "$(bin)/jasonrun"
	install -m 644 docs/jasonrun.1 docs/jasonlook.1 docs/explore.1 docs/chart.1 "$(man)"
	install -m 644 completions/jasonrun.bash "$(bash)/jasonrun"
	install -m 644 completions/jasonlook.bash "$(bash)/jasonlook"
	install -m 644 completions/explore.bash "$(bash)/explore"
	install -m 644 completions/chart.bash "$(bash)/chart"
	install -m 644 completions/_jasonrun completions/_jasonlook completions/_explore completions/_chart "$(zsh)"
	install -m 644 completions/jasonrun.fish completions/jasonlook.fish completions/explore.fish completions/chart.fish "$(fish)"
	git describe --always --dirty --exclude '*' >"$(own)/COMMIT" 2>/dev/null || rm "$(own)/COMMIT"
	cp -r VERSION README.md CONTRIBUTING.md CHANGELOG.md LICENSE-MIT LICENSE-APACHE editors "$(own)"
	find examples -type f ! -path '*/out/*' -exec cp --parents -t "$(own)" {} +
	cp -r docs/*.md docs/*.1 docs/help.sh docs/pictures "$(own)/docs"
	install -m 755 jasonport "$(bin)"
	install -m 644 docs/jasonport.1 "$(man)"
	install -m 644 completions/jasonport.bash "$(bash)/jasonport"
	install -m 644 completions/_jasonport "$(zsh)"
	install -m 644 completions/jasonport.fish "$(fish)"
	find companions -name '*.py' ! -path '*/tests/*' -exec cp --parents -t "$(own)" {} +
	chmod -R u=rwX,go=rX "$(own)" "$(exec)"

uninstall:
	rm -f "$(bin)/jasonrun" "$(bin)/jasonlook" "$(bin)/explore" "$(bin)/chart"
	rm -f "$(man)/jasonrun.1" "$(man)/jasonlook.1" "$(man)/explore.1" "$(man)/chart.1"
	rm -f "$(bash)/jasonrun" "$(zsh)/_jasonrun" "$(fish)/jasonrun.fish" "$(bash)/jasonlook" "$(zsh)/_jasonlook" "$(fish)/jasonlook.fish"
	rm -f "$(bash)/explore" "$(zsh)/_explore" "$(fish)/explore.fish" "$(bash)/chart" "$(zsh)/_chart" "$(fish)/chart.fish"
	rm -f "$(bin)/jasonport" "$(man)/jasonport.1" "$(bash)/jasonport" "$(zsh)/_jasonport" "$(fish)/jasonport.fish"
	rm -rf "$(own)" "$(exec)"

# The programs are stripped, so their checksums are others than those of crates/*/out.
dist: all
	rm -rf dist
	$(MAKE) --no-print-directory install DESTDIR=dist PREFIX=/$(name)
	strip dist/$(name)/libexec/jasonrun/jasonrun dist/$(name)/bin/jasonlook dist/$(name)/bin/explore dist/$(name)/bin/chart
	cd dist && tar -c --sort=name --owner=0 --group=0 --numeric-owner --mode=u=rwX,go=rX --mtime=@$(time) $(name) | gzip -n >$(name).tar.gz
	rm -r dist/$(name)
	cd dist && sha256sum $(name).tar.gz >SHA256SUMS

.PHONY: all rt install uninstall dist
