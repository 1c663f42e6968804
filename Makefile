# make            builds the program and leaves it as ./ttx
# make test       the gate: every proof from nothing, every test, and the program over real files
# make try        the main job on a shipped example without any proof, in a few minutes
# make demo       the main job on a shipped example
# make install    puts program, man page and completions under PREFIX (/usr/local)
# make dist       dist/ttx-VERSION-x86_64-linux.tar.gz: program, man page, completions and documents, and its checksum
# make bench      measures the program beside plain tools, as rows of docs/MEASURED.md
# make edits      tries by itself each mutant of the must-fail edits that tools/edits.tsv does not have as it stands, and records the results
# make compare    compares what certify --late says with what libzvbi's decoder shows, where there is one, also under damaged receptions

BUILT = crates/ttx/out/ttx
VERSION = 1.0.0
PACKED = ttx-$(VERSION)-x86_64-linux
PREFIX = /usr/local

# how many crates and mutants are proved at a time; each takes 1 to 6 GB, less than rt assumes when it is not told
JOBS = 4

# rt with less work done twice and a line in the log for each mutant (its head says more); with RT=rt the gate runs the kit's rt as it is, and takes longer
RT = python3 tools/quick_rt.py

# scripts that run the built program, the longest first
SCRIPTS = $(addprefix tests/, refused_calls.py refute.py memory.sh cases.py json_lines.py shipped.sh large.py planned.py waits.py keyed.py spliced.py schedules.py sent.py aired.py monitored.py recognised.py \
	spread.py pictured.py pages.py reported.py checked.py packed.sh extracted.py authors.py documents.py refused_texts.py characters.py)

.PHONY: all ttx try test demo bench edits compare helpers install dist $(SCRIPTS)

all: ttx

ttx:
	python3 tools/progress.py out/make.log $(RT) all check --jobs $(JOBS)
	cd crates/ttx && $(RT:tools/%=../../tools/%) run < stdin > /dev/null
	cp $(BUILT) ttx

test:
	RT_JOBS=$(JOBS) python3 tools/progress.py out/test.log $(RT) ci
	python3 tools/refusals.py out/test.log
	python3 tools/edits.py --jobs $(JOBS) --log out/test.log
	$(MAKE) --no-print-directory --jobs $$(nproc) --output-sync $(SCRIPTS)

$(filter %.py,$(SCRIPTS)):
	python3 $@ $(BUILT) $(CASES)

$(filter %.sh,$(SCRIPTS)):
	sh $@ $(BUILT)

tests/refute.py: CASES = 300

try:
	sh demo/try.sh

demo: ttx
	sh demo/demo.sh ./ttx

bench: ttx
	python3 bench/table.py ./ttx
	python3 bench/air.py ./ttx

edits:
	python3 tools/edits.py --jobs $(JOBS)

compare: ttx
	python3 bench/late.py ./ttx
	python3 bench/rows.py ./ttx
	python3 bench/changed.py ./ttx

helpers: ttx
	python3 tools/helpers.py ./ttx out/helpers

# puts program, man page and completions under a folder
define place
	install -D ttx $(1)/bin/ttx
	install -D -m 644 out/helpers/ttx.1 $(1)/share/man/man1/ttx.1
	install -D -m 644 out/helpers/ttx.bash $(1)/share/bash-completion/completions/ttx
	install -D -m 644 out/helpers/_ttx $(1)/share/zsh/site-functions/_ttx
	install -D -m 644 out/helpers/ttx.fish $(1)/share/fish/vendor_completions.d/ttx.fish
endef

install: helpers
	$(call place,$(DESTDIR)$(PREFIX))

dist: helpers
	rm -rf dist/$(PACKED)
	$(call place,dist/$(PACKED))
	cp -r README.md LICENSE docs examples dist/$(PACKED)
	tar -C dist --sort=name --owner=0 --group=0 --numeric-owner --mtime=@0 -czf dist/$(PACKED).tar.gz $(PACKED)
	cd dist && sha256sum $(PACKED).tar.gz > $(PACKED).tar.gz.sha256
