# Thin targets over the kit's command rt.
YSE = ./yse
PREFIX = /usr/local
DIST = yse-dist

.PHONY: build run try test examples folder install dist

# Proves every crate that the program stands on, as many at once as there are processors, and leaves the executable at
# ./yse.
build:
	tools/prove $(YSE)
	@echo "the executable is $(YSE)"

# Simulates c17 and prints its trace.
run: build
	$(YSE) run examples/c17.bench examples/c17.stim

# Simulates c17 by the kit's interpreter, before any proof. It proves nothing.
try:
	cd crates/yse && rt try -- run data/c17.bench data/c17.stim

# The gate: what the documents list, every proof, every edit that must fail, every test, and the program's stored run.
test:
	.ci/run

# Simulates each example, compares its trace with the stored one, and tries the scripts among the examples.
examples: build
	examples/check $(YSE)

# The executable with its manual page and completions, the documents and the examples, in one folder.
folder: build
	rm -rf $(DIST) && mkdir $(DIST)
	cp $(YSE) $(DIST)/yse
	tools/man-page $(YSE) >$(DIST)/yse.1
	tools/completions $(YSE) >$(DIST)/yse.bash
	cp -R README.md docs examples tools/install $(DIST)

# Puts the executable, its manual page and its completions into PREFIX.
install: folder
	$(DIST)/install $(DESTDIR)$(PREFIX)
	rm -rf $(DIST)

# Packs that folder into one archive, which needs no kit: its script `install` does what `make install` does.
dist: folder
	tar -czf $(DIST).tar.gz $(DIST)
	rm -rf $(DIST)
	@echo "the archive is $(DIST).tar.gz"
