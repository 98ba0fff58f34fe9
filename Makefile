# Proves and builds the program, installs it, and makes a Debian package and a release of it.
#
#     make                        proves and builds the program by ./build, if a source is newer
#     make install PREFIX=/usr    the program, its manual and completion, the pages and the examples, and
#                                 the licences of what is linked in
#     make uninstall PREFIX=/usr  takes them away again
#     make deb                    out/irig_VERSION_ARCHITECTURE.deb, by Debian's package dpkg-dev
#     make release                out/release, with libraries for all processors; proves what is missing
#     make reproduce              makes it again in a clone elsewhere, with all proofs, and compares
#
# DESTDIR stands before PREFIX where files are put, and in no file.

PREFIX = /usr/local
DESTDIR =

to = $(DESTDIR)$(PREFIX)
program = crates/irig_main/out/irig_main
for_aarch64 = crates/irig_main/out/aarch64-unknown-linux-gnu/irig_main
sources = crates.txt $(shell find crates/*/src crates/*/specs crates/*/proofs 2> /dev/null)
manual = share/man/man1/irig.1
completion = share/bash-completion/completions/irig
doc = share/doc/irig

of_page = $(wildcard web/*.* tools/*.py tools/parts/*.* python/irig/*.py docs/*.md c/layout.txt examples/*.*)

.PHONY: all install uninstall deb release reproduce

all: $(program) out/THIRD_PARTY
	@$(program) --version

out/THIRD_PARTY: packaging/notices packaging/THIRD_PARTY packaging/third_party crates.txt
	@mkdir -p out
	@packaging/notices texts > $@.new
	@mv $@.new $@

$(program): $(sources)
	./build > /dev/null

install: all
	install -D -m 755 $(program) "$(to)/bin/irig"
	install -D -m 644 docs/irig.1 "$(to)/$(manual)"
	install -D -m 644 docs/irig.bash "$(to)/$(completion)"
	find README.md CHANGELOG.md LICENSE-* docs examples -type f ! -name 'irig.*' \
		-exec install -D -m 644 {} "$(to)/$(doc)/{}" \;
	install -m 644 out/THIRD_PARTY "$(to)/$(doc)"

uninstall:
	rm -f "$(to)/bin/irig" "$(to)/$(manual)" "$(to)/$(completion)"
	rm -rf "$(to)/$(doc)"

deb: all
	packaging/deb

release: all
	packaging/release

$(for_aarch64): $(sources) toolchain/system.c c/irig_heap.c
	./build --target aarch64-unknown-linux-gnu irig_main > /dev/null

reproduce: release
	there=$$(mktemp -d) && trap 'rm -rf "$$there"' EXIT && git clone -q . "$$there/irig" && \
		$(MAKE) -C "$$there/irig" release && diff -r out/release "$$there/irig/out/release"

out/irig_main.ll: $(sources) toolchain/llvm_module
	toolchain/llvm_module irig_main $@

out/windows/irig.exe: out/irig_main.ll toolchain/for_windows toolchain/windows.c c/irig_heap.c
	toolchain/for_windows $@

web/out/irig.html: web/out/c_scenario.wasm $(of_page)
	web/page.py web/out

web/out/c_scenario.wasm: $(sources) $(wildcard toolchain/*)
	web/build
