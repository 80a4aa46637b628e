# Builds and installs aurora. What is built without `make proved` is not proved.
#
#     make                        the program, optimised, without proving it: some minutes
#     make proved                 the gate: everything proved and tested, and the program that was proved: README says how long
#     make install PREFIX=..      program, manual page, tools, completion; the proved program where there is one
#     make uninstall PREFIX=..    takes away what `make install` put there
#     make deb                    a Debian package, by dpkg-deb
#
# `make proved && make install` installs what was proved. DESTDIR is put before PREFIX where a package is made; PROGRAM names another
# program to install.
PREFIX ?= /usr/local
DESTDIR ?=
# Both are taken letter by letter: what stands in them is no word of make's or of the shell's.
override PREFIX := $(value PREFIX)
override DESTDIR := $(value DESTDIR)

proved_program = crates/aurora/out/aurora
quick_program = out/aurora
proved_keys = crates/aurora_keys/out/aurora_keys
quick_keys = out/aurora_keys
proved_slices = crates/aurora_slices/out/aurora_slices
quick_slices = out/aurora_slices
# The proved program where the digests of the gate's record say that it is there.
ifeq ($(shell tools/proved $(proved_program) $(proved_keys) $(proved_slices) 2>/dev/null),proved)
PROGRAM ?= $(proved_program)
KEYS ?= $(proved_keys)
SLICES ?= $(proved_slices)
endif
PROGRAM ?= $(quick_program)
# The programs that tell which outputs parts by a key make, and how far slices of time reach, where they are there.
KEYS ?= $(quick_keys)
SLICES ?= $(quick_slices)
export PREFIX DESTDIR PROGRAM KEYS SLICES

version := $(shell git describe --tags --always --dirty 2>/dev/null | sed -n 's/^v\{0,1\}\([0-9].*\..*\)/\1/p')
ifeq ($(version),)
version := $(shell cat VERSION)+$(shell git rev-list --count HEAD 2>/dev/null || echo 0)
endif
architecture := $(shell dpkg --print-architecture 2>/dev/null || echo amd64)

.PHONY: all proved install uninstall deb clean

all: $(quick_program) $(quick_keys) $(quick_slices)

# The crates' files say whether it is to be built again.
$(quick_program): $(shell find crates -name out -prune -o -name '*.rt' -print) crates.txt tools/build
	mkdir -p out
	tools/build $@

$(quick_keys): $(shell find crates -name out -prune -o -name '*.rt' -print) crates.txt tools/build
	mkdir -p out
	tools/build $@ aurora_keys

$(quick_slices): $(shell find crates -name out -prune -o -name '*.rt' -print) crates.txt tools/build
	mkdir -p out
	tools/build $@ aurora_slices

proved:
	.ci/run
	tools/proved $(proved_program) $(proved_keys) $(proved_slices)

# A program that is named and isn't one to be built is there, or isn't.
ifeq ($(PROGRAM),$(quick_program))
install deb: $(quick_program)
endif

install:
	tools/install "$$PROGRAM" "$(version)" "$$KEYS" "$$SLICES"

uninstall:
	tools/install --remove

deb:
	mkdir -p out
	tools/package "$$PROGRAM" "$(version)" "$(architecture)" "out/aurora_$(version)_$(architecture).deb" "$$KEYS" "$$SLICES"

clean:
	rm -rf out
