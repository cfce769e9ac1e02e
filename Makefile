# The commands of this repository. `make` alone lists them.
.PHONY: help run lib test check profile wrong try bench install install-lib uninstall
.DEFAULT_GOAL := help

# Where `make install` puts things.
PREFIX ?= /usr/local
BIN = $(DESTDIR)$(PREFIX)/bin
SHARE = $(DESTDIR)$(PREFIX)/share
LIB = $(DESTDIR)$(PREFIX)/lib

# What `make run` and `make lib` build for: `here` is x86-64-v3 if this machine has all of it, and else x86-64-v2.
run lib: CPU ?= here

# The first word of each line is a target below; a word in capitals after it is set on the command line.
help:
	@echo 'make run                 prove the program and the crates below it, and build ./tinkey'
	@echo 'make run CPU=x86-64-v2   the same, for a program that also runs on older machines'
	@echo 'make lib                 prove the functions for C, and build the library into lib/'
	@echo 'make test                the merge gate: every proof, test, planted bug and program'
	@echo 'make check CRATE=NAME    prove one crate, over what earlier checks kept'
	@echo 'make profile CRATE=NAME  prove one crate, and name each function as its proof ends'
	@echo 'make wrong               try the planted bugs that the gate leaves out; CRATE=NAME for one crate'
	@echo 'make try                 list an example keyset in about a minute, with nothing proved'
	@echo 'make bench               time the kernels and the program beside OpenSSL'
	@echo 'make install             copy ./tinkey, its manual page and completions under PREFIX=/usr/local'
	@echo 'make install-lib         copy the library, its header, manual page and packages'
	@echo 'make uninstall           remove what these two copied'

# Proves the program and the crates below it side by side, leaves it as ./tinkey, and lists the example's keyset.
run:
	@tools/build tinkey $(CPU)
	@cp crates/tinkey/out/tinkey tinkey
	@./tinkey list-keyset --in-format binary < examples/aes128-gcm.binary

# Proves the functions for C, and builds lib/libtinkey.a, lib/libtinkey.so.0 and lib/tinkey.pc of them and c/tinkey.c.
lib:
	@tools/build tinkey_c $(CPU)
	@tools/library_build $(CPU) crates/tinkey_c/out/libtinkey_c.a

# The merge gate: every proof, must-fail edit, test and program.
test:
	rt ci

# Proves one crate.
check:
	@test -n "$(CRATE)" -a -d "crates/$(CRATE)" || { echo "CRATE=NAME names a crate of crates/" >&2; exit 1; }
	@cd crates/$(CRATE) && rt check

# Proves one crate and names each function as its proof ends, so that slow ones show.
profile:
	@test -n "$(CRATE)" -a -d "crates/$(CRATE)" || { echo "CRATE=NAME names a crate of crates/" >&2; exit 1; }
	@cd crates/$(CRATE) && rt check --progress

# Tries the planted bugs outside the gate: each must be refused.
wrong:
	@tools/wrong $(CRATE)

# The same listing as `make run`, with nothing proved.
try:
	@echo "nothing is proved in this run" >&2
	@cd crates/tinkey && rt try -- list-keyset --in-format binary \
	    < ../../examples/aes128-gcm.binary

# Prints a table of the kernels' and the program's times.
bench:
	@tools/bench

# Copies what `make run` left.
install:
	@test -x tinkey || { echo "make run builds ./tinkey first" >&2; exit 1; }
	install -D -m 755 tinkey $(BIN)/tinkey
	install -D -m 644 docs/tinkey.1 $(SHARE)/man/man1/tinkey.1
	install -D -m 644 completions/tinkey.bash $(SHARE)/bash-completion/completions/tinkey
	install -D -m 644 completions/_tinkey $(SHARE)/zsh/site-functions/_tinkey
	install -D -m 644 completions/tinkey.fish $(SHARE)/fish/vendor_completions.d/tinkey.fish

# Copies what `make lib` left.
install-lib:
	@test -e lib/libtinkey.a || { echo "make lib builds lib/ first" >&2; exit 1; }
	install -D -m 644 include/tinkey.h $(DESTDIR)$(PREFIX)/include/tinkey.h
	install -D -m 644 lib/libtinkey.a $(LIB)/libtinkey.a
	install -D -m 755 lib/libtinkey.so.0 $(LIB)/libtinkey.so.0
	ln -sf libtinkey.so.0 $(LIB)/libtinkey.so
	install -d $(LIB)/pkgconfig
	sed 's|^prefix=.*|prefix=$(PREFIX)|' lib/tinkey.pc > $(LIB)/pkgconfig/tinkey.pc
	install -D -m 644 docs/tinkey.3 $(SHARE)/man/man3/tinkey.3
	install -D -m 644 python/tinkey.py $(SHARE)/tinkey/python/tinkey.py
	install -D -m 644 -t $(SHARE)/tinkey/go go/go.mod go/tinkey.go go/streaming.go
	install -D -m 644 -t $(SHARE)/tinkey/rust rust/Cargo.toml rust/build.rs
	install -D -m 644 -t $(SHARE)/tinkey/rust/src rust/src/lib.rs rust/src/streaming.rs

# Removes the same files again.
uninstall:
	rm -f $(DESTDIR)$(PREFIX)/include/tinkey.h $(LIB)/libtinkey.a $(LIB)/libtinkey.so.0 $(LIB)/libtinkey.so \
	    $(LIB)/pkgconfig/tinkey.pc $(SHARE)/man/man3/tinkey.3 $(SHARE)/tinkey/python/tinkey.py \
	    $(SHARE)/tinkey/go/go.mod $(SHARE)/tinkey/go/tinkey.go $(SHARE)/tinkey/go/streaming.go \
	    $(SHARE)/tinkey/rust/Cargo.toml $(SHARE)/tinkey/rust/build.rs $(SHARE)/tinkey/rust/src/lib.rs \
	    $(SHARE)/tinkey/rust/src/streaming.rs
	@rmdir $(SHARE)/tinkey/python $(SHARE)/tinkey/go $(SHARE)/tinkey/rust/src $(SHARE)/tinkey/rust $(SHARE)/tinkey \
	    2> /dev/null || true
	rm -f $(BIN)/tinkey $(SHARE)/man/man1/tinkey.1 \
	    $(SHARE)/bash-completion/completions/tinkey $(SHARE)/zsh/site-functions/_tinkey \
	    $(SHARE)/fish/vendor_completions.d/tinkey.fish
