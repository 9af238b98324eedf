PREFIX ?= /usr/local

.PHONY: run prove c test install aarch64 windows web dist

# Shows what both programs print: the proved ones where they are built, otherwise the sources without proof.
run:
	@tests/run

# Proves every crate, and builds both programs.
prove:
	@tests/needs python3 kit
	cd crates/pdb_list && rt run > /dev/null
	cd crates/pdb_tool && rt run -- help > /dev/null

# Proves and builds the library for C, Python, Rust and Go into c/out.
c:
	@tests/needs python3 kit cc binutils
	PREFIX="$(PREFIX)" c/build

# The gate, and then the tests of the proved programs and of the C library.
test:
	@tests/all

# Installs what was built; proves and builds nothing.
install:
	@PREFIX="$(PREFIX)" DESTDIR="$(DESTDIR)" package/install

# Proves and builds the library and the programs for aarch64 Linux, after make prove and make c.
aarch64:
	@ports/aarch64/build

# Builds the programs and the library for x86-64 Windows of what make prove and make c proved: ports/out/windows, and a zip.
windows:
	@ports/windows/build

# Builds the library for the web of what make c proved: ports/out/web, and a zip.
web:
	@ports/web/build

# Makes dist/: a tarball and a Debian package of the programs and the library, and the ports whose compilers are installed.
dist: prove c
	@package/ports
	@package/build
