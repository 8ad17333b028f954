# make                              proves and builds the program where it isn't
# make install PREFIX=/usr/local    puts the program, the scripts and the man pages into their places
# make dist, make deb               a tar, a Debian package, which others install without proving anything
# make ci                           the gate
.PHONY: all install dist deb ci
all:
	./sec graph examples/gates/a.blif
install:
	./install "$(or $(PREFIX),/usr/local)"
dist:
	./dist
deb:
	./dist --deb
ci:
	.ci/run
