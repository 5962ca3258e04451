# Each target calls a program of this repository; README.md, Install, says more.
#
#   make                                   proves the engine and builds everything
#   make check                             the gate
#   make install PREFIX=/usr/local DESTDIR=
#   make uninstall PREFIX=/usr/local DESTDIR=
#   make bench                             measures speeds
PREFIX ?= /usr/local
DESTDIR ?=
export PREFIX DESTDIR

.PHONY: all check install uninstall bench

all:
	./covrith --version
	./runmodel models/ship-and-tug > /dev/null
	tools/sharedlib

check:
	.ci/run

install: all
	tools/install

uninstall:
	tools/install --remove

bench:
	tools/bench
