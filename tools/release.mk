# The targets of an unpacked release.

PREFIX ?= /usr/local

.DEFAULT_GOAL := help
.PHONY: help run install uninstall

help:
	@echo 'make run                      prints the file in samples/hello.v6'
	@echo 'make install PREFIX=FOLDER    copies all to FOLDER/bin, include, lib and share, or to those of /usr/local; DESTDIR=ROOT puts FOLDER below ROOT'
	@echo 'make uninstall PREFIX=FOLDER  removes what was installed there'

run:
	bin/unixvol cat 6 samples/hello.v6 1

install:
	tools/place.sh "$(PREFIX)" .

uninstall:
	tools/remove.sh "$(PREFIX)"
