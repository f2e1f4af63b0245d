# The tool, for those who have the proved archive (`tool/archive`): make, make install, make uninstall, make test. CC, CFLAGS and LDFLAGS go to tool/build,
# and DESTDIR, PREFIX and LIBDIR to tool/install, as they are: make hands on what stands on its command line.
.PHONY: all install uninstall test
all:
	tool/build
install:
	tool/install
uninstall:
	tool/install --remove
test:
	tool/test
