# make install [PREFIX=/usr/local] [TARGET=cortex-m4] [DESTDIR=]: the library for C and C++, with what pkg-config and CMake look for. TARGET is a target of
# ./desk build, or else this machine. What is installed may be moved as a whole.
PREFIX ?= /usr/local
TARGET ?= $(subst x86_64,x86-64,$(shell uname -m))
version := $(shell sed -n 's/^.define MCS_VERSION \([0-9][0-9]*\)u$$/\1/p' include/mcs.h)
to := $(DESTDIR)$(abspath $(PREFIX))
ours := target/lib/$(TARGET)

.PHONY: help install
help:
	@sed -n 's/^# \(make [^:]*\):.*/\1/p' Makefile

install:
	$(if $(version),,$(error include/mcs.h has no line with MCS_VERSION))
	./desk build $(TARGET)
	install -d $(to)/include $(to)/lib/pkgconfig $(to)/lib/cmake/mcs
	install -m 644 $(ours)/include/*.h $(to)/include
	install -m 644 $(ours)/libmcs.a $(to)/lib
	sed 's/@VERSION@/$(version)/' packaging/mcs.pc.in >$(to)/lib/pkgconfig/mcs.pc
	sed 's/@VERSION@/$(version)/' packaging/mcsConfigVersion.cmake.in >$(to)/lib/cmake/mcs/mcsConfigVersion.cmake
	install -m 644 packaging/mcsConfig.cmake $(to)/lib/cmake/mcs
