# SPDX-License-Identifier: Apache-2.0
#
# The second library, npm_calls, which the Makefile includes. Nothing of it is built for node_semver.
#
#     make calls                                build/libnpm_calls.a and build/libnpm_calls.so.1.0.0
#     make check-calls                          builds and runs its tests against a copy installed in build/stage-calls
#     make install-calls PREFIX= DESTDIR=       installs the libraries, the header, npm_calls.pc, the files of CMake and the licence
#     make uninstall-calls PREFIX= DESTDIR=     removes them

CALLS_VERSION := $(shell sed -n 's/^\#define NPM_CALLS_LIBRARY_VERSION "\(.*\)"/\1/p' include/npm_calls.h)
CALLS_STATIC := $(BUILD)/libnpm_calls.a
CALLS_SHARED := $(BUILD)/libnpm_calls.so.$(CALLS_VERSION)
CALLS_SONAME := libnpm_calls.so.$(firstword $(subst ., ,$(CALLS_VERSION)))
CALLS_CMAKEDIR ?= $(LIBDIR)/cmake/npm_calls
CALLS_DOCDIR ?= $(PREFIX)/share/doc/npm_calls
export CALLS_CMAKEDIR CALLS_DOCDIR
CALLS_PROVED := $(ROOT)/crates/npm_c/out/libnpm_c.a

.PHONY: calls install-calls uninstall-calls check-calls

calls: $(CALLS_STATIC) $(CALLS_SHARED) $(BUILD)/$(CALLS_SONAME) $(BUILD)/libnpm_calls.so

$(CALLS_PROVED): $(call SOURCES_OF,npm_c)
	$(NEEDS_RT)
	cd $(ROOT)/crates/npm_c && rt lib
	touch $@

$(BUILD)/calls/%.o: src/calls/%.c include/npm_calls.h
	mkdir -p $(BUILD)/calls
	$(CC) $(WARNINGS) $(CFLAGS) -fPIC -Iinclude -c -o $@ $<

$(BUILD)/calls/libc_part.a: $(CALLS_PROVED)
	$(NEEDS_RT)
	mkdir -p $(BUILD)/calls
	cp $(LIBC_PART) $@

# The proved export gets the name that src/calls/npm_calls.c calls.
$(BUILD)/calls/proved.a: $(CALLS_PROVED)
	mkdir -p $(BUILD)/calls
	$(OBJCOPY) --redefine-sym npm_call=proved_call $< $@

$(BUILD)/npm_calls.o: $(BUILD)/calls/proved.a $(BUILD)/calls/libc_part.a $(BUILD)/calls/npm_calls.o
	$(CC) -r -nostdlib -o $@ -Wl,--whole-archive $^ -Wl,--no-whole-archive
	$(OBJCOPY) --wildcard --keep-global-symbol=npm_call --keep-global-symbol='npm_calls_*' $@

$(CALLS_STATIC): $(BUILD)/npm_calls.o
	rm -f $@
	$(AR) rcs $@ $<

$(CALLS_SHARED): $(BUILD)/npm_calls.o npm_calls.map
	$(CC) -shared -o $@ $< -Wl,-soname,$(CALLS_SONAME) -Wl,--version-script=npm_calls.map $(LDFLAGS)

$(BUILD)/$(CALLS_SONAME) $(BUILD)/libnpm_calls.so: $(CALLS_SHARED)
	ln -sf $(notdir $(CALLS_SHARED)) $@

install-calls: absolute calls
	$(INSTALL) -d "$$DESTDIR$$LIBDIR" "$$DESTDIR$$INCLUDEDIR" "$$DESTDIR$$PKGCONFIGDIR" "$$DESTDIR$$CALLS_CMAKEDIR" "$$DESTDIR$$CALLS_DOCDIR"
	$(INSTALL) -m 644 include/npm_calls.h "$$DESTDIR$$INCLUDEDIR/npm_calls.h"
	$(INSTALL) -m 644 $(CALLS_STATIC) "$$DESTDIR$$LIBDIR/libnpm_calls.a"
	$(INSTALL) -m 755 $(CALLS_SHARED) "$$DESTDIR$$LIBDIR/libnpm_calls.so.$(CALLS_VERSION)"
	ln -sf libnpm_calls.so.$(CALLS_VERSION) "$$DESTDIR$$LIBDIR/$(CALLS_SONAME)"
	ln -sf $(CALLS_SONAME) "$$DESTDIR$$LIBDIR/libnpm_calls.so"
	$(INSTALL) -m 644 $(ROOT)/LICENSE "$$DESTDIR$$CALLS_DOCDIR/LICENSE"
	{ printf 'prefix=%s\nlibdir=%s\nincludedir=%s\n' "$$PREFIX" "$$LIBDIR" "$$INCLUDEDIR"; \
	    sed 's/@VERSION@/$(CALLS_VERSION)/' npm_calls.pc.in; } > "$$DESTDIR$$PKGCONFIGDIR/npm_calls.pc"
	chmod 644 "$$DESTDIR$$PKGCONFIGDIR/npm_calls.pc"
	name=npm_calls version=$(CALLS_VERSION) folder="$$CALLS_CMAKEDIR"; $(CMAKE_FILES)

uninstall-calls: absolute
	rm -f "$$DESTDIR$$INCLUDEDIR/npm_calls.h" "$$DESTDIR$$LIBDIR/libnpm_calls.a" "$$DESTDIR$$LIBDIR/libnpm_calls.so"
	rm -f "$$DESTDIR$$LIBDIR/$(CALLS_SONAME)" "$$DESTDIR$$LIBDIR/libnpm_calls.so.$(CALLS_VERSION)"
	rm -f "$$DESTDIR$$PKGCONFIGDIR/npm_calls.pc" "$$DESTDIR$$CALLS_DOCDIR/LICENSE"
	rm -f "$$DESTDIR$$CALLS_CMAKEDIR/npm_calls-config.cmake" "$$DESTDIR$$CALLS_CMAKEDIR/npm_calls-config-version.cmake"
	if [ -d "$$DESTDIR$$CALLS_CMAKEDIR" ]; then rmdir --ignore-fail-on-non-empty "$$DESTDIR$$CALLS_CMAKEDIR"; fi
	if [ -d "$$DESTDIR$$CALLS_DOCDIR" ]; then rmdir --ignore-fail-on-non-empty "$$DESTDIR$$CALLS_DOCDIR"; fi

# Installs into build/stage-calls, and builds and runs the tests against that copy.
check-calls: calls
	rm -rf $(BUILD)/stage-calls
	stage="$$PWD/$(BUILD)/stage-calls"; $(MAKE) install-calls PREFIX="$$stage" DESTDIR= LIBDIR="$$stage/lib" \
	    INCLUDEDIR="$$stage/include" PKGCONFIGDIR="$$stage/lib/pkgconfig" CALLS_CMAKEDIR="$$stage/lib/cmake/npm_calls" \
	    CALLS_DOCDIR="$$stage/share/doc/npm_calls" > /dev/null
	CC="$(CC)" PKG_CONFIG="$(PKG_CONFIG)" tests/calls/run $(BUILD)/stage-calls
