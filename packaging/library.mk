# The shared library, and what `make install` installs for C and C++: headers, archive, shared library, files for pkg-config and CMake, and the
# manual pages of the calls, and what these point to. The Makefile includes it, and has the goals.

version := $(shell sed -n 's/^\#define VCUBE_VERSION "\(.*\)"$$/\1/p' include/vcube.h)
major := $(firstword $(subst ., ,$(version)))
to = $(DESTDIR)$(if $(filter /%,$(PREFIX)),,$(error PREFIX is a path from the root on, not '$(PREFIX)'))$(PREFIX)
# Where libraries go below PREFIX. Debian's packages have lib/x86_64-linux-gnu.
LIBDIR ?= lib
from_cmake := $(shell sed 's|[^/]\+|..|g' <<<'$(LIBDIR)/cmake/vcube')

shared := target/shared/libvcube.so.$(version)

# Which archive it was made of: VCUBE_LIB_DIR may name another one.
target/shared/made-of: FORCE
	@mkdir -p $(@D)
	[[ '$(abspath $(archive))' == "$$(cat $@ 2>/dev/null)" ]] || echo '$(abspath $(archive))' >$@

.PHONY: shared

# The archive is position independent. Only the names of the version script are exported, and each of them must be there. Copies and no links, which
# the gate takes nowhere.
$(shared): $(archive) packaging/libvcube.map target/shared/made-of
	@$(CC) -shared -o $@ -Wl,-soname,libvcube.so.$(major) -Wl,--version-script=packaging/libvcube.map -Wl,--no-undefined-version \
	    -Wl,-z,text,-z,defs,-z,relro,-z,now,-z,noexecstack $(LDFLAGS) -Wl,--whole-archive $(archive) -Wl,--no-whole-archive
	cp $@ $(@D)/libvcube.so.$(major)
	cp $@ $(@D)/libvcube.so

filled = sed 's|@PREFIX@|$(PREFIX)|; s|@LIBDIR@|$(LIBDIR)|; s|@VERSION@|$(version)|g; s|@MAJOR@|$(major)|g; s|@UP@|$(from_cmake)|'

# The names of a manual page.
names_of = sed -n '/^\.SH NAME$$/,/\\-/{/^\.SH/d; s/ *\\-.*//; s/,/ /g; p}'

# What the manual pages of calls and programs point to.
rules := docs/RULES.md docs/PANEL.md CHANGELOG.md
define install_rules
install -D -m 644 -t "$(to)/share/man/man7" man/vcube.7
install -D -m 644 -t "$(to)/$(DOCDIR)" $(rules)
endef

define install_library
install -D -m 644 -t "$(to)/include" include/vcube.h include/vcube_plant.h
install -D -m 644 -t "$(to)/$(LIBDIR)" "$(archive)" "$(shared)"
ln -sf libvcube.so.$(version) "$(to)/$(LIBDIR)/libvcube.so.$(major)"
ln -sf libvcube.so.$(version) "$(to)/$(LIBDIR)/libvcube.so"
mkdir -p "$(to)/$(LIBDIR)/pkgconfig" "$(to)/$(LIBDIR)/cmake/vcube"
for name in vcube vcube-shared; do $(filled) bindings/c/$$name.pc.in >"$(to)/$(LIBDIR)/pkgconfig/$$name.pc"; done
for name in vcube-config vcube-config-version; do $(filled) packaging/cmake/$$name.cmake.in >"$(to)/$(LIBDIR)/cmake/vcube/$$name.cmake"; done
$(install_rules)
for page in man/vcube*.3; do
    install -D -m 644 -t "$(to)/share/man/man3" "$$page"
    for name in $$($(names_of) "$$page"); do
        [[ -e man/$$name.3 ]] || echo ".so man3/$${page##*/}" >"$(to)/share/man/man3/$$name.3"
    done
done
endef

define uninstall_library
rm -f "$(to)/include/vcube.h" "$(to)/include/vcube_plant.h" "$(to)/$(LIBDIR)/libvcube.a" "$(to)/$(LIBDIR)"/libvcube.so{,.$(major),.$(version)}
rm -f "$(to)/$(LIBDIR)"/pkgconfig/vcube{,-shared}.pc "$(to)/$(LIBDIR)"/cmake/vcube/vcube-config{,-version}.cmake
if [[ -d "$(to)/$(LIBDIR)/cmake/vcube" ]]; then rmdir --ignore-fail-on-non-empty "$(to)/$(LIBDIR)/cmake/vcube"; fi
for page in man/vcube*.3; do
    rm -f "$(to)/share/man/$${page/#man/man3}"
    for name in $$($(names_of) "$$page"); do rm -f "$(to)/share/man/man3/$$name.3"; done
done
rm -f "$(to)/share/man/man7/vcube.7" $(foreach page,$(rules),"$(to)/$(DOCDIR)/$(notdir $(page))")
endef
