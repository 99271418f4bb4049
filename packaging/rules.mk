# debian/rules, called by scripts/package, which sets PROGRAM and what is said of it.

# There are no packages of debugging symbols.
export DEB_CFLAGS_MAINT_STRIP = -g
export DEB_BUILD_MAINT_OPTIONS = hardening=+bindnow
FLAGS = $(shell dpkg-buildflags --get CFLAGS) $(shell dpkg-buildflags --get CPPFLAGS) $(shell dpkg-buildflags --get LDFLAGS)
MULTIARCH = $(shell dpkg-architecture -qDEB_HOST_MULTIARCH)

MADE  = debian/made
C     = clients/c
UNITS = $(notdir $(wildcard packaging/units/*.service))
WORDS_OF = PYTHONPATH=clients/python/src python3 -B

%:
	dh $@ --buildsystem=pybuild --sourcedirectory=clients/python --with python3,installsysusers

override_dh_auto_build: c servers units pages
	dh_auto_build

c:
	$(MAKE) -C $(C) CFLAGS="$(FLAGS)" pagelog_vfs.so out/pagelog_preload.so out/libpagelog.a

servers:
	$(MAKE) -C clients/pages CFLAGS="$(FLAGS)" BUILT_FROM='commit $(COMMIT)'

units:
	mkdir -p $(MADE)
	for unit in $(UNITS); do { cat packaging/units/limits.conf; echo; cat packaging/units/$$unit; } > $(MADE)/$$unit; done
	cp packaging/units/*.socket $(MADE)
	install $(PROGRAM) $(MADE)/pagelog
	sed 's/@RELEASE@/$(RELEASE)/; s/@MULTIARCH@/$(MULTIARCH)/' packaging/pagelog.pc.in > $(MADE)/pagelog.pc

pages: units
	sed -e '1s/.*/# NAME\n\npagelog - log and page service for databases\n\n# DESCRIPTION/' -e 's/^##/#/' -e '/^`scripts/d' docs/PAGELOG.md | \
	    lowdown -s -t man --nroff-nolinks -M title=pagelog -M section=1 -M source="pagelog $(RELEASE)" > $(MADE)/pagelog.1
	sed -e '1s/.*/# NAME\n\npagelog-pages - keeps the pages of a named database; run by pagelogctl pages\n\n# DESCRIPTION/' -e 's/^##/#/' docs/PAGES.md | \
	    lowdown -s -t man --nroff-nolinks -M title=pagelog-pages -M section=1 -M source="pagelog $(RELEASE)" > $(MADE)/pagelog-pages.1
	help2man -N -s 8 --version-string=$(RELEASE) -n 'makes and looks after services of pagelog' \
	    -o $(MADE)/pagelog-service.8 packaging/pagelog-service
	$(WORDS_OF) packaging/pages_of_words.py $(MADE)
	for shell in bash zsh fish; do \
	    $(WORDS_OF) -m pagelog completion $$shell > $(MADE)/completion.$$shell || exit; done

override_dh_auto_install:
	dh_auto_install --destdir=debian/pagelog-tools
	test -f debian/pagelog-tools/usr/lib/python3*/dist-packages/pagelog/keeper/_fast_path.abi3.so
	install -D -m 644 $(MADE)/completion.bash debian/pagelog-tools/usr/share/bash-completion/completions/pagelogctl
	install -D -m 644 $(MADE)/completion.zsh debian/pagelog-tools/usr/share/zsh/vendor-completions/_pagelogctl
	install -D -m 644 $(MADE)/completion.fish debian/pagelog-tools/usr/share/fish/vendor_completions.d/pagelogctl.fish
	install -D -m 644 $(C)/table.toml debian/pagelog/usr/share/pagelog/table.toml
ifneq ($(VERIFY),)
	install -D $(VERIFY) debian/pagelog/usr/bin/pagelog-verify
	mkdir -p debian/pagelog/usr/share/man/man1
	help2man -N --version-string=$(RELEASE) -n 'says whether a trail of pagelog is of a database' \
	    -o debian/pagelog/usr/share/man/man1/pagelog-verify.1 debian/pagelog/usr/bin/pagelog-verify
endif

# Its tests are of the test command.
override_dh_auto_test:

# The program stays, byte for byte, what was tested.
override_dh_dwz:

override_dh_strip:
	dh_strip --no-automatic-dbgsym -X/bin/pagelog

override_dh_makeshlibs:

# A service that ends has lost what it held: so an upgrade stops none, and nothing is started by being installed.
override_dh_installsystemd:
	dh_installsystemd --no-enable --no-start --no-stop-on-upgrade

override_dh_gencontrol:
	dh_gencontrol -- -Vpagelog:Commit='$(COMMIT)' -Vpagelog:Proved=$(PROVED) -Vpagelog:Kit='$(KIT)' -Vpagelog:Noted='$(NOTED)' -Vpagelog:Words='$(WORDS)' \
	    -Vpagelog:Mark='$(MARK)' -Vpagelog:Sum=$(SUM)

.PHONY: c servers units pages
