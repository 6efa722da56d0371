# make                      builds the program, with all its proofs
# make check                runs the gate: proofs, mutations, tests, programs, other tools
# make examples             checks the numbers of the gallery, and compares its files with other tools
# make install PREFIX=DIR   installs the program, the tools, their manual pages, completions, Vim files, documents and examples; builds
#                           the program first if it is not built
# make uninstall PREFIX=DIR removes what `make install` put there

# the day and the name of the commit, or what you say; a tree without git has none
VERSION ?= $(or $(shell git log -1 --format=%cd-%h --date=format:%Y.%m.%d 2>/dev/null),unknown)
PREFIX ?= /usr/local
PROGRAM ?= crates/safl/out/safl
TIMER ?= crates/safl_time/out/safl_time
INSTALL ?= install
to = $(DESTDIR)$(PREFIX)
tools = $(wildcard tools/safl-*)
pages = $(notdir $(wildcard man/*.1))
folders = $(shell find tools -type d -not -name __pycache__)

.PHONY: all check examples install uninstall

all: $(PROGRAM) $(TIMER)

# rt keeps what it has proved, so the program is made anew only if the target is missing; remove it after a change.
crates/safl/out/safl:
	@echo "builds the program with all its proofs, which takes half an hour or more"
	cd crates/safl && rt run -- check ../../examples/seven.safl

crates/safl_time/out/safl_time:
	cd crates/safl_time && rt run -- ../../examples/seven.safl

check:
	.ci/run

examples: $(PROGRAM)
	SAFL=$(PROGRAM) scripts/outside.sh

install: $(PROGRAM) $(TIMER)
	$(INSTALL) -d $(to)/bin $(to)/share/man/man1 $(to)/share/bash-completion/completions $(to)/share/zsh/site-functions
	$(INSTALL) -m 755 $(PROGRAM) $(to)/bin/safl
	$(INSTALL) -m 644 completion/safl.bash $(to)/share/bash-completion/completions/safl
	$(INSTALL) -m 644 completion/_safl $(to)/share/zsh/site-functions/_safl
	$(INSTALL) -m 755 $(TIMER) $(to)/bin/safl-time
	$(INSTALL) -m 644 completion/safl-time.bash $(to)/share/bash-completion/completions/safl-time
	$(INSTALL) -m 644 completion/_safl-time $(to)/share/zsh/site-functions/_safl-time
	for part in syntax ftdetect ftplugin; do \
	  $(INSTALL) -d $(to)/share/vim/vimfiles/$$part && \
	  $(INSTALL) -m 644 editors/vim/$$part/safl.vim $(to)/share/vim/vimfiles/$$part/safl.vim || exit 1; \
	done
	for folder in $(folders); do \
	  $(INSTALL) -d $(to)/share/safl/$$folder && \
	  find $$folder -maxdepth 1 -type f -not -name '*.pyc' -exec $(INSTALL) -m 644 {} $(to)/share/safl/$$folder \; || exit 1; \
	done
	for tool in $(notdir $(tools)); do \
	  chmod 755 $(to)/share/safl/tools/$$tool && \
	  ln -sf ../share/safl/tools/$$tool $(to)/bin/$$tool && \
	  $(INSTALL) -m 644 completion/$$tool.bash $(to)/share/bash-completion/completions/$$tool && \
	  $(INSTALL) -m 644 completion/_$$tool $(to)/share/zsh/site-functions/_$$tool || exit 1; \
	done
	for page in $(pages); do \
	  sed -e '/^\.TH /s/"Pongurike"/"Pongurike $(VERSION)"/' -e 's|/usr/local/share/doc/safl|$(PREFIX)/share/doc/safl|g' man/$$page \
	    >$(to)/share/man/man1/$$page && chmod 644 $(to)/share/man/man1/$$page || exit 1; \
	done
	$(INSTALL) -d $(to)/share/doc/safl/docs/tutorial $(to)/share/doc/safl/docs/guide
	$(INSTALL) -m 644 README.md CHANGES.md LICENSE $(to)/share/doc/safl
	$(INSTALL) -m 644 docs/*.md $(to)/share/doc/safl/docs
	$(INSTALL) -m 644 docs/tutorial/* $(to)/share/doc/safl/docs/tutorial
	$(INSTALL) -m 644 docs/guide/* $(to)/share/doc/safl/docs/guide
	cp -R examples $(to)/share/doc/safl
	$(INSTALL) -d $(to)/share/doc/safl/editors
	$(INSTALL) -m 644 editors/README.md editors/textmate/safl.tmLanguage.json $(to)/share/doc/safl/editors
	echo $(VERSION) >$(to)/share/doc/safl/VERSION
	chmod 644 $(to)/share/doc/safl/VERSION

uninstall:
	rm -rf $(to)/share/safl $(to)/share/doc/safl
	for name in safl safl-time $(notdir $(tools)); do \
	  rm -f $(to)/bin/$$name $(to)/share/man/man1/$$name.1 $(to)/share/bash-completion/completions/$$name \
	    $(to)/share/zsh/site-functions/_$$name || exit 1; \
	done
	for part in syntax ftdetect ftplugin; do rm -f $(to)/share/vim/vimfiles/$$part/safl.vim; done
