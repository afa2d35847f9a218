# Puts the built program where a Unix expects it, takes it away again, and packs it.

.PHONY: install uninstall lint guide deb

install: program
	@packaging/install.py $(PROGRAM)

uninstall:
	@packaging/install.py --remove

lint: program documents
	@tests/documents/plain_words.py
	@tests/package/pages.py $(PROGRAM)
	@tests/package/completions.py $(PROGRAM)
	@tests/site/lint.sh
	@tests/package/install_and_package.py $(PROGRAM)
	@tests/stand_in_tools.py
	@if command -v shellcheck >/dev/null; then \
	    scripts=$$(grep -lE '^#!.*\b(ba)?sh$$' .ci/run */*.sh tests/*/*.sh) && shellcheck -x $$scripts && \
	        echo "shellcheck: $$(echo $$scripts | wc -w) scripts without a fault"; \
	else \
	    echo "shellcheck is not installed, left out"; \
	fi

guide: program
	@tests/program/guide.py $(PROGRAM)

deb: program
	packaging/deb.sh $(PROGRAM) $(dir $(PROGRAM))
