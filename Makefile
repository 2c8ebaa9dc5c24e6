# make demo                   plays the built-in task and prints what it does, with nothing proved:
#                             in under a minute
# make demo FILE=x.orders     plays that order file in its place
# make build                  proves and builds the programs into target/bin/, in some minutes
# make play SCHEDULE=x.txt    composes the text, plays it, and writes and checks x.graphml beside it
# make test                   the gate: every proof, edit, program and test
# make clean                  removes what was built

PROGRAMS = compose runfile walkthrough

.PHONY: demo build play test clean

demo:
	@bash tools/demo.sh $(if $(FILE),'$(FILE)')

build:
	@bash tools/build.sh $(PROGRAMS)

play:
	@test -n '$(SCHEDULE)' || { echo 'usage: make play SCHEDULE=my.txt' >&2; exit 2; }
	@$(MAKE) -s --no-print-directory $(addprefix target/bin/,$(PROGRAMS))
	@python3 tools/play.py '$(SCHEDULE)'

target/bin/%:
	@bash tools/build.sh $*

test:
	@.ci/run

clean:
	rm -rf target crates/*/out
