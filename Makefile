# The seat port. `make` alone shows what there is: of each target the words behind ## on its line, also in INCLUDED.
# Needed: the Rattle kit (rt), make and python3. `make list` is the newcomer's first command, `make test` the gate; .ci/run calls it.
INCLUDED := tests/c/c.mk

# What reaches the shell by the environment may hold blanks, quotes and $: this file's name, and TRACE and LIST as they were given.
export SEATPORT_MAKEFILE := $(MAKEFILE_LIST)
export SEATPORT_TRACE := $(value TRACE)
export SEATPORT_LIST := $(value LIST)
# Whether they were given at all: the word for the script, or nothing. (Behind unexport every variable counts as given.)
trace := $(if $(filter-out undefined,$(origin TRACE)),"$$SEATPORT_TRACE")
list := $(if $(filter-out undefined,$(origin LIST)),"$$SEATPORT_LIST")
# make would hand them on as well, with every $(..) in them carried out.
unexport TRACE LIST

# The project's folder, wherever make was called: for the shell, and for make, with a \ before each blank.
project := "$$(dirname -- "$$SEATPORT_MAKEFILE")"
empty :=
folder := $(subst $(empty) ,\ ,$(patsubst %Makefile,%,$(MAKEFILE_LIST)))

.PHONY: help list holds capture captures test prove vectors drawings

help: ## shows these lines
	@cd $(project) && sed -n 's/^\([a-z][a-z-]*\):.*## /\1 /p' Makefile $(INCLUDED) | \
	    while read -r target words; do printf 'make %-9s %s\n' "$$target" "$$words"; done

# Who names a file as a further goal would be shown the sample in its place.
ifneq (,$(filter list holds capture captures,$(MAKECMDGOALS)))
ifneq (1,$(words $(MAKECMDGOALS)))
$(error A file is named so: make list TRACE=row.trace, make holds LIST=hall.gates, make capture TRACE=row.trace)
endif
endif

# A name is one in the folder where make was called, or in that of make -C. Where none was given the script gets no word, and takes the sample.
list: ## lists the sample that ships with the project, with TRACE=file another trace; proves and builds what is missing
	@$(project)/scripts/list $(trace)

holds: ## lists the holds and releases of a sample gate control list, with LIST=file of another; proves and builds what is missing
	@$(project)/scripts/holds $(list)

capture: ## writes the sample as a capture for Wireshark, with TRACE=file another trace, beside that; proves and builds what is missing
	@$(project)/scripts/capture $(trace)

captures: ## writes two captures of the sample, for eyes and for keeping, with TRACE=file of another trace; proves and builds what is missing
	@$(project)/scripts/captures $(trace)

test: ## the gate: proves and tests everything, from nothing
	@$(project)/scripts/gate

prove: ## the edit loop: proves what changed, and runs the programs
	@cd $(project) && scripts/need-kit && rt all test

vectors: ## makes the stored vectors, traces, schedules and captures anew
	@cd $(project) && for maker in tests/reference/vectors_*.py tests/reference/traces.py tests/reference/schedules.py tests/reference/captures_files.py tests/reference/eyes_files.py; do python3 "$$maker" || exit 1; done

drawings: ## draws the pictures of the documents anew
	@cd $(project) && scripts/draw-press && scripts/draw-crates

# The C side, the board and the benchmark.
include $(addprefix $(folder),$(INCLUDED))
