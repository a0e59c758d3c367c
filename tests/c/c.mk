# The C side, the board and the benchmark; the Makefile includes this file.
.PHONY: c-test firmware board bench

# What firmware and board compile for: the processor of the seat box, as firmware for small memories is compiled.
TRIPLE ?= thumbv7m-none-eabi
OPTIONS ?= -mcpu=cortex-m3 -Os
# As TRACE, they reach the shell as they were given.
export SEATPORT_TRIPLE := $(value TRIPLE)
export SEATPORT_OPTIONS := $(value OPTIONS)
unexport TRIPLE OPTIONS

c-test: ## archive, header, examples and the port against plain C; part of make test
	@$(project)/tests/c/run

firmware: ## hands over the port for the board's Cortex-M3, with TRIPLE=.. OPTIONS=.. for another processor
	@$(project)/scripts/firmware "$$SEATPORT_TRIPLE" "$$SEATPORT_OPTIONS"

board: ## the port on a Cortex-M3 in QEMU: the stored vectors, code, stack and instructions
	@$(project)/tests/board/run "$$SEATPORT_TRIPLE" "$$SEATPORT_OPTIONS"

bench: ## the port beside plain C on the machine at hand, and mmlist beside tshark
	@$(project)/tests/bench/run
