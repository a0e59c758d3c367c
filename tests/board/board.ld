/* A Cortex-M of QEMU; the run says how many octets of working memory it has. Each function has a section of its own, so what
 * nothing calls is left out. */
ENTRY(reset)
MEMORY {
	FLASH (rx) : ORIGIN = 0, LENGTH = 256K
	RAM (rwx) : ORIGIN = 0x20000000, LENGTH = working_memory
}
SECTIONS {
	.text : { KEEP(*(.vectors)) *(.text .text.* .rodata .rodata.*) . = ALIGN(4); } > FLASH
	/DISCARD/ : { *(.ARM.exidx .ARM.exidx.*) }
	data_from = LOADADDR(.data);
	.data : { data_start = .; *(.data .data.*) . = ALIGN(4); data_end = .; } > RAM AT > FLASH
	.bss : { bss_start = .; *(.bss .bss.* COMMON) . = ALIGN(4); bss_end = .; } > RAM
	stack_top = ORIGIN(RAM) + LENGTH(RAM);
}
