/* Everything from where qemu's virt machine has its memory, and a stack of 64 KiB. */
OUTPUT_ARCH(riscv)
ENTRY(_start)
PHDRS
{
    code PT_LOAD FLAGS(5);
    data PT_LOAD FLAGS(6);
}
SECTIONS
{
    . = 0x80000000;
    .text : { *(.text.start) *(.text*) } :code
    .rodata : { *(.rodata*) *(.srodata*) } :code
    . = ALIGN(4096);
    .data : { *(.data*) *(.sdata*) } :data
    .bss : { *(.bss*) *(.sbss*) *(COMMON) } :data
    . = ALIGN(16);
    . += 65536;
    stack_top = .;
    /DISCARD/ : { *(.comment) *(.note*) *(.eh_frame*) *(.riscv.attributes) }
}
