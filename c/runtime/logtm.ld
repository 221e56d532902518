/* Where a program lies in memory: text at 0x1000, data on a page of its own, behind it the heap, up to the stacks that the machine gives. */
ENTRY(_start)
PHDRS
{
    text PT_LOAD FLAGS(5);
    data PT_LOAD FLAGS(6);
    tls PT_TLS FLAGS(4);
}
SECTIONS
{
    . = 0x1000;
    .text : { *(.text.start) *(.text .text.*) } :text
    .rodata : { *(.rodata .rodata.* .srodata .srodata.*) } :text
    .eh_frame : { *(.eh_frame .eh_frame.*) } :text
    .tm_clone_table : {
        __tm_clone_table_start = .;
        KEEP(*(.tm_clone_table))
        __tm_clone_table_end = .;
    } :text
    .init_array : ALIGN(4) {
        __init_array_start = .;
        KEEP(*(SORT_BY_INIT_PRIORITY(.init_array.*)))
        KEEP(*(.init_array .ctors))
        __init_array_end = .;
    } :text

    /* A store to a page of text would be a trap. */
    . = ALIGN(0x1000);
    .tdata : ALIGN(32) { *(.tdata .tdata.*) . = ALIGN(4); } :data :tls
    .tbss : { *(.tbss .tbss.*) . = ALIGN(32); } :data :tls
    __tdata_start = ADDR(.tdata);
    __tdata_end = ADDR(.tdata) + SIZEOF(.tdata);
    __tls_size = ALIGN(ADDR(.tbss) + SIZEOF(.tbss) - ADDR(.tdata), 64);
    .data : ALIGN(32) { *(.data .data.* .sdata .sdata.*) } :data
    .bss : ALIGN(32) { *(.sbss .sbss.*) *(.bss .bss.*) *(COMMON) } :data
    PROVIDE(__stack_power = 12);
    PROVIDE(logtm_give_up = logtm_no_transaction);
    __heap_start = ALIGN(ADDR(.bss) + SIZEOF(.bss), 64);

    /DISCARD/ : { *(.comment .note .note.* .riscv.attributes) }
}
