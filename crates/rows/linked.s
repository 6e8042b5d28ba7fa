# The program of the case "what a linker makes", by GNU as and ld 2.40: as -o l.o linked.s; ld -static -s -o linked l.o
        .globl  _start
        .text
_start: movl    $1, %eax
        movl    $1, %edi
        movl    $text, %esi
        movl    $3, %edx
        syscall
        movl    $0, %edi
        movl    $60, %eax
        syscall
        .section .rodata
text:   .ascii  "hi\n"
        .data
        .long   7
        .bss
        .skip   64
        .section .note.GNU-stack, "", @progbits
