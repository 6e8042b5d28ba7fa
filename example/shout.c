/* Copies its standard input to its standard output; with an argument, in upper case.

   gcc -O2 -static -nostdlib -mgeneral-regs-only -fno-stack-protector -o shout shout.c

   docs/GUIDE.md says what each flag is for, and goes on with it. */

/* The start: Linux puts argc and argv on the stack, and nothing comes back from exit. */
__asm__(".globl _start\n"
        "_start:\n"
        "    mov (%rsp), %edi\n"
        "    lea 8(%rsp), %rsi\n"
        "    call run\n"
        "    mov %eax, %edi\n"
        "    mov $60, %eax\n"
        "    syscall\n");

static long system_call(long number, long a, long b, long c) {
    long answer;
    __asm__ volatile("syscall"
                     : "=a"(answer)
                     : "a"(number), "D"(a), "S"(b), "d"(c)
                     : "rcx", "r11", "memory");
    return answer;
}

__attribute__((noinline)) static char upper(char byte) {
    return byte >= 'a' && byte <= 'z' ? byte - 'a' + 'A' : byte;
}

__attribute__((used)) int run(int argc, char **argv) {
    char byte;
    (void)argv;
    while (system_call(0, 0, (long)&byte, 1) == 1) {
        if (argc > 1)
            byte = upper(byte);
        system_call(1, 1, (long)&byte, 1);
    }
    return 0;
}
