/* A calculator: each byte of the input is a command. Digits push a number, + - * take two numbers, ! takes the
   factorial of one, p prints the top in decimal; any other byte, or the end of the input, ends the program, whose
   status is how many numbers are left.

   Made with gcc 12.2.0 and GNU ld 2.40:

   gcc -O2 -static -nostdlib -ffreestanding -mgeneral-regs-only -fno-pie -no-pie -fcf-protection=none \
       -fno-asynchronous-unwind-tables -fno-stack-protector -Wl,-z,noseparate-code -Wl,-z,max-page-size=4096 \
       -Wl,--build-id=none -s -o calculator calculator.c

   There is a jump table (the switch), a table of functions, and a function that calls itself. */

typedef unsigned long word;

static word stack[64];
static unsigned depth;

static long system_call(long number, long a, long b, long c) {
    long answer;
    __asm__ volatile("syscall"
                     : "=a"(answer)
                     : "a"(number), "D"(a), "S"(b), "d"(c)
                     : "rcx", "r11", "memory");
    return answer;
}

static word sum(word a, word b) { return a + b; }
static word difference(word a, word b) { return a - b; }
static word product(word a, word b) { return a * b; }

static word (*const operations[3])(word, word) = {sum, difference, product};

__attribute__((noinline)) static word factorial(word n) {
    return n < 2 ? 1 : n * factorial(n - 1);
}

__attribute__((noinline)) static void print(word n) {
    char digit = '0' + n % 10;
    if (n >= 10)
        print(n / 10);
    system_call(1, 1, (long)&digit, 1);
}

__attribute__((noinline)) static void operate(unsigned number) {
    if (depth < 2)
        return;
    depth--;
    stack[depth - 1] = operations[number](stack[depth - 1], stack[depth]);
}

/* One command; whether another one may follow. */
__attribute__((noinline)) static int command(unsigned char byte) {
    switch (byte) {
    case '0': case '1': case '2': case '3': case '4':
    case '5': case '6': case '7': case '8': case '9':
        if (depth < 64)
            stack[depth++] = byte - '0';
        return 1;
    case '+':
        operate(0);
        return 1;
    case '-':
        operate(1);
        return 1;
    case '*':
        operate(2);
        return 1;
    case '!':
        if (depth > 0)
            stack[depth - 1] = factorial(stack[depth - 1]);
        return 1;
    case 'p':
        if (depth > 0)
            print(stack[depth - 1]);
        system_call(1, 1, (long)"\n", 1);
        return 1;
    default:
        return 0;
    }
}

__attribute__((noreturn)) void _start(void) {
    unsigned char byte;
    while (system_call(0, 0, (long)&byte, 1) == 1 && command(byte))
        ;
    for (;;)
        system_call(60, depth, 0, 0);
}
