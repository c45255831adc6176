/* What the functions of a judged file of the 386 kind share. Freestanding: no C library, no start files. */
typedef __builtin_va_list walk_list;

unsigned char seen[16384 + 64];        /* the stack that the probe found, from the first argument byte on */
unsigned char image[16384 + 64];       /* the stack that a judged function is called with */
unsigned char taken[65536];            /* the argument bytes that it found, packed */
unsigned char room[4096] __attribute__((aligned(16)));  /* where a struct is returned */
unsigned char seen_st0[16];
unsigned seen_eax, seen_edx, seen_popped, seen_length;
unsigned comparisons;

void probe(void);      /* keeps seen_length bytes of the stack */
void probe_pop(void);  /* and pops 4 bytes more */
void invoke(void *function, unsigned length, int floating);

static void *memcpy(void *to, const void *from, unsigned count) {
    for (unsigned i = 0; i < count; i++) ((unsigned char *)to)[i] = ((const unsigned char *)from)[i];
    return to;
}

static void *memset(void *to, int byte, unsigned count) {
    for (unsigned i = 0; i < count; i++) ((unsigned char *)to)[i] = byte;
    return to;
}

static void leave(int status) { __asm__ volatile("int $0x80" : : "a"(1), "b"(status)); __builtin_unreachable(); }

static void say(const char *text, unsigned length) {
    unsigned written;
    __asm__ volatile("int $0x80" : "=a"(written) : "a"(4), "b"(1), "c"(text), "d"(length) : "memory");
}

static void say_number(unsigned number) {
    char digits[11];
    int at = 11;
    digits[--at] = '\n';
    do digits[--at] = '0' + number % 10; while (number /= 10);
    say(digits + at, 11 - at);
}

/* Bytes that carry the value must be the same; `carries` has one character for each. */
static void compare(unsigned function, const unsigned char *found, const unsigned char *wanted, const char *carries) {
    for (unsigned i = 0; carries[i]; i++) {
        if (carries[i] != '1') continue;
        comparisons++;
        if (found[i] != wanted[i]) { say_number(function); leave(1); }
    }
}

static void same(unsigned function, unsigned found, unsigned wanted) {
    comparisons++;
    if (found != wanted) { say_number(function); leave(1); }
}

__asm__(
    ".text\n"
    "probe:\n"
    "push %esi\n push %edi\n push %ecx\n cld\n"
    "lea 16(%esp), %esi\n mov $seen, %edi\n mov seen_length, %ecx\n rep movsb\n"
    "pop %ecx\n pop %edi\n pop %esi\n ret\n"
    "probe_pop:\n"
    "push %esi\n push %edi\n push %ecx\n cld\n"
    "lea 16(%esp), %esi\n mov $seen, %edi\n mov seen_length, %ecx\n rep movsb\n"
    "pop %ecx\n pop %edi\n pop %esi\n mov 4(%esp), %eax\n ret $4\n"
    "invoke:\n"
    "push %ebp\n mov %esp, %ebp\n push %ebx\n push %esi\n push %edi\n cld\n"
    "sub 12(%ebp), %esp\n and $-16, %esp\n"
    "mov %esp, %edi\n mov $image, %esi\n mov 12(%ebp), %ecx\n rep movsb\n"
    "mov %esp, %ebx\n call *8(%ebp)\n"
    "mov %eax, seen_eax\n mov %edx, seen_edx\n mov %esp, %eax\n sub %ebx, %eax\n mov %eax, seen_popped\n"
    "cmpl $0, 16(%ebp)\n je 1f\n fstpt seen_st0\n"
    "1: lea -12(%ebp), %esp\n pop %edi\n pop %esi\n pop %ebx\n pop %ebp\n ret\n");
