/* Reads jobs from the file named first, runs each judged function, writes the
   answers to the file named second. It judges nothing itself. */
#define _GNU_SOURCE
#include "harness.h"
#include <stdint.h>
#include <stdio.h>
#include <stdlib.h>
#include <string.h>
#include <sys/mman.h>

/* The hidden addresses that the driver counts on, of LP64 and of ILP32. */
#define HIDDEN ((unsigned char *)0x200000000000)
#define NARROW_HIDDEN ((unsigned char *)0xE0000000)
static unsigned char *hidden;

__attribute__((aligned(64))) unsigned char sink[ROOM];
__attribute__((aligned(64))) unsigned char source[ROOM];
__attribute__((aligned(64))) static unsigned char values[ROOM];
__attribute__((aligned(64))) static unsigned char registers[176];
__attribute__((aligned(64))) unsigned char upper[128];
__attribute__((aligned(64))) static unsigned char stack[ROOM];

void probe(void);
void (*volatile probe_at)(void) = probe;

/* Used by the assembly. */
__attribute__((aligned(64))) unsigned char probe_registers[176];
__attribute__((aligned(64))) unsigned char probe_upper[128];
__attribute__((aligned(64))) unsigned char probe_stack[ROOM];
__attribute__((aligned(64))) unsigned char return_image[80 + 16];
uint64_t probe_rax, probe_area, probe_start, area_alignment, return_size;
uint32_t return_kind;
unsigned char *entered_stack;
void enter(void *function, const void *registers, const void *stack, uint64_t area, uint64_t al,
           void *after);

/* Offsets that va_start and va_arg leave. */
struct offsets {
    uint32_t gp_offset, fp_offset, overflow;
};
static struct offsets notes[128];
static uint32_t note_count;
static unsigned char *overflow_base;

/* The va_list of 000, figure 3.34, with room for two pointers of either model: overflow_arg_area and reg_save_area. */
struct list {
    uint32_t gp_offset, fp_offset;
    unsigned char pointers[16];
};

static uint64_t pointer_of(const struct list *list, int place)
{
    uint64_t pointer = 0;
    memcpy(&pointer, list->pointers + place * judged_pointer, judged_pointer);
    return pointer;
}

static void set_pointer(struct list *list, int place, const void *to)
{
    uint64_t pointer = (uint64_t)to;
    memcpy(list->pointers + place * judged_pointer, &pointer, judged_pointer);
}

void note(va_list list)
{
    struct list *fields = (struct list *)list;
    unsigned char *base = overflow_base ? overflow_base : entered_stack;
    notes[note_count].gp_offset = fields->gp_offset;
    notes[note_count].fp_offset = fields->fp_offset;
    notes[note_count].overflow = (uint32_t)(pointer_of(fields, 0) - (uint64_t)base);
    note_count++;
}

static FILE *jobs, *answers;

static void take(void *to, size_t length)
{
    if (length && fread(to, 1, length, jobs) != length) {
        fprintf(stderr, "harness: jobs end too early\n");
        exit(3);
    }
}

static uint32_t take_number(void)
{
    uint32_t number;
    take(&number, sizeof number);
    return number;
}

static void give(const void *from, size_t length)
{
    if (length && fwrite(from, 1, length, answers) != length)
        exit(4);
}

/* The caller's side: gcc calls the probe. */
static void judge_caller(const struct judged *one)
{
    memset(sink, 0xCC, return_size);
    memset(probe_registers, 0xCC, sizeof probe_registers);
    memset(probe_upper, 0xCC, sizeof probe_upper);
    memset(probe_stack, 0xCC, probe_area);
    one->call(values);
    __asm__ volatile("fninit");
    give(probe_registers, sizeof probe_registers);
    give(probe_upper, sizeof probe_upper);
    give(&probe_rax, sizeof probe_rax);
    give(&probe_start, sizeof probe_start);
    give(probe_stack, probe_area);
    give(sink, return_size);
}

/* The callee's side: gcc's function finds the images, and returns. */
static void judge_callee(const struct judged *one, uint32_t length, uint64_t al,
                         const struct offsets *start)
{
    static unsigned char after[48 + 108 + 16];
    memset(sink, 0xCC, length);
    memset(hidden, 0xCC, return_size);
    note_count = 0;
    overflow_base = 0;
    enter((void *)one->callee, registers, stack, probe_area, al, after);
    if (one->walk) {
        va_list list;
        struct list *fields = (struct list *)list;
        overflow_base = stack;
        fields->gp_offset = start->gp_offset;
        fields->fp_offset = start->fp_offset;
        set_pointer(fields, 0, stack + start->overflow);
        set_pointer(fields, 1, registers);
        one->walk(&list);
        __asm__ volatile("fninit");
    }
    give(sink, length);
    give(&note_count, sizeof note_count);
    give(notes, note_count * sizeof notes[0]);
    give(after, sizeof after);
    give(hidden, return_size);
}

static void judge_one(const struct judged *one)
{
    struct offsets start;
    uint32_t length = take_number();
    uint32_t al;
    take(values, length);
    take(registers, sizeof registers);
    take(upper, sizeof upper);
    area_alignment = take_number();
    probe_area = take_number();
    take(stack, probe_area);
    al = take_number();
    take(&start, sizeof start);
    return_kind = take_number();
    return_size = take_number();
    take(source, return_size);
    take(return_image, sizeof return_image);
    judge_caller(one);
    judge_callee(one, length, al, &start);
    give(&one->numbers, sizeof one->numbers);
    give(one->measures, one->numbers * sizeof(unsigned));
    fflush(answers);
}

/* Room above the frames, so that reading a wrong stack area stays harmless. */
static void __attribute__((noinline)) judge_all(void)
{
    volatile unsigned char room[2 * ROOM];
    room[0] = room[sizeof room - 1] = 0;
    for (unsigned index = 0; index < judged_count; index++)
        judge_one(&judged[index]);
}

/* ILP32 code keeps its addresses in four bytes, that of the stack too. A program that is linked without PIE has its own arrays there. */
__attribute__((aligned(64))) static unsigned char narrow_stack[1 << 23];

static void on_narrow_stack(void (*run)(void))
{
    __asm__ volatile("movq %%rsp, %%rbx\n\tmovq %0, %%rsp\n\tcall *%1\n\tmovq %%rbx, %%rsp"
                     :
                     : "r"(narrow_stack + sizeof narrow_stack), "r"(run)
                     : "rbx", "rax", "rcx", "rdx", "rsi", "rdi", "r8", "r9", "r10", "r11", "memory", "cc");
}

int main(int count, char **words)
{
    if (count != 3)
        return 2;
    jobs = fopen(words[1], "rb");
    answers = fopen(words[2], "wb");
    if (!jobs || !answers)
        return 2;
    hidden = judged_pointer == 4 ? NARROW_HIDDEN : HIDDEN;
    void *room = mmap(hidden, ROOM, PROT_READ | PROT_WRITE,
                      MAP_PRIVATE | MAP_ANONYMOUS | MAP_FIXED_NOREPLACE, -1, 0);
    if (room != hidden)
        return 5;
    on_narrow_stack(judge_all);
    return fclose(answers) ? 4 : 0;
}
