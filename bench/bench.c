/* Runs one listener over a recording. Built for x86-64 Linux without a C library: with the proved library, with it and -DREPLAYED (by hb_replay alone, the
   recording being in its format already), and with -DPLAIN, so that all that is counted is the listener, this loop and the four functions at the end.

     bench reports FILE PIECE      a line for each report: the octets and the records eaten so far, the 16 octets, a hash of a completed message;
                                   last a hash of the message area
     bench stack FILE PIECE        the largest stack that a call used, in octets
     bench empty FILE CALLS RUNS LESS   feeds as `run` does, then makes so many calls with an empty piece, and says nothing
     bench header CALLS OCTETS     makes so many calls that run the header's check over so many octets, and says nothing
     bench data CALLS OCTETS       the same of the data's check
     bench items CALLS ITEMS LENT  makes so many calls that list so many items, so many octets lent for each (the plain one counts them), and says nothing
     bench frame CALLS OCTETS      makes so many calls that write a frame around so many data octets, and says nothing
     bench cut CALLS OCTETS EACH   makes so many calls that cut a complex ack of so many parameter octets, so many to a segment, and says nothing
     bench traffic                 the recording `cut`: messages that the library cuts and frames (the proved library alone)
     bench written FILE PIECE      how many good frames of a recording the library writes just so, how many messages are complete, and how many of these
                                   it cuts just so; the end is 1 where a frame differs (the proved library alone)
     bench sizes                   the size of the state
     bench stacks                  the stack of each call but hb_feed (the proved library alone)
     bench run FILE PIECE RUNS [LESS]   feeds the first RUNS runs of octets (silences and forget orders end a run), the last LESS octets of the
                                   recording left out, and says nothing

   PIECE is the most octets, or records, that a call is lent. A replay runs all of the recording, or with RUNS 0 nothing.
   `bench later ..` does the same by the later edition. */
#ifdef PLAIN
#include "plain.h"
#else
#include "hitchbarley.h"
#endif
#include <stddef.h>
#include <stdint.h>

enum { AREA = 65536, MOST = 1 << 18, STACK = 1 << 18 };

static uint8_t report[16], area[AREA], octets[MOST], file[4 * MOST];
static struct { uint32_t at; uint8_t kind, value; } events[MOST]; /* each after so many octets */
static size_t octet_count, event_count, record_count;
static uint8_t later; /* the edition: 0 is 1995 */
static const uint8_t whole_ack[13] = {3, 0, 0, 0, 0, 0, 0, 1, 0, 8, 14, 0, 0}; /* the record of a complex ack that is cut: invoke ID 1, window 8, choice 14 */

/* ---- the listener */

#ifdef PLAIN
static struct plain state;
static void fresh(void) { plain_fresh(&state, later); }
static size_t feed(const uint8_t *s, size_t n, int *reported) { return plain_feed(&state, s, n, report, area, reported); }
static int silence(void) { return plain_silence(&state, report); }
static void forget(uint8_t slot) { plain_forget(&state, slot); }
static void header_run(const uint8_t *s, size_t n) { plain_header_run(0xFF, s, n); }
static void data_run(const uint8_t *s, size_t n) { plain_data_run(0xFFFF, s, n); }
static void list(const uint8_t *s, size_t n, size_t lent) { (void)lent; plain_items(s, n); }
static void frame_of(const uint8_t *s, size_t n) { plain_frame(6, 1, 3, s, n, area, AREA); }
static void cut_of(const uint8_t *s, size_t n, size_t each)
{
    size_t segments;
    plain_cut(whole_ack, later, 0, 0, each, s, n, area, AREA, &segments);
}
#else
#include "proved.h"
#endif

/* ---- Linux, for x86-64 */

static long call(long number, long a, long b, long c)
{
    long r;
    __asm__ volatile("syscall" : "=a"(r) : "a"(number), "D"(a), "S"(b), "d"(c) : "rcx", "r11", "memory");
    return r;
}

static void leave(int status)
{
    for (;;) call(231, status, 0, 0);
}

static void say(const char *s)
{
    size_t n = 0;
    while (s[n]) n++;
    call(1, 1, (long)s, (long)n);
}

static void say_number(uint64_t v, unsigned base, unsigned width)
{
    char digits[24];
    int at = 23;
    digits[at] = 0;
    do {
        digits[--at] = "0123456789ABCDEF"[v % base];
        v /= base;
    } while (v || 23 - at < (int)width);
    say(digits + at);
}

static uint64_t number_of(const char *s)
{
    uint64_t v = 0;
    while (*s) v = v * 10 + (uint64_t)(*s++ - '0');
    return v;
}

static int same(const char *a, const char *b)
{
    while (*a && *a == *b) a++, b++;
    return *a == *b;
}

/* ---- the recording */

static void load(const char *path)
{
    long fd = call(2, (long)path, 0, 0), n = 0, got;
    if (fd < 0) {
        say("bench: the recording cannot be opened\n");
        leave(2);
    }
    while ((got = call(0, fd, (long)file + n, (long)sizeof file - n)) > 0) n += got;
    record_count = (size_t)n / 4;
    for (long i = 0; i + 4 <= n; i += 4) {
        if (file[i] == 0)
            octets[octet_count++] = file[i + 1];
        else {
            events[event_count].at = (uint32_t)octet_count;
            events[event_count].kind = file[i];
            events[event_count++].value = file[i + 1];
        }
    }
}

/* ---- feeding */

static int telling;

static uint32_t hash(const uint8_t *s, size_t n)
{
    uint32_t h = 2166136261u;
    for (size_t i = 0; i < n; i++) h = (h ^ s[i]) * 16777619u;
    return h;
}

static void tell(size_t eaten, size_t records)
{
    if (!telling) return;
    say_number(eaten, 10, 1);
    say(" ");
    say_number(records, 10, 1);
    for (int i = 0; i < 16; i++) {
        say(" ");
        say_number(report[i], 16, 2);
    }
    if (report[0] == 5) {
        say(" ");
        say_number(hash(area + (size_t)16384 * report[7], (size_t)report[10] << 8 | report[11]), 16, 8);
    }
    say("\n");
}

static size_t piece, runs, less;

#ifdef REPLAYED
static void all(void)
{
    size_t from = 0, heard = 0;
    fresh();
    while (runs && from < record_count) {
        size_t end = piece < record_count - from ? from + piece : record_count;
        while (from < end) {
            int reported = 0;
            size_t eaten = replay(file + 4 * from, end - from, &reported);
            if (telling)
                for (size_t i = 0; i < eaten; i++) heard += file[4 * (from + i)] == 0;
            from += eaten;
            if (reported) tell(heard, from);
        }
    }
}
#else
static void feed_run(size_t from, size_t to, size_t passed)
{
    while (from < to) {
        size_t end = piece < to - from ? from + piece : to;
        while (from < end) {
            int reported = 0;
            from += feed(octets + from, end - from, &reported);
            if (reported) tell(from, from + passed);
        }
    }
}

static void all(void)
{
    size_t from = 0;
    fresh();
    for (size_t i = 0; i < runs && i <= event_count; i++) {
        size_t to = i < event_count ? events[i].at : octet_count - less;
        feed_run(from, to, i);
        from = to;
        if (i == event_count) return;
        if (events[i].kind == 2)
            forget(events[i].value);
        else if (silence())
            tell(from, from + i + 1);
    }
}
#endif

/* Calls with nothing to eat, in the state that the recording leaves. */
static void empty(size_t calls)
{
#ifndef REPLAYED
    int reported;
    while (calls--) feed(octets, 0, &reported);
#else
    (void)calls;
#endif
}

/* The check sums, or writing frames, by themselves, over zeros. */
static void calls_of(void (*run)(const uint8_t *, size_t), size_t calls, size_t n)
{
    while (calls--) run(octets, n);
}

/* Listing by itself, over unsigned numbers side by side. */
static void items(size_t calls, size_t n, size_t lent)
{
    for (size_t i = 0; i < n; i++) octets[2 * i] = 0x21, octets[2 * i + 1] = 0x05;
    while (calls--) list(octets, 2 * n, lent * n);
}

/* Cutting by itself, over zeros. */
static void cuts(size_t calls, size_t n, size_t each)
{
    while (calls--) cut_of(octets, n, each);
}

/* ---- the stack: painted, used, read back */

static uint8_t stack[STACK] __attribute__((aligned(16)));

static void on_stack(void (*work)(void))
{
    __asm__ volatile("movq %%rsp, %%rbx\n\tmovq %0, %%rsp\n\tcall *%1\n\tmovq %%rbx, %%rsp"
                     :
                     : "r"(stack + STACK), "r"(work)
                     : "rax", "rbx", "rcx", "rdx", "rsi", "rdi", "r8", "r9", "r10", "r11", "xmm0", "xmm1", "xmm2", "xmm3", "xmm4", "xmm5", "xmm6", "xmm7",
                       "xmm8", "xmm9", "xmm10", "xmm11", "xmm12", "xmm13", "xmm14", "xmm15", "memory", "cc");
}

static size_t used_by(void (*work)(void))
{
    size_t untouched = 0;
    for (size_t i = 0; i < STACK; i++) stack[i] = 0xA5;
    on_stack(work);
    while (untouched < STACK && stack[untouched] == 0xA5) untouched++;
    return STACK - untouched;
}

#ifndef PLAIN
#include "stacks.h"
#ifndef REPLAYED
#include "traffic.h"
#endif
#endif

static int begin(int argc, char **argv)
{
    if (1 < argc && same(argv[1], "later")) later = 1, argc--, argv++;
    const char *mode = argc < 2 ? "" : argv[1];
#ifndef PLAIN
    if (same(mode, "stacks")) {
        stacks(used_by);
        return 0;
    }
#ifndef REPLAYED
    if (same(mode, "traffic")) {
        traffic();
        return 0;
    }
#endif
#endif
    if (same(mode, "sizes")) {
        say_number(sizeof state, 10, 1);
        say("\n");
        return 0;
    }
    if (argc < 4) {
        say("usage: bench [later] reports FILE PIECE | stack FILE PIECE | run FILE PIECE RUNS | empty FILE CALLS RUNS LESS |\n"
            "       header CALLS OCTETS | data CALLS OCTETS | items CALLS ITEMS LENT | frame CALLS OCTETS | cut CALLS OCTETS EACH | sizes |\n"
            "       stacks | traffic | written FILE PIECE\n");
        return 2;
    }
    if (same(mode, "header") || same(mode, "data") || same(mode, "frame")) {
        calls_of(same(mode, "header") ? header_run : same(mode, "data") ? data_run : frame_of, number_of(argv[2]), number_of(argv[3]));
        return 0;
    }
    if (same(mode, "items")) {
        items(number_of(argv[2]), number_of(argv[3]), argc < 5 ? 0 : number_of(argv[4]));
        return 0;
    }
    if (same(mode, "cut")) {
        cuts(number_of(argv[2]), number_of(argv[3]), argc < 5 ? 1 : number_of(argv[4]));
        return 0;
    }
    load(argv[2]);
    piece = number_of(argv[3]);
#if !defined PLAIN && !defined REPLAYED
    if (same(mode, "written")) {
        written();
        return 0;
    }
#endif
    runs = argc < 5 ? (size_t)-1 : number_of(argv[4]);
    less = argc < 6 ? 0 : number_of(argv[5]);
    telling = same(mode, "reports");
    if (same(mode, "empty")) {
        size_t calls = piece;
        piece = MOST;
        all();
        empty(calls);
        return 0;
    }
    if (same(mode, "stack")) {
        say_number(used_by(all), 10, 1);
        say("\n");
        return 0;
    }
    all();
    if (telling) {
        say("area ");
        say_number(hash(area, AREA), 16, 8);
        say("\n");
    }
    return 0;
}

void enter(long *stack_at_start)
{
    leave(begin((int)stack_at_start[0], (char **)(stack_at_start + 1)));
}

__asm__(".globl _start\n_start:\n\txorl %ebp, %ebp\n\tmovq %rsp, %rdi\n\tandq $-16, %rsp\n\tcall enter\n");

/* ---- what a compiler may call, much as a C library has it, so that the count depends on no C library */

typedef long long sixteen __attribute__((vector_size(16), aligned(1), may_alias));

static void move(uint8_t *to, const uint8_t *from) { *(sixteen *)to = *(const sixteen *)from; }

/* Sixty-four octets a turn; the last sixteen may be moved twice. */
void *memcpy(void *to, const void *from, size_t n)
{
    uint8_t *t = to;
    const uint8_t *f = from;
    if (n < 16) {
        while (n--) *t++ = *f++;
        return to;
    }
    uint8_t *last = t + n - 16;
    const uint8_t *f_last = f + n - 16;
    for (; 64 < n; n -= 64, t += 64, f += 64) {
        move(t, f);
        move(t + 16, f + 16);
        move(t + 32, f + 32);
        move(t + 48, f + 48);
    }
    for (; 16 < n; n -= 16, t += 16, f += 16) move(t, f);
    move(last, f_last);
    return to;
}

void *memmove(void *to, const void *from, size_t n)
{
    uint8_t *t = to;
    const uint8_t *f = from;
    if (t <= f)
        for (size_t i = 0; i < n; i++) t[i] = f[i];
    else
        while (n--) t[n] = f[n];
    return to;
}

void *memset(void *to, int value, size_t n)
{
    uint8_t *t = to;
    long long eight = (long long)(0x0101010101010101u * (uint8_t)value);
    for (; 16 <= n; n -= 16, t += 16) *(sixteen *)t = (sixteen){eight, eight};
    while (n--) *t++ = (uint8_t)value;
    return to;
}

int memcmp(const void *a, const void *b, size_t n)
{
    const uint8_t *x = a, *y = b;
    for (; n; n--, x++, y++)
        if (*x != *y) return *x < *y ? -1 : 1;
    return 0;
}
