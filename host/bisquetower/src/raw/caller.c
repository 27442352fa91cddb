// Calls the proved library for a host that runs on another processor than the library's.
//
// Standard input carries batches. A batch is three words: the length of its requests in bytes, what fresh words hold
// before a call, and how many bytes of stack a call has, 0 for the program's own; then the requests. A request is three
// words, the call's number and above it, from bit 32, how many arguments it has, and two of the arguments' kinds, two bits
// each, lowest first, 32 of them a word; then a word for each argument, and what stands in the memory of those that are
// read or written, each up to a whole word.
//
//     number     its word is passed
//     read       its word is a length in bytes, and a pointer to memory of that length is passed
//     written    the same
//     fresh      the same, and nothing stands there yet: a length of whole words
//
// Once a batch is read whole, standard output gets for each request the memory of its written and fresh arguments, each
// up to a whole word, and in the end two words: how many requests there were, so that the host waits even for calls that
// write nothing, and how many bytes of their stack the calls used, 0 for the program's own. Words are 64 bits,
// little-endian. The end of the input ends the program.
//
// There is no C library here: this is built for a processor whose headers the host needn't have.

typedef unsigned char u8;
typedef unsigned long u64;

// In this processor's C convention a caller puts the arguments away and a function looks at its own alone, so one type
// with more of them than any function has serves them all.
typedef void function(u64, u64, u64, u64, u64, u64, u64, u64, u64, u64, u64, u64, u64, u64, u64, u64,
                      u64, u64, u64, u64, u64, u64, u64, u64, u64, u64, u64, u64, u64, u64, u64, u64,
                      u64, u64, u64, u64, u64, u64, u64, u64);

// calls.h is written by build.rs: CALL(name) for every exported function, in the order of their numbers.
#define CALL(name) function name;
#include "calls.h"
#undef CALL
#define CALL(name) name,
static function *const calls[] = {
#include "calls.h"
};

enum { CALLS = sizeof calls / sizeof *calls, ARGUMENTS = 40 };

// Words before a request's arguments, and how many kinds stand in one of them.
enum { HEAD = 3, KINDS = 32 };

enum kind { NUMBER, READ, WRITTEN, FRESH };

// How the program ends when something is wrong; of WROTE_OUTSIDE the call's number is added.
enum end { DONE, BAD_BATCH, BAD_PIPE, BAD_STACK, WROTE_OUTSIDE = 16 };

// GUARD is in words.
enum { WORD = 8, ROOM = (64 << 20) / WORD, GUARD = 8, GUARD_BYTE = 0xa5 };

static const u64 guard_word = 0xa5a5a5a5a5a5a5a5;

// A call is passed as many words as the longest has, its own first; those after a request's end are read and ignored.
static u64 requests[ROOM + ARGUMENTS], answers[ROOM], lent[ROOM];

static long system_call(long number, long a, long b, long c) {
    long result;
    __asm__ volatile("syscall" : "=a"(result) : "a"(number), "D"(a), "S"(b), "d"(c) : "rcx", "r11", "memory");
    return result;
}

static void finish(u64 status) {
    for (;;) system_call(231, (long)status, 0, 0);
}

// Reads it all. The input may end before the first byte of a batch, and nowhere else.
static void receive(u64 *words, u64 length, int may_end) {
    u8 *to = (u8 *)words;
    for (u64 got = 0; got < length;) {
        long n = system_call(0, 0, (long)(to + got), (long)(length - got));
        if (n == 0 && got == 0 && may_end) finish(DONE);
        if (n <= 0) finish(BAD_PIPE);
        got += (u64)n;
    }
}

static void send(const u64 *words, u64 length) {
    const u8 *from = (const u8 *)words;
    for (u64 put = 0; put < length;) {
        long n = system_call(1, 1, (long)(from + put), (long)(length - put));
        if (n <= 0) finish(BAD_PIPE);
        put += (u64)n;
    }
}

static u64 whole_words(u64 length) { return length / WORD + (length % WORD != 0); }

static void fill(u64 *to, u64 word, u64 count) {
    for (u64 i = 0; i < count; i++) to[i] = word;
}

static void copy(u64 *to, const u64 *from, u64 count) {
    for (u64 i = 0; i < count; i++) to[i] = from[i];
}

// What a compiler may ask of a C library even where there is none; docs/ABI.md says what libbisquetower.a asks for.
void *memset(void *start, int byte, u64 length) {
    u8 *to = start;
    for (u64 i = 0; i < length; i++) to[i] = (u8)byte;
    return start;
}

void *memmove(void *start, const void *source, u64 length) {
    u8 *to = start;
    const u8 *from = source;
    if (to < from) for (u64 i = 0; i < length; i++) to[i] = from[i];
    else for (u64 i = length; i > 0; i--) to[i - 1] = from[i - 1];
    return start;
}

void *memcpy(void *start, const void *source, u64 length) { return memmove(start, source, length); }

// A buffer that a call may write, and the guards around it. Those of two neighbours are one.
struct buffer {
    u64 *start, length;
};

// The bytes from a buffer's last to the next whole word are guards too.
static void set_guard(struct buffer b) {
    u64 words = b.length / WORD, cut = b.length % WORD;
    if (cut != 0) b.start[words] = (b.start[words] & ~(~0ul << 8 * cut)) | (guard_word & ~0ul << 8 * cut), words++;
    fill(b.start + words, guard_word, GUARD);
}

static int guarded(struct buffer b) {
    u64 words = b.length / WORD, cut = b.length % WORD, differing = 0;
    if (cut != 0) differing = (b.start[words++] ^ guard_word) & ~0ul << 8 * cut;
    for (u64 i = 0; i < GUARD; i++) differing |= b.start[words + i] ^ guard_word;
    return differing == 0;
}

// Six arguments go in registers, and putting none on the stack is the faster call.
typedef void short_function(u64, u64, u64, u64, u64, u64);

// Not static: on_stack names it.
void call(function *f, const u64 *a, u64 count) {
    if (count <= 6) return ((short_function *)(u64)f)(a[0], a[1], a[2], a[3], a[4], a[5]);
    f(a[0], a[1], a[2], a[3], a[4], a[5], a[6], a[7], a[8], a[9], a[10], a[11], a[12], a[13], a[14], a[15],
      a[16], a[17], a[18], a[19], a[20], a[21], a[22], a[23], a[24], a[25], a[26], a[27], a[28], a[29], a[30], a[31],
      a[32], a[33], a[34], a[35], a[36], a[37], a[38], a[39]);
}

// A stack for calls that are to have a number of bytes and no more: below them is memory that can't be touched, so that one
// byte too many ends the program. The guard is as long as a page of any machine that emulates this one.
enum { STACK_ROOM = 4 << 20, STACK_GUARD = 64 << 10, STACK_ALIGNMENT = 16 };

// What a painted word holds differs by its place, so that no register has it: a call that puts a register there changes it.
static u64 paint(const u64 *at) { return (u64)at ^ 0x5ac5ac5ac5ac5ac5; }

static u8 stack[STACK_GUARD + STACK_ROOM] __attribute__((aligned(STACK_GUARD)));

void on_stack(u64 *top, function *f, const u64 *arguments, u64 count);

// `call` with another stack, which is aligned as a C function expects it before its return address is put there.
__asm__("on_stack:\n"
        "\tpush %rbp\n\tmov %rsp, %rbp\n"
        "\tmov %rdi, %rsp\n\tmov %rsi, %rdi\n\tmov %rdx, %rsi\n\tmov %rcx, %rdx\n"
        "\tcall call\n"
        "\tmov %rbp, %rsp\n\tpop %rbp\n\tret\n");

// A call that dies leaves no file behind.
static void guard_stack(void) {
    static const u64 no_core[2];
    system_call(160, 4, (long)no_core, 0);
    if (system_call(10, (long)stack, STACK_GUARD, 0) != 0) finish(BAD_STACK);
}

// Makes the call on a stack of `bytes` bytes, painted before; returns how many of them it used.
static u64 call_on(u64 bytes, function *f, const u64 *arguments, u64 count) {
    if (STACK_ROOM < bytes || bytes % STACK_ALIGNMENT != 0) finish(BAD_STACK);
    u64 *low = (u64 *)(stack + STACK_GUARD), *top = low + bytes / WORD, *at = low;
    for (u64 *word = low; word < top; word++) *word = paint(word);
    on_stack(top, f, arguments, count);
    while (at < top && *at == paint(at)) at++;
    return (u64)(top - at) * WORD;
}

// One request. Memory that is written is lent between guards, so that a byte written outside of it is seen; memory that
// is read is lent where it stands. Returns the place after the request.
static u64 *serve(u64 *request, const u64 *end, u64 unwritten, u64 stack_bytes, u64 *used, u64 *deepest) {
    static struct buffer buffers[ARGUMENTS];
    if (end - request < HEAD) finish(BAD_BATCH);
    u64 which = *request & 0xffffffff, count = *request >> 32, written = 0;
    if (CALLS <= which || ARGUMENTS < count || (u64)(end - request) < HEAD + count) finish(BAD_BATCH);
    u64 *arguments = request + HEAD, *at = arguments + count;
    u64 *free = lent + GUARD, *last = lent + ROOM;
    for (u64 k = 0; k < (HEAD - 1) * KINDS;) {
        // The next one that isn't a number.
        u64 kinds = request[1 + k / KINDS] >> 2 * (k % KINDS);
        if (kinds == 0) {
            k += KINDS - k % KINDS;
            continue;
        }
        k += (u64)__builtin_ctzl(kinds) / 2;
        enum kind kind = request[1 + k / KINDS] >> 2 * (k % KINDS) & 3;
        u64 length = arguments[k], words = whole_words(length), standing = kind == FRESH ? 0 : words;
        if (count <= k || (u64)(end - at) < standing) finish(BAD_BATCH);
        arguments[k] = (u64)(kind == READ ? at : free);
        if (kind != READ) {
            if ((u64)(last - free) < words + GUARD) finish(BAD_BATCH);
            struct buffer b = {free, length};
            if (kind == FRESH) fill(free, unwritten, words);
            else copy(free, at, words);
            set_guard(b);
            buffers[written++] = b;
            free += words + GUARD;
        }
        at += standing;
        k++;
    }
    if (stack_bytes == 0) {
        call(calls[which], arguments, count);
    } else {
        u64 deep = call_on(stack_bytes, calls[which], arguments, count);
        if (*deepest < deep) *deepest = deep;
    }
    struct buffer front = {lent, 0};
    if (!guarded(front)) finish(WROTE_OUTSIDE + which);
    for (u64 k = 0; k < written; k++) {
        if (!guarded(buffers[k])) finish(WROTE_OUTSIDE + which);
        u64 words = whole_words(buffers[k].length);
        if (ROOM - *used < words) finish(BAD_BATCH);
        copy(answers + *used, buffers[k].start, words);
        *used += words;
    }
    return at;
}

void run(void) {
    fill(lent, guard_word, GUARD);
    guard_stack();
    for (;;) {
        u64 header[3], tail[2] = {0, 0};
        receive(header, sizeof header, 1);
        u64 words = header[0] / WORD, used = 0;
        if (ROOM < words || header[0] % WORD != 0) finish(BAD_BATCH);
        receive(requests, header[0], 0);
        const u64 *end = requests + words;
        for (u64 *at = requests; at < end; tail[0]++) at = serve(at, end, header[1], header[2], &used, &tail[1]);
        send(answers, used * WORD);
        send(tail, sizeof tail);
    }
}

// The stack is aligned at the program's start; `call` leaves it as a C function expects it.
__asm__(".globl _start\n_start:\n\txor %ebp, %ebp\n\tcall run\n");
