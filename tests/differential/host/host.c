/* A host of the archive: reads calls from standard input, makes them, and writes the answers to standard output.
 *
 * It needs no C library, as the archive does not, so that the archive is tried as it is shipped.
 *
 * Everything is in 64-bit words, little-endian. A frame is its length in words, then its calls. A call is
 *   number of the entry, count of arguments, mask of the arguments that are buffers, mask of those that are handed back,
 *   one word for each argument (for a buffer its length in bytes), then the buffers' bytes, each padded to a word.
 * An answer is the two words that a function may return in registers, then the bytes of each buffer handed back.
 * A result that is larger than two words is a first argument that is a buffer handed back. */
typedef unsigned long word;
typedef struct { word low, high; } pair;

enum { MOST = 26, ROOM = 16 * 1024 * 1024 };

#define ENTRY(name) extern char name[];
#include "entries.h"
#undef ENTRY
static char *const entries[] = {
#define ENTRY(name) name,
#include "entries.h"
#undef ENTRY
};

static word request[ROOM], answer[ROOM];

__asm__(".globl _start\n_start:\n  xor %ebp, %ebp\n  and $-16, %rsp\n  call serve\n  hlt\n");

static long system_call(long number, long a, long b, long c) {
    long result;
    __asm__ volatile("syscall" : "=a"(result) : "a"(number), "D"(a), "S"(b), "d"(c) : "rcx", "r11", "memory");
    return result;
}

void *memcpy(void *to, const void *from, word count) {
    void *start = to;
    __asm__ volatile("rep movsb" : "+D"(to), "+S"(from), "+c"(count) : : "memory");
    return start;
}

void *memset(void *to, int byte, word count) {
    void *start = to;
    __asm__ volatile("rep stosb" : "+D"(to), "+c"(count) : "a"(byte) : "memory");
    return start;
}

static void leave(int status) {
    for (;;) system_call(60, status, 0, 0);
}

/* Reads all of the bytes; the end of the input before the first is the end of the run. */
static void take(void *to, word bytes, int may_end) {
    char *at = to;
    while (bytes > 0) {
        long got = system_call(0, 0, (long)at, (long)bytes);
        if (got == 0 && may_end) leave(0);
        if (got <= 0) leave(1);
        at += got, bytes -= (word)got, may_end = 0;
    }
}

static void give(const void *from, word bytes) {
    const char *at = from;
    while (bytes > 0) {
        long put = system_call(1, 1, (long)at, (long)bytes);
        if (put <= 0) leave(1);
        at += put, bytes -= (word)put;
    }
}

typedef pair entry(word, word, word, word, word, word, word, word, word, word, word, word, word,
                   word, word, word, word, word, word, word, word, word, word, word, word, word);

void serve(void) {
    for (;;) {
        word length;
        take(&length, 8, 1);
        if (length > ROOM) leave(2);
        take(request, 8 * length, 0);
        word *at = request, *out = answer, *end = request + length;
        while (at < end) {
            word number = at[0], count = at[1], buffers = at[2], back = at[3];
            if (number >= sizeof entries / sizeof *entries || count > MOST) leave(3);
            word argument[MOST] = {0}, *given = at + 4, *next = given + count;
            for (word i = 0; i < count; i++) {
                argument[i] = given[i];
                if (buffers >> i & 1) argument[i] = (word)next, next += (given[i] + 7) / 8;
            }
            word *a = argument;
            pair got = ((entry *)entries[number])(a[0], a[1], a[2], a[3], a[4], a[5], a[6], a[7], a[8], a[9], a[10],
                                                  a[11], a[12], a[13], a[14], a[15], a[16], a[17], a[18], a[19], a[20],
                                                  a[21], a[22], a[23], a[24], a[25]);
            *out++ = got.low, *out++ = got.high;
            for (word i = 0; i < count; i++) {
                word words = (given[i] + 7) / 8;
                if (!(back >> i & 1)) continue;
                if ((word)(answer + ROOM - out) < words) leave(4);
                memcpy(out, (void *)argument[i], 8 * words);
                out += words;
            }
            at = next;
        }
        give(answer, 8 * (word)(out - answer));
    }
}
