/* Measures the stack that a call needs, and runs the calls with just that much. Each call is made on a stack of its own below which nothing can be touched.
 *
 * Measured: the stack is painted, and after the call the deepest byte that is no longer paint is looked for. Then, each in a process of its own: the call is done
 * with FE_STACK_MAX bytes and with the bytes measured; with just less, and with half, it ends by a fault. The stack is counted from the caller's frame.
 * The last line is 'N passed, M failed'. */
#define _GNU_SOURCE
#include "calls.h"

#include <signal.h>
#include <stdio.h>
#include <stdlib.h>
#include <string.h>
#include <sys/mman.h>
#include <sys/wait.h>
#include <ucontext.h>
#include <unistd.h>

enum { PAINT = 0xA5, PAGE = 4096, STACK = 1 << 20, NAMED = 16, ALIGNED = 16 };

static uint8_t links[FE_LINKS_MAX], index_bytes[FE_INDEX_MAX], back[FE_LINKS_MAX], second[FE_INDEX_MAX], accounts[2 * NAMED], answer[FE_CHAIN_MAX], desk[FE_DESK];
static uint8_t records[FE_RECORDS_MAX * FE_RECORD], taken[FE_RECORDS_MAX], margins[FE_MARGIN];
static size_t links_len, length;
static uint32_t last;
static char *stack; /* its lowest byte; right below it lies a guard page */
static ucontext_t home, there;

/* The call to be made, what it gave, and where its caller's frame was. */
static struct asked asked;
static fe_reply reply;
static uintptr_t entry;

/* ---- cards ---- */

static uint8_t *put(uint8_t *at, uint32_t a, uint32_t b) {
    *at++ = 6, *at++ = (uint8_t)(a >> 8), *at++ = (uint8_t)a, *at++ = (uint8_t)(b >> 8), *at++ = (uint8_t)b;
    return at;
}

/* All pairs of the first accounts: every part of the build has work. With a nest, one more account for each lower strength down to 3, linked to so many of
 * the first less one: each group lies in the next, and a question climbs through all of them. The last account that is linked is linked to 0 and 1 in either; one more has no link, so that one can be put in. */
static void draw(uint32_t first, int nest) {
    uint8_t *at = links + 5;
    for (last = 1; last < first; last++)
        for (uint32_t a = 0; a < last; a++) at = put(at, a, last);
    if (nest)
        for (uint32_t ends = first - 2; ends >= 2; ends--, last++)
            for (uint32_t a = 0; a < ends; a++) at = put(at, a, last);
    size_t count = (size_t)(at - links) / 5 - 1;
    links[0] = 1, links[1] = (uint8_t)((last + 1) >> 8), links[2] = (uint8_t)(last + 1), links[3] = (uint8_t)(count >> 8), links[4] = (uint8_t)count;
    *at++ = 5;
    links_len = (size_t)(at - links);
    last--;
    for (uint8_t a = 0; a < NAMED; a++) accounts[2 * a + 1] = a;
    for (uint32_t i = 0; i < FE_RECORDS_MAX; i++) records[FE_RECORD * i + 4] = (uint8_t)(i % (last + 2)), records[FE_RECORD * i + 8] = 1; /* a penny on each in turn */
}

/* The call on this card that goes deepest. */
static void prepare(enum call call, size_t room) {
    asked = (struct asked){.call = call, .k = 3, .number = {0, 1, 1, last}, .read = {index_bytes, length}, .accounts = {accounts, sizeof accounts},
                           .buffer = {answer, sizeof answer}, .window = FE_WINDOWS - 1, .desk = {desk, sizeof desk}};
    if (call == STRENGTH || call == WITHDRAW) asked.number[0] = 1, asked.number[1] = last;
    if (call == PUT_IN) asked.number[1] = last + 1;
    if (is_change(call)) asked.buffer = (struct slice){second, sizeof second};
    if (call == TRY_LIMIT) {
        asked.records = (struct slice){records, sizeof records}, asked.limit = FE_RECORDS_MAX / 2;
        asked.buffer = (struct slice){taken, sizeof taken}, asked.margins = (struct slice){margins, sizeof margins};
    }
    if (call == CHAIN) asked.number[0] = 2, asked.number[1] = 3; /* two triangles from 1-last, or three */
    if (call == READ) asked.buffer = (struct slice){back, sizeof back};
    if (call == BUILD) asked.read = (struct slice){links, links_len}, asked.buffer = (struct slice){index_bytes, room};
}

/* ---- a stack of its own ---- */

static void run(void) {
    char here;
    entry = (uintptr_t)&here;
    if (asked.call < CALLS) reply = make_call(&asked);
}

/* Makes the call on the lowest `size` bytes of the stack. */
static void on_stack(size_t size) {
    if (getcontext(&there)) exit(2);
    there.uc_stack.ss_sp = stack, there.uc_stack.ss_size = size, there.uc_link = &home;
    makecontext(&there, run, 0);
    if (swapcontext(&home, &there)) exit(2);
}

/* Bytes of the stack below the caller's frame that are no longer paint. */
static long deep(void) {
    memset(stack, PAINT, STACK);
    on_stack(STACK);
    char *low = stack;
    while ((uintptr_t)low < entry && *low == (char)PAINT) low++;
    return (long)(entry - (uintptr_t)low);
}

/* How the call ends with so many bytes below its caller's frame, to within the stack's alignment: at least so many, or at most. 0 if done with the same reply, else
 * the signal, or -1. */
static int ends_with(long bytes, int at_least) {
    fe_reply wanted = reply;
    long above = (long)((uintptr_t)stack + STACK - entry), size = bytes + above;
    size += at_least ? (ALIGNED - size % ALIGNED) % ALIGNED : -(size % ALIGNED);
    int status;
    fflush(stdout);
    pid_t child = fork();
    if (child < 0) return -1;
    if (child == 0) {
        on_stack((size_t)size);
        long room = (long)(entry - (uintptr_t)stack);
        int fits = at_least ? room >= bytes && room < bytes + ALIGNED : room <= bytes && room > bytes - ALIGNED;
        _exit(fits && memcmp(&reply, &wanted, sizeof reply) == 0 ? 0 : 1);
    }
    if (waitpid(child, &status, 0) != child) return -1;
    return WIFSIGNALED(status) ? WTERMSIG(status) : WEXITSTATUS(status) ? -1 : 0;
}

/* ---- checks ---- */

static int passed, failed;

static void check(const char *name, const char *what, int holds) {
    if (holds) {
        passed++;
    } else {
        failed++;
        printf("FAILED stack: %s: %s\n", name, what);
    }
}

/* Measures a call and makes it with more, just as much, and less. */
static long all_of(const char *name, long none, uint32_t refusal) {
    long took = deep();
    check(name, "reply", reply.refusal == refusal);
    check(name, "more than no call and at most FE_STACK_MAX", took > none && took <= FE_STACK_MAX);
    check(name, "done with FE_STACK_MAX", ends_with(FE_STACK_MAX, 1) == 0);
    check(name, "done with what was measured", ends_with(took, 1) == 0);
    check(name, "a fault with just less", ends_with(took - 1, 0) == SIGSEGV);
    check(name, "a fault with half", ends_with(took / 2, 1) == SIGSEGV);
    return took;
}

static char *stack_between_guards(void) {
    char *whole = mmap(NULL, STACK + 2 * PAGE, PROT_NONE, MAP_PRIVATE | MAP_ANONYMOUS, -1, 0);
    if (whole == MAP_FAILED || mprotect(whole + PAGE, STACK, PROT_READ | PROT_WRITE)) exit(2);
    return whole + PAGE;
}

int main(void) {
    long most[CALLS] = {0};
    stack = stack_between_guards();
    asked.call = CALLS; /* no call */
    long none = deep();
    check("no call", "some bytes", none >= 0);
    /* The first call may find memset not bound yet, and the dynamic linker takes stack to bind it. */
    draw(64, 0);
    prepare(BUILD, sizeof index_bytes);
    long first = deep();
    check("the first call", "at most FE_STACK_MAX", first <= FE_STACK_MAX);
    for (int nest = 0; nest <= 1; nest++) {
        draw(nest ? 46 : 64, nest);
        for (enum call call = BUILD; call < CALLS; call++) {
            prepare(call, sizeof index_bytes);
            long took = all_of(name_of(call), none, 0);
            if (call == BUILD) length = reply.value;
            if (took > most[call]) most[call] = took;
        }
    }
    prepare(BUILD, 0);
    long refused = all_of("fe_build refused", none, 12);
    printf("stack: FE_STACK_MAX is %d; taken: %ld by no call, %ld by the first call, %ld by fe_build refused", FE_STACK_MAX, none, first, refused);
    for (enum call call = BUILD; call < CALLS; call++) printf(", %ld by %s", most[call], name_of(call));
    printf("\n%d passed, %d failed\n", passed, failed);
    return failed != 0;
}
