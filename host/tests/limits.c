/* Each area at its limit and past it, from C, and the stack that a call takes. Every call runs on a stack of its own that
 * was painted before; what is no longer paint was touched. Prints how many promises were kept and the most stack of each
 * function; the exit status is 1 where one was not. */
#define _GNU_SOURCE /* MAP_ANONYMOUS */
#include <stdio.h>
#include <stdlib.h>
#include <string.h>
#include <sys/mman.h>
#include <ucontext.h>

#include "cadnohal.h"

#define N CADNOHAL_N
#define MOST 65536u /* records of an arena */
#define AREAS 8
#define ARENAS 5
#define SLICES (AREAS + ARENAS)

static const size_t WIDTH[AREAS] = {
    CADNOHAL_TYPE_WIDTH, CADNOHAL_CONSTANT_WIDTH, CADNOHAL_OVERRIDE_WIDTH, CADNOHAL_GLOBAL_WIDTH,
    CADNOHAL_EXPRESSION_WIDTH, 1, 1, CADNOHAL_MENTION_WIDTH,
};
static const size_t LIMIT[AREAS] = {MOST, MOST, MOST, MOST, MOST, 4 * MOST, 4 * MOST, MOST};

static unsigned asked, broken;

static void hold(int kept, const char *promise, size_t at)
{
    asked++;
    if (!kept) {
        broken++;
        printf("broken: %s (%zu)\n", promise, at);
    }
}

/* The slices of a module, by name and by number: areas 0 to 7, then the maps of 0 to 4. */
typedef union {
    cadnohal_module by_name;
    cadnohal_slice at[SLICES];
} module;

/* How many words a slice may be lent with: one record more than the limit. */
static size_t room(size_t slice)
{
    return slice < AREAS ? (LIMIT[slice] + 1) * WIDTH[slice] : MOST + 1;
}

/* A module without words, with room for every area past its limit. */
static module empty(void)
{
    module m;
    for (size_t i = 0; i < SLICES; i++) {
        m.at[i].length = 0;
        m.at[i].words = calloc(room(i), sizeof *m.at[i].words);
        if (m.at[i].words == NULL) {
            perror("limits");
            exit(2);
        }
    }
    return m;
}

static void clear(module *m)
{
    for (size_t i = 0; i < SLICES; i++) {
        m->at[i].length = 0;
    }
}

static void push(module *m, size_t area, const uint32_t *words, size_t count)
{
    memcpy(m->at[area].words + m->at[area].length, words, count * sizeof *words);
    m->at[area].length += count;
}

#define PUSH(m, area, ...) \
    push(m, area, (const uint32_t[]){__VA_ARGS__}, sizeof((const uint32_t[]){__VA_ARGS__}) / sizeof(uint32_t))

/* The tail of record me: no two have the same, and of the first the span is N and 0. */
#define TAIL(me) N - (me), (me) * 0x9e3779b9u, me

/* count records in each arena, and four words a record in each pool, that refer to one another only; count is even. Of
 * types and expressions every other has a run of eight older ones, the types between are sized by overrides. */
static void fill(module *m, uint32_t count, uint32_t named)
{
    const uint32_t at = (uint32_t)(m->by_name.types.length / WIDTH[0]);
    for (uint32_t i = 0; i < count; i++) {
        const uint32_t me = at + i, sized = i != 0 && i % 2 == 0;
        if (i == 0) {
            PUSH(m, 0, 0, named, N, N, TAIL(me));
            PUSH(m, 4, 0, N, N, N, N, N, N, N, N, N, TAIL(me));
        } else if (sized) {
            PUSH(m, 0, 2, named, me - 1, me, TAIL(me));
            PUSH(m, 4, 6, me, N, N, N, N, N, N, N, N, TAIL(me));
        } else {
            PUSH(m, 0, 3, named, (uint32_t)m->by_name.members.length, 8, TAIL(me));
            PUSH(m, 4, 8, me, (uint32_t)m->by_name.components.length, 8, N, N, N, N, N, N, TAIL(me));
            for (uint32_t k = 0; k < 8; k++) {
                PUSH(m, 5, at + (i * 7 + k * 13) % i);
                PUSH(m, 6, at + (i * 7 + k * 13) % i);
            }
        }
        PUSH(m, 1, named, me, me, TAIL(me));
        PUSH(m, 2, named, at, sized ? me - 1 : N, TAIL(me));
        PUSH(m, 3, me, me, TAIL(me));
    }
}

/* Mentions of count globals from the first on, and maps of just the words that are needed, each 7. */
static void finish(module *m, uint32_t first, uint32_t count)
{
    for (uint32_t i = 0; i < count; i++) {
        PUSH(m, 7, 3, first + i);
    }
    for (size_t i = AREAS; i < SLICES; i++) {
        m->at[i].length = m->at[i - AREAS].length / WIDTH[i - AREAS];
        for (size_t word = 0; word < room(i); word++) {
            m->at[i].words[word] = 7;
        }
    }
}

/* All words of the slices, those past their lengths too. */
static void copy(module *to, const module *from)
{
    for (size_t i = 0; i < SLICES; i++) {
        memcpy(to->at[i].words, from->at[i].words, room(i) * sizeof(uint32_t));
        to->at[i].length = from->at[i].length;
    }
}

static int same(const module *a, const module *b)
{
    for (size_t i = 0; i < SLICES; i++) {
        if (memcmp(a->at[i].words, b->at[i].words, room(i) * sizeof(uint32_t)) != 0) {
            return 0;
        }
    }
    return 1;
}

/* The functions that are called on a painted stack. */
enum function { COMPACT, COMPACT_MODULE, CHECK, CHECK_MODULE, LOOKUP, ADJUST, ADJUST_RANGE, ABI, FUNCTIONS };

static const char *const NAMES[FUNCTIONS] = {
    "cadnohal_compact", "cadnohal_compact_module", "cadnohal_check", "cadnohal_check_module",
    "cadnohal_lookup", "cadnohal_adjust", "cadnohal_adjust_range", "cadnohal_abi",
};

static size_t most[FUNCTIONS];

/* The call at hand: what is called over what, and its answer. */
static struct {
    enum function function;
    const module *m;
    uint32_t keep_unused;
    cadnohal_answer answer;
    uintptr_t from; /* where the caller's frame is */
} now;

#define PAINT 0xa5
static unsigned char stack[256 * 1024];
static ucontext_t outside, inside;

static void perform(void)
{
    const cadnohal_slice *s = now.m->at;
    unsigned char here;
    now.from = (uintptr_t)&here;
    switch (now.function) {
    case COMPACT:
        now.answer = cadnohal_compact(
            s[0].words, s[0].length, s[1].words, s[1].length, s[2].words, s[2].length, s[3].words, s[3].length,
            s[4].words, s[4].length, s[5].words, s[5].length, s[6].words, s[6].length, s[7].words, s[7].length,
            s[8].words, s[8].length, s[9].words, s[9].length, s[10].words, s[10].length, s[11].words, s[11].length,
            s[12].words, s[12].length, now.keep_unused);
        break;
    case COMPACT_MODULE:
        now.answer = cadnohal_compact_module(&now.m->by_name, now.keep_unused);
        break;
    case CHECK:
        now.answer = cadnohal_check(
            s[0].words, s[0].length, s[1].words, s[1].length, s[2].words, s[2].length, s[3].words, s[3].length,
            s[4].words, s[4].length, s[5].words, s[5].length, s[6].words, s[6].length, s[7].words, s[7].length,
            s[8].words, s[8].length, s[9].words, s[9].length, s[10].words, s[10].length, s[11].words, s[11].length,
            s[12].words, s[12].length);
        break;
    case CHECK_MODULE:
        now.answer = cadnohal_check_module(&now.m->by_name);
        break;
    case LOOKUP:
        now.answer.number = cadnohal_lookup(s[8].words, s[8].length, MOST - 1);
        break;
    case ADJUST:
        now.answer.number = cadnohal_adjust(s[8].words, s[8].length, MOST - 1).number;
        break;
    case ADJUST_RANGE:
        now.answer.number = cadnohal_adjust_range(s[8].words, s[8].length, 0, MOST).number;
        break;
    default:
        now.answer.number = cadnohal_abi();
    }
}

/* Calls a function on a painted stack and notes how far below the caller it got. */
static cadnohal_answer call(enum function function, const module *m, uint32_t keep_unused)
{
    size_t clean = 0;
    memset(stack, PAINT, sizeof stack);
    now.function = function;
    now.m = m;
    now.keep_unused = keep_unused;
    getcontext(&inside);
    inside.uc_stack.ss_sp = stack;
    inside.uc_stack.ss_size = sizeof stack;
    inside.uc_link = &outside;
    makecontext(&inside, perform, 0);
    swapcontext(&outside, &inside);
    while (clean < sizeof stack && stack[clean] == PAINT) {
        clean++;
    }
    const size_t held = now.from - (uintptr_t)(stack + clean);
    if (held > most[function]) {
        most[function] = held;
    }
    return now.answer;
}

static int answers(cadnohal_answer a, uint32_t number, uint32_t area, uint32_t record)
{
    const cadnohal_answer want = {.number = number, .area = area, .record = record};
    return memcmp(&a, &want, sizeof a) == 0;
}

static module before, after;

/* A call gives the number and the place and leaves every word. */
static void leaves(enum function function, uint32_t keep_unused, cadnohal_answer want, const char *promise)
{
    const cadnohal_answer a = call(function, &after, keep_unused);
    hold(memcmp(&a, &want, sizeof a) == 0, promise, want.area);
    hold(same(&after, &before), promise, want.area);
}

/* The check and both passes, in both forms. An accepted module, number 0, is only checked. */
static void refused(uint32_t number, uint32_t area, uint32_t record, const char *promise)
{
    const cadnohal_answer want = {.number = number, .area = area, .record = record};
    copy(&after, &before);
    leaves(CHECK, 0, want, promise);
    leaves(CHECK_MODULE, 0, want, promise);
    for (uint32_t keep_unused = 0; number != 0 && keep_unused < 2; keep_unused++) {
        leaves(COMPACT, keep_unused, want, promise);
        leaves(COMPACT_MODULE, keep_unused, want, promise);
    }
}

/* Whether an arena has the tails of the last so many records before, and N in the records after them. */
static int moved(size_t arena, size_t records)
{
    const size_t width = WIDTH[arena], dropped = MOST - records;
    const uint32_t *old = before.at[arena].words + dropped * width, *now_at = after.at[arena].words;
    for (size_t end = width; end <= records * width; end += width) {
        const size_t tail = end - CADNOHAL_SPAN_START;
        if (memcmp(now_at + tail, old + tail, CADNOHAL_SPAN_START * sizeof *old) != 0) {
            return 0;
        }
    }
    for (size_t word = records * width; word < MOST * width; word++) {
        if (now_at[word] != N) {
            return 0;
        }
    }
    return 1;
}

/* What both forms of a pass over the module before keep, the last records of each arena, as many in each, and four times
 * as many words of the pools. */
static void kept(uint32_t keep_unused, uint32_t records, const char *promise)
{
    const cadnohal_answer want = {0, 0, 0, records, records, records, records, records, 4 * records, 4 * records};
    refused(0, 0, 0, promise);
    for (enum function form = COMPACT; form <= COMPACT_MODULE; form++) {
        copy(&after, &before);
        const cadnohal_answer a = call(form, &after, keep_unused);
        hold(memcmp(&a, &want, sizeof a) == 0, promise, form);
        for (size_t i = 0; i < ARENAS; i++) {
            hold(moved(i, records), promise, i);
        }
        for (size_t i = 0; records == MOST && i < AREAS; i++) {
            hold(memcmp(after.at[i].words, before.at[i].words, room(i) * sizeof(uint32_t)) == 0, promise, i);
        }
        /* The last record is the last that is kept, if any is; words past the records stay. */
        for (size_t i = AREAS; i < SLICES; i++) {
            hold(after.at[i].words[MOST - 1] == records - 1 && after.at[i].words[MOST] == 7, promise, i);
        }
        hold(call(LOOKUP, &after, 0).number == records - 1, promise, LOOKUP);
        hold(call(ADJUST, &after, 0).number == (records != 0 ? 0 : 9), promise, ADJUST);
        hold(call(ADJUST_RANGE, &after, 0).number == 0, promise, ADJUST_RANGE);
    }
}

/* Each slice of the module before with other lengths than it should have. */
static void lengths(void)
{
    for (uint32_t area = 0; area < AREAS; area++) {
        size_t *length = &before.at[area].length;
        const size_t whole = *length;
        hold(whole == LIMIT[area] * WIDTH[area], "the area is at its limit", area);
        *length = whole + WIDTH[area];
        refused(2, area, 0, "number 2 one past the limit");
        for (size_t extra = 1; extra < WIDTH[area]; extra++) {
            *length = whole + extra;
            refused(1, area, 0, "number 1 before number 2");
        }
        *length = whole;
    }
    for (uint32_t area = 0; area < ARENAS; area++) {
        before.at[AREAS + area].length--;
        refused(3, area, 0, "number 3 at the limit");
        before.at[AREAS + area].length++;
    }
}

/* One word of the module before changed, and what that is refused with. */
static void changed(size_t slice, size_t word, uint32_t value, uint32_t number, uint32_t area, uint32_t record)
{
    uint32_t *place = &before.at[slice].words[word];
    const uint32_t good = *place;
    *place = value;
    refused(number, area, record, "a fault near the end");
    *place = good;
}

/* Lengths of 2 to the 32nd words and more are lengths like any other: areas that nothing is written to or read of. */
static void huge(void)
{
    static const module none;
    const size_t most_words = (size_t)1 << 32, words = most_words + CADNOHAL_EXPRESSION_WIDTH;
    void *mapped = mmap(NULL, words * sizeof(uint32_t), PROT_READ, MAP_PRIVATE | MAP_ANONYMOUS | MAP_NORESERVE, -1, 0);
    if (mapped == MAP_FAILED) {
        perror("limits");
        exit(2);
    }
    for (uint32_t area = 0; area < AREAS; area++) {
        module m = none;
        m.at[area].words = mapped;
        m.at[area].length = (most_words + WIDTH[area] - 1) / WIDTH[area] * WIDTH[area];
        hold(answers(call(CHECK, &m, 0), 2, area, 0), "number 2 far past the limit", area);
        hold(answers(call(COMPACT, &m, 1), 2, area, 0), "number 2 far past the limit", area);
        if (WIDTH[area] > 1) {
            m.at[area].length++;
            hold(answers(call(CHECK, &m, 0), 1, area, 0), "number 1 far past the limit", area);
        }
    }
    munmap(mapped, words * sizeof(uint32_t));
}

int main(void)
{
    size_t sum = 0, deepest = 0;
    for (size_t i = 0; i < SLICES; i++) {
        sum += (i < AREAS ? LIMIT[i] * WIDTH[i] : MOST) * sizeof(uint32_t);
    }
    hold(sum == 13 * (1 << 20), "the slices at their limits are 13 MiB", sum);
    hold(call(ABI, &before, 0).number == CADNOHAL_ABI, "header and archive belong together", ABI);

    before = empty();
    after = empty();
    fill(&before, MOST, 1);
    finish(&before, 0, MOST);
    kept(1, MOST, "all kept at the limits");
    lengths();
    const size_t last_type = (MOST - 1) * CADNOHAL_TYPE_WIDTH;
    changed(0, last_type, 4, 4, 0, MOST - 1);
    changed(0, last_type + 3, 9, 4, 0, MOST - 1);
    changed(0, last_type + 3, 7, 4, 5, 0);
    changed(4, (MOST - 2) * CADNOHAL_EXPRESSION_WIDTH, 27, 5, 4, MOST - 2);
    changed(6, 4 * MOST - 1, MOST, 6, 4, MOST - 1);
    changed(6, 4 * MOST - 1, MOST - 1, 7, 4, MOST - 1);
    changed(7, MOST * 2 - 1, MOST, 6, 7, MOST - 1);
    huge();

    clear(&before);
    fill(&before, MOST, 0);
    finish(&before, 0, 0);
    kept(0, 0, "nothing kept at the limits");

    clear(&before);
    fill(&before, MOST / 2, 0);
    fill(&before, MOST / 2, 1);
    finish(&before, MOST / 2, MOST / 2);
    for (uint32_t i = 0; i < MOST / 2; i++) {
        PUSH(&before, 7, 2, MOST / 2 + i);
    }
    kept(0, MOST / 2, "half kept at the limits");

    for (enum function function = 0; function < FUNCTIONS; function++) {
        printf("limits: %-23s %6zu bytes of stack\n", NAMES[function], most[function]);
        deepest = most[function] > deepest ? most[function] : deepest;
    }
    /* The header's figures. */
    hold(most[COMPACT] <= 46600, "cadnohal_compact holds no more stack than the header says", most[COMPACT]);
    hold(most[CHECK] <= 1300, "nor does cadnohal_check", most[CHECK]);
    hold(deepest <= CADNOHAL_STACK, "no call holds more than CADNOHAL_STACK bytes of stack", deepest);
    hold(CADNOHAL_STACK - deepest < 4096, "which has less than 4 KiB to spare", deepest);
    hold(CADNOHAL_STACK < 64 * 1024, "and is less than 64 KiB", CADNOHAL_STACK);
    printf("limits: %u of %u promises kept\n", asked - broken, asked);
    return broken == 0 ? 0 : 1;
}
