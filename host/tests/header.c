/* Each promise of include/cadnohal.h, asked from C. Prints how many were kept; the exit status is 1 where one was not. */
#include <stdio.h>
#include <string.h>

#include "cadnohal.h"

#define N CADNOHAL_N
#define LENGTH(words) (sizeof(words) / sizeof((words)[0]))
#define TAIL(tag) N - (tag), (tag) * 100, tag
#define EXPRESSION(kind, a, b, c, tag) kind, a, b, c, N, N, N, N, N, N, TAIL(tag)

static unsigned asked, broken;

static void hold(int kept, const char *promise)
{
    asked++;
    if (!kept) {
        broken++;
        printf("broken: %s\n", promise);
    }
}

/* A module with every area and map, small enough to compare word by word. */
typedef struct {
    uint32_t types[3 * CADNOHAL_TYPE_WIDTH], constants[CADNOHAL_CONSTANT_WIDTH], overrides[CADNOHAL_OVERRIDE_WIDTH];
    uint32_t globals[CADNOHAL_GLOBAL_WIDTH], expressions[3 * CADNOHAL_EXPRESSION_WIDTH];
    uint32_t members[2], components[1], mentions[CADNOHAL_MENTION_WIDTH];
    uint32_t type_map[4], constant_map[2], override_map[2], global_map[2], expression_map[4];
} module;

/* Type 0 a leaf, type 1 an array sized by override 0, type 2 a struct of both; expression 0 a literal, 1 the constant,
 * 2 a compose of it; the mention names expression 2. Map words are 7, one more than there are records. */
static const module GOOD = {
    {0, 0, N, N, TAIL(10), 2, 0, 0, 0, TAIL(11), 3, 1, 0, 2, TAIL(12)},
    {0, 0, 0, TAIL(20)},
    {1, 0, 0, TAIL(30)},
    {0, N, TAIL(40)},
    {EXPRESSION(0, N, N, N, 50), EXPRESSION(5, 0, N, N, 51), EXPRESSION(8, 0, 0, 1, 52)},
    {0, 1},
    {1},
    {4, 2},
    {7, 7, 7, 7},
    {7, 7},
    {7, 7},
    {7, 7},
    {7, 7, 7, 7},
};

/* What No leaves of it: type 0, the constant, the three expressions and the component. */
static const module AFTER_NO = {
    {0, 0, N, N, TAIL(10), N, N, N, N, N, N, N, N, N, N, N, N, N, N},
    {0, 0, 0, TAIL(20)},
    {N, N, N, N, N, N},
    {N, N, N, N, N},
    {EXPRESSION(0, N, N, N, 50), EXPRESSION(5, 0, N, N, 51), EXPRESSION(8, 0, 0, 1, 52)},
    {N, N},
    {1},
    {4, 2},
    {0, N, N, 7},
    {0, 7},
    {N, 7},
    {N, 7},
    {0, 1, 2, 7},
};

/* The lengths of the thirteen slices, which a test may cut short. */
typedef struct {
    size_t types, overrides, mentions, type_map, expression_map;
} lengths;

static const lengths WHOLE = {LENGTH(GOOD.types), LENGTH(GOOD.overrides), LENGTH(GOOD.mentions), 4, 4};

static cadnohal_answer compact(module *m, lengths n, uint32_t keep_unused)
{
    return cadnohal_compact(
        m->types, n.types, m->constants, LENGTH(m->constants), m->overrides, n.overrides, m->globals, LENGTH(m->globals),
        m->expressions, LENGTH(m->expressions), m->members, 2, m->components, 1, m->mentions, n.mentions,
        m->type_map, n.type_map, m->constant_map, 2, m->override_map, 2, m->global_map, 2,
        m->expression_map, n.expression_map, keep_unused);
}

static cadnohal_answer check(const module *m, lengths n)
{
    return cadnohal_check(
        m->types, n.types, m->constants, LENGTH(m->constants), m->overrides, n.overrides, m->globals, LENGTH(m->globals),
        m->expressions, LENGTH(m->expressions), m->members, 2, m->components, 1, m->mentions, n.mentions,
        m->type_map, n.type_map, m->constant_map, 2, m->override_map, 2, m->global_map, 2,
        m->expression_map, n.expression_map);
}

static int answers(cadnohal_answer a, const uint32_t words[10])
{
    return memcmp(&a, words, sizeof a) == 0 && sizeof a == 40;
}

/* A refused module gives its number and place from both entries and is left word for word as it was. */
static void refused(module m, lengths n, uint32_t number, uint32_t area, uint32_t record, const char *promise)
{
    const module before = m;
    const uint32_t want[10] = {number, area, record, 0, 0, 0, 0, 0, 0, 0};
    hold(answers(check(&m, n), want), promise);
    hold(answers(compact(&m, n, 0), want), promise);
    hold(answers(compact(&m, n, 1), want), promise);
    hold(memcmp(&m, &before, sizeof m) == 0, promise);
}

static void accepted(void)
{
    static const uint32_t zero[10], kept_no[10] = {0, 0, 0, 1, 1, 0, 0, 3, 0, 1};
    static const uint32_t kept_yes[10] = {0, 0, 0, 3, 1, 1, 1, 3, 2, 1};
    const uint32_t yes[] = {1, 2, N};
    module m = GOOD;
    hold(answers(check(&m, WHOLE), zero), "check of a good module is all 0");
    hold(memcmp(&m, &GOOD, sizeof m) == 0, "check changes nothing");
    hold(answers(compact(&m, WHOLE, 0), kept_no), "the counts with No");
    hold(memcmp(&m, &AFTER_NO, sizeof m) == 0, "every word with No, map words past the records too");
    for (size_t i = 0; i < LENGTH(yes); i++) {
        module y = GOOD;
        hold(answers(compact(&y, WHOLE, yes[i]), kept_yes), "any word but 0 is Yes");
        hold(memcmp(y.types, GOOD.types, sizeof y.types) == 0, "nothing dropped, no record changed");
    }
    hold(answers(cadnohal_compact(NULL, 0, NULL, 0, NULL, 0, NULL, 0, NULL, 0, NULL, 0, NULL, 0, NULL, 0, NULL, 0,
                                  NULL, 0, NULL, 0, NULL, 0, NULL, 0, 0), zero), "an empty slice may be NULL");
    hold(answers(cadnohal_check(NULL, 0, NULL, 0, NULL, 0, NULL, 0, NULL, 0, NULL, 0, NULL, 0, NULL, 0, NULL, 0,
                                NULL, 0, NULL, 0, NULL, 0, NULL, 0), zero), "and in check");
}

/* Another span in each of count records. */
static void set_spans(uint32_t *records, size_t width, size_t count, const uint32_t span[2])
{
    for (uint32_t *end = records + width; count > 0; count--, end += width) {
        end[-CADNOHAL_SPAN_START] = span[0];
        end[-CADNOHAL_SPAN_LENGTH] = span[1];
    }
}

/* A span is any two words: they decide nothing, and the kept records have them afterwards. */
static void spans(void)
{
    static const uint32_t words[][2] = {{0, 0}, {N, N}, {N, 0}, {0, N}, {4, 34}, {N - 1, 1u << 31}};
    static const uint32_t kept_no[10] = {0, 0, 0, 1, 1, 0, 0, 3, 0, 1};
    for (size_t i = 0; i < LENGTH(words); i++) {
        module m = GOOD, want = AFTER_NO;
        set_spans(m.types, CADNOHAL_TYPE_WIDTH, 3, words[i]);
        set_spans(m.constants, CADNOHAL_CONSTANT_WIDTH, 1, words[i]);
        set_spans(m.overrides, CADNOHAL_OVERRIDE_WIDTH, 1, words[i]);
        set_spans(m.globals, CADNOHAL_GLOBAL_WIDTH, 1, words[i]);
        set_spans(m.expressions, CADNOHAL_EXPRESSION_WIDTH, 3, words[i]);
        set_spans(want.types, CADNOHAL_TYPE_WIDTH, 1, words[i]);
        set_spans(want.constants, CADNOHAL_CONSTANT_WIDTH, 1, words[i]);
        set_spans(want.expressions, CADNOHAL_EXPRESSION_WIDTH, 3, words[i]);
        hold(answers(compact(&m, WHOLE, 0), kept_no), "spans decide nothing");
        hold(memcmp(&m, &want, sizeof m) == 0, "kept records keep their spans, dropped ones' are N");
    }
    const uint32_t *second = GOOD.types + 2 * CADNOHAL_TYPE_WIDTH;
    hold(second[-CADNOHAL_SPAN_START] == N - 11 && second[-CADNOHAL_SPAN_LENGTH] == 1100 && second[-CADNOHAL_TAG] == 11,
         "the places of span and tag");
}

static void refusals(void)
{
    static uint32_t many[65537 * CADNOHAL_MENTION_WIDTH];
    module m = GOOD;
    lengths n = WHOLE;
    n.types--;
    refused(m, n, 1, 0, 0, "number 1");
    n = WHOLE;
    n.expression_map = 2;
    refused(m, n, 3, 4, 0, "number 3");
    m.types[0] = 4;
    refused(m, WHOLE, 4, 0, 0, "number 4, a kind");
    m = GOOD;
    m.expressions[2 * CADNOHAL_EXPRESSION_WIDTH] = 13;
    m.components[0] = 0;
    refused(m, WHOLE, 4, 6, 0, "number 4, a pool longer than its runs, before number 5");
    m = GOOD;
    m.expressions[CADNOHAL_EXPRESSION_WIDTH] = 27;
    refused(m, WHOLE, 5, 4, 1, "number 5");
    m = GOOD;
    m.members[1] = 3;
    refused(m, WHOLE, 6, 0, 2, "number 6, charged to the record that owns the run");
    m = GOOD;
    m.constants[2] = 1;
    refused(m, WHOLE, 7, 4, 1, "number 7");
    cadnohal_answer a = cadnohal_check(NULL, 0, NULL, 0, NULL, 0, NULL, 0, NULL, 0, NULL, 0, NULL, 0, many, LENGTH(many),
                                       NULL, 0, NULL, 0, NULL, 0, NULL, 0, NULL, 0);
    hold(answers(a, (const uint32_t[10]){2, 7, 0, 0, 0, 0, 0, 0, 0, 0}), "number 2");
}

/* A module of slices that all differ in length, the maps exactly as long as they must be: where two of the thirteen
 * are exchanged it is refused. With No type 2, expressions 3 and 4 and all globals but one go. */
typedef struct {
    uint32_t types[3 * CADNOHAL_TYPE_WIDTH], constants[2 * CADNOHAL_CONSTANT_WIDTH], overrides[CADNOHAL_OVERRIDE_WIDTH];
    uint32_t globals[8 * CADNOHAL_GLOBAL_WIDTH], expressions[5 * CADNOHAL_EXPRESSION_WIDTH];
    uint32_t members[7], components[9], mentions[5 * CADNOHAL_MENTION_WIDTH];
    uint32_t type_map[3], constant_map[2], override_map[1], global_map[8], expression_map[5];
} distinct;

static const distinct EACH = {
    {0, 0, N, N, TAIL(10), 2, 0, 0, 0, TAIL(11), 3, 0, 0, 7, TAIL(12)},
    {0, 0, 0, TAIL(20), 1, 0, 0, TAIL(21)},
    {0, 0, 0, TAIL(30)},
    {0, N, TAIL(40), 1, N, TAIL(41), 2, N, TAIL(42), 0, 0, TAIL(43), 0, N, TAIL(44), 0, N, TAIL(45), 0, N, TAIL(46),
     0, N, TAIL(47)},
    {EXPRESSION(0, N, N, N, 50), EXPRESSION(5, 0, N, N, 51), EXPRESSION(8, 0, 0, 4, 52), EXPRESSION(8, 0, 4, 5, 53),
     EXPRESSION(0, N, N, N, 54)},
    {0, 0, 1, 0, 1, 0, 0},
    {0, 1, 1, 0, 0, 1, 2, 2, 1},
    {4, 2, 3, 1, 0, 0, 1, 1, 4, 2},
    {7, 7, 7},
    {7, 7},
    {7},
    {7, 7, 7, 7, 7, 7, 7, 7},
    {7, 7, 7, 7, 7},
};

#define IN_FULL(array) array, LENGTH(array)
#define SLICE(array) {IN_FULL(array)}

static cadnohal_module by_name(distinct *d)
{
    const cadnohal_module m = {
        .types = SLICE(d->types),
        .constants = SLICE(d->constants),
        .overrides = SLICE(d->overrides),
        .globals = SLICE(d->globals),
        .expressions = SLICE(d->expressions),
        .members = SLICE(d->members),
        .components = SLICE(d->components),
        .mentions = SLICE(d->mentions),
        .type_map = SLICE(d->type_map),
        .constant_map = SLICE(d->constant_map),
        .override_map = SLICE(d->override_map),
        .global_map = SLICE(d->global_map),
        .expression_map = SLICE(d->expression_map),
    };
    return m;
}

/* Both functions over the struct answer and leave what the two in full do. Answers the number. */
static uint32_t alike(distinct d, uint32_t keep_unused, const char *promise)
{
    const distinct before = d;
    distinct full = d;
    const cadnohal_module m = by_name(&d);
    cadnohal_answer a = cadnohal_check(
        IN_FULL(full.types), IN_FULL(full.constants), IN_FULL(full.overrides), IN_FULL(full.globals),
        IN_FULL(full.expressions), IN_FULL(full.members), IN_FULL(full.components), IN_FULL(full.mentions),
        IN_FULL(full.type_map), IN_FULL(full.constant_map), IN_FULL(full.override_map), IN_FULL(full.global_map),
        IN_FULL(full.expression_map));
    cadnohal_answer b = cadnohal_check_module(&m);
    hold(memcmp(&a, &b, sizeof a) == 0, promise);
    hold(memcmp(&d, &before, sizeof d) == 0, promise);
    a = cadnohal_compact(
        IN_FULL(full.types), IN_FULL(full.constants), IN_FULL(full.overrides), IN_FULL(full.globals),
        IN_FULL(full.expressions), IN_FULL(full.members), IN_FULL(full.components), IN_FULL(full.mentions),
        IN_FULL(full.type_map), IN_FULL(full.constant_map), IN_FULL(full.override_map), IN_FULL(full.global_map),
        IN_FULL(full.expression_map), keep_unused);
    b = cadnohal_compact_module(&m, keep_unused);
    hold(memcmp(&a, &b, sizeof a) == 0, promise);
    hold(memcmp(&d, &full, sizeof d) == 0, promise);
    hold((memcmp(&d, &before, sizeof d) == 0) == (b.number != 0), promise);
    return b.number;
}

/* Two slices exchanged, whichever they are, are refused, where the slices in their places are not. */
static void exchanged(void)
{
    distinct d = EACH;
    cadnohal_module m = by_name(&d);
    cadnohal_slice *const fields[] = {
        &m.types, &m.constants, &m.overrides, &m.globals, &m.expressions, &m.members, &m.components, &m.mentions,
        &m.type_map, &m.constant_map, &m.override_map, &m.global_map, &m.expression_map,
    };
    hold(sizeof m == LENGTH(fields) * sizeof *fields[0], "each slice of the struct is tried");
    for (size_t i = 0; i < LENGTH(fields); i++) {
        for (size_t j = 0; j < i; j++) {
            const cadnohal_slice other = *fields[i];
            *fields[i] = *fields[j];
            *fields[j] = other;
            hold(cadnohal_check_module(&m).number != 0, "a check of exchanged slices is refused");
            hold(cadnohal_compact_module(&m, 0).number != 0, "a pass over exchanged slices is refused");
            m = by_name(&d);
        }
    }
    hold(cadnohal_check_module(&m).number == 0, "the slices in their places pass");
}

static void named(void)
{
    static const uint32_t zero[10], kept_no[10] = {0, 0, 0, 2, 2, 1, 1, 3, 0, 4};
    const cadnohal_module none = {0};
    hold(answers(cadnohal_check_module(&none), zero), "a struct of {0} is a module of empty slices");
    hold(answers(cadnohal_compact_module(&none, 1), zero), "and in a pass");
    distinct d = EACH;
    const cadnohal_module m = by_name(&d);
    hold(answers(cadnohal_compact_module(&m, 0), kept_no), "the counts by name");
    hold(alike(EACH, 0, "by name with No") == 0, "accepted");
    hold(alike(EACH, 1, "by name with Yes") == 0, "accepted");
    d = EACH;
    d.members[6] = 3;
    hold(alike(d, 0, "by name, number 6") == 6, "number 6");
    d = EACH;
    d.mentions[8] = 5;
    hold(alike(d, 1, "by name, number 4") == 4, "number 4");
    exchanged();
}

static void adjusts(const uint32_t *map, size_t length, uint32_t handle, uint32_t number, uint32_t want)
{
    cadnohal_adjusted a = cadnohal_adjust(map, length, handle);
    hold(a.number == number && a.handle == want, "adjust");
    hold(cadnohal_lookup(map, length, handle) == want, "lookup");
}

static void ranges(const uint32_t *map, size_t length, uint32_t start, uint32_t end, const uint32_t want[3])
{
    cadnohal_range r = cadnohal_adjust_range(map, length, start, end);
    hold(r.number == want[0] && r.start == want[1] && r.end == want[2], "range");
}

static void maps(void)
{
    static const uint32_t map[] = {N, 0, N, 1, 2}, falling[] = {5, 2}, last[] = {N - 1};
    adjusts(map, 5, 3, 0, 1);
    adjusts(map, 5, 0, 9, N);
    adjusts(map, 5, 5, 8, N);
    adjusts(map, 5, N, 8, N);
    adjusts(NULL, 0, 0, 8, N);
    ranges(map, 5, 0, 1, (const uint32_t[]){0, 0, 0});
    ranges(map, 5, 0, 2, (const uint32_t[]){0, 0, 1});
    ranges(map, 5, 1, 4, (const uint32_t[]){0, 0, 2});
    ranges(map, 5, 2, 5, (const uint32_t[]){0, 1, 3});
    ranges(map, 5, 5, 5, (const uint32_t[]){0, 0, 0});
    ranges(map, 5, 0, 6, (const uint32_t[]){8, N, N});
    ranges(map, 5, 3, 2, (const uint32_t[]){8, N, N});
    ranges(map, 5, 6, 6, (const uint32_t[]){8, N, N});
    ranges(falling, 2, 0, 2, (const uint32_t[]){0, 5, 3});
    ranges(last, 1, 0, 1, (const uint32_t[]){0, N - 1, N});
    ranges(NULL, 0, 0, 0, (const uint32_t[]){0, 0, 0});
}

int main(void)
{
    hold(cadnohal_abi() == CADNOHAL_ABI, "header and archive belong together");
    accepted();
    spans();
    refusals();
    named();
    maps();
    printf("header: %u of %u promises kept\n", asked - broken, asked);
    return broken == 0 ? 0 : 1;
}
