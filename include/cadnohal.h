/* Cadnohal: compacts a flat shader module in place, or refuses it with a number and a place and changes nothing.
 *
 * Link libcadnohal.a (`bash build.sh` writes it to target/staticlib). It needs memset and nothing else, takes no
 * memory, keeps no state, and holds less than 64 KiB of stack: 45.3 KiB as measured, CADNOHAL_STACK with some to spare.
 *
 * Every function takes any words: it checks everything itself, and for each content of the slices its answer and every
 * word afterwards are fixed, refused input too. That is proved of the library's code.
 *
 * One duty is the caller's, since nothing can check it: each pointer is good for its length, and the slices of one
 * call don't overlap. A slice is a pointer and its length in words, not bytes; an empty one may be NULL with 0.
 *
 * C99 or C++. cadnohal_compact_module and cadnohal_check_module take the slices by name, in a struct; what they call,
 * cadnohal_compact and cadnohal_check, takes them in the order below.
 *
 * The areas, in this order. A record is so many words; a handle is a record's place in its area, from 0.
 *
 *   0 types        kind, flags, a, b, start, length, tag            at most  65536 records
 *   1 constants    named, type, init, start, length, tag                     65536
 *   2 overrides    named, type, init or N, start, length, tag                65536
 *   3 globals      type, init or N, start, length, tag                       65536
 *   4 expressions  kind, nine slots, start, length, tag                      65536
 *   5 members      one type handle                                          262144
 *   6 components   one expression handle                                    262144
 *   7 mentions     area 0 to 4, handle                                       65536
 *
 * Start, length and tag are the host's own: any words, carried along unread. Start and length are the record's span,
 * such as where in the generator's text the element stands, so that a refused record leads to its line. Those of a
 * dropped record become N with its other words.
 *
 * Each of areas 0 to 4 has a map of at least as many words as it has records. With every area at its limit the thirteen
 * slices are 13 MiB.
 *
 * The mentions are what functions, entry points and special types name; each is a root, whatever the flag. The Rust
 * with KeepUnused::No traces only the entry points and the functions that calls reach from them, with Yes every
 * function. A host that wants the same kept gives the mentions of just those: what an unreached function names would
 * stay too if it were mentioned. Two things need a mention though no function names them: the u32 type of a mesh or
 * task stage, which the Rust keeps of itself, and the global of an entry point's incoming_ray_payload, which the Rust
 * forgets: it drops that global if nothing else names it, and leaves the old handle in the entry point.
 *
 * The numbers of an answer:
 *
 *   0  accepted
 *   1  an area's length isn't a multiple of its record width
 *   2  an area has more records than its limit
 *   3  a map is shorter than its arena's record count; the area is the map's arena
 *   4  a kind, flag, form, mention area, unused slot or pool run breaks the rules
 *   5  expression kind 13 (GlobalVariable) or 27 (CallResult)
 *   6  a handle that must be there is N, or any handle isn't below its area's record count
 *   7  a type or expression isn't well ordered
 *   8  map adjust or range: handle not below the map's length, range end above it, or range start after its end
 *   9  map adjust: the handle was dropped
 *
 * 1 to 7 are tried in turn; within one number the first fault in area order, lowest record first, is the one reported.
 */
#ifndef CADNOHAL_H
#define CADNOHAL_H

#include <stddef.h>
#include <stdint.h>

#ifdef __cplusplus
extern "C" {
#endif

/* The form of this boundary: it goes up by one where a function's form or meaning, or a record's form, changes. */
#define CADNOHAL_ABI 2

/* The version of this header and of the Rust crate. */
#define CADNOHAL_VERSION "0.2.0"

/* The CADNOHAL_ABI that the archive was built with. Header and archive belong together where the two are equal: ask
 * once, before the first call of any other function, whose arguments are read wrongly where they are not. */
uint32_t cadnohal_abi(void);

/* Bytes of stack that are enough for any call, the arguments on it included. Measured at the limits, of the x86-64
 * archive: below 46,600 for cadnohal_compact, 1,300 for cadnohal_check, fewer for the others. */
#define CADNOHAL_STACK 49152

/* "No handle". */
#define CADNOHAL_N 4294967295u

/* How many words a record has; one of a pool has one. */
#define CADNOHAL_TYPE_WIDTH 7
#define CADNOHAL_CONSTANT_WIDTH 6
#define CADNOHAL_OVERRIDE_WIDTH 6
#define CADNOHAL_GLOBAL_WIDTH 5
#define CADNOHAL_EXPRESSION_WIDTH 13
#define CADNOHAL_MENTION_WIDTH 2

/* How far before the end of a record of areas 0 to 4 its span and its tag stand. The start of type r is
 * types[(r + 1) * CADNOHAL_TYPE_WIDTH - CADNOHAL_SPAN_START]. */
#define CADNOHAL_SPAN_START 3
#define CADNOHAL_SPAN_LENGTH 2
#define CADNOHAL_TAG 1

/* Accepted: number, area and record are 0, and the counts are the kept records of areas 0 to 6.
 * Refused: number 1 to 7 and where the fault is; for 1 to 3 the record is 0. The counts are 0. */
typedef struct {
    uint32_t number, area, record;
    uint32_t types, constants, overrides, globals, expressions, members, components;
} cadnohal_answer;

/* Compacts the module. keep_unused: 0 is KeepUnused::No, any other word is Yes (named types, named overrides and all
 * globals stay though nothing refers to them).
 *
 * Refused: no word of the thirteen slices changes.
 *
 * Accepted: each of areas 0 to 6 holds its kept records in their old order, with the new handles in them, then N to its
 * old end; runs have new starts; the mentions have the new handles in place. Each map holds, at each old record, the
 * new handle, or N where the record was dropped; its words past the records stay. To compact the result again, lend
 * each area cut to its count. */
cadnohal_answer cadnohal_compact(
    uint32_t *types, size_t types_length,
    uint32_t *constants, size_t constants_length,
    uint32_t *overrides, size_t overrides_length,
    uint32_t *globals, size_t globals_length,
    uint32_t *expressions, size_t expressions_length,
    uint32_t *members, size_t members_length,
    uint32_t *components, size_t components_length,
    uint32_t *mentions, size_t mentions_length,
    uint32_t *type_map, size_t type_map_length,
    uint32_t *constant_map, size_t constant_map_length,
    uint32_t *override_map, size_t override_map_length,
    uint32_t *global_map, size_t global_map_length,
    uint32_t *expression_map, size_t expression_map_length,
    uint32_t keep_unused);

/* What cadnohal_compact would refuse, and nothing more: number 0 where it would accept, with all counts 0 either way.
 * Of the maps only the lengths are asked. Nothing changes. The keep flag has no part in it. */
cadnohal_answer cadnohal_check(
    const uint32_t *types, size_t types_length,
    const uint32_t *constants, size_t constants_length,
    const uint32_t *overrides, size_t overrides_length,
    const uint32_t *globals, size_t globals_length,
    const uint32_t *expressions, size_t expressions_length,
    const uint32_t *members, size_t members_length,
    const uint32_t *components, size_t components_length,
    const uint32_t *mentions, size_t mentions_length,
    const uint32_t *type_map, size_t type_map_length,
    const uint32_t *constant_map, size_t constant_map_length,
    const uint32_t *override_map, size_t override_map_length,
    const uint32_t *global_map, size_t global_map_length,
    const uint32_t *expression_map, size_t expression_map_length);

/* A slice: a pointer and its length in words. {0} is an empty one. */
typedef struct {
    uint32_t *words;
    size_t length;
} cadnohal_slice;

/* The slices of a module by name. Fill them in by name, in a struct that is {0} before: a field that isn't named is
 * then an empty slice, and so are fields that a later version adds. The archive never sees the struct. */
typedef struct {
    cadnohal_slice types, constants, overrides, globals, expressions, members, components, mentions;
    cadnohal_slice type_map, constant_map, override_map, global_map, expression_map;
} cadnohal_module;

/* cadnohal_compact over the slices of m. */
static inline cadnohal_answer cadnohal_compact_module(const cadnohal_module *m, uint32_t keep_unused)
{
    return cadnohal_compact(
        m->types.words, m->types.length,
        m->constants.words, m->constants.length,
        m->overrides.words, m->overrides.length,
        m->globals.words, m->globals.length,
        m->expressions.words, m->expressions.length,
        m->members.words, m->members.length,
        m->components.words, m->components.length,
        m->mentions.words, m->mentions.length,
        m->type_map.words, m->type_map.length,
        m->constant_map.words, m->constant_map.length,
        m->override_map.words, m->override_map.length,
        m->global_map.words, m->global_map.length,
        m->expression_map.words, m->expression_map.length,
        keep_unused);
}

/* cadnohal_check over the slices of m. Nothing changes, though the struct's pointers aren't const: it serves both. */
static inline cadnohal_answer cadnohal_check_module(const cadnohal_module *m)
{
    return cadnohal_check(
        m->types.words, m->types.length,
        m->constants.words, m->constants.length,
        m->overrides.words, m->overrides.length,
        m->globals.words, m->globals.length,
        m->expressions.words, m->expressions.length,
        m->members.words, m->members.length,
        m->components.words, m->components.length,
        m->mentions.words, m->mentions.length,
        m->type_map.words, m->type_map.length,
        m->constant_map.words, m->constant_map.length,
        m->override_map.words, m->override_map.length,
        m->global_map.words, m->global_map.length,
        m->expression_map.words, m->expression_map.length);
}

/* The three map entries take any map and judge by the length they are given: hand in the part that a pass wrote, one
 * word for each old record. They change nothing. */

/* The new handle; N where the handle was dropped or is past the map's end. Never refused. */
uint32_t cadnohal_lookup(const uint32_t *map, size_t map_length, uint32_t handle);

typedef struct {
    uint32_t number, handle;
} cadnohal_adjusted;

/* Number 0 and the new handle; 8 and N past the map's end; 9 and N where the handle was dropped. */
cadnohal_adjusted cadnohal_adjust(const uint32_t *map, size_t map_length, uint32_t handle);

typedef struct {
    uint32_t number, start, end;
} cadnohal_range;

/* The handles from start to before end: number 0 and the range from the first kept one's new handle to the last one's
 * plus 1, or 0..0 where none was kept; 8 and N..N where end is above the map's length or start after end. */
cadnohal_range cadnohal_adjust_range(const uint32_t *map, size_t map_length, uint32_t start, uint32_t end);

#ifdef __cplusplus
}
#endif

#endif
