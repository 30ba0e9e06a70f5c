/*
 * Random calls, the same on every machine: prints how they ended, and one
 * number over every answer, session, memory and map. What the library does on
 * one machine it has to do on another; the run script compares.
 *
 * Each plain walk is made a descriptor at a time too, and such walks are made
 * from any bytes. Each harvest is held against such walks of all its pages.
 * Where they are not as the plain walk is, or do not end, or a harvest is not
 * as they say, this says so and fails.
 */
#include <inttypes.h>
#include <stdio.h>
#include <string.h>

#include "vmsa.h"

#define WORLDS 1000
#define LARGE 4   /* of them are as large as can be */
#define CALLS 500 /* in each world */

/* How many bits of an address lie in a page, by the granule's number. */
#define GRANULES 3

static const unsigned page_bits[GRANULES] = {
    [VMSA_GRANULE_4K] = 12, [VMSA_GRANULE_16K] = 14, [VMSA_GRANULE_64K] = 16
};

/*
 * How large a world is, in pages of its granule. The pool lies near the end of
 * the memory: its start is one of the last three that it can have.
 */
struct extent {
    unsigned memory;
    unsigned pool; /* as a rule */
    int looks;     /* how often all its memory goes into the number */
};

static const struct extent usual[GRANULES] = {
    [VMSA_GRANULE_4K] = { 18, 16, 10 },
    [VMSA_GRANULE_16K] = { 10, 8, 4 },
    [VMSA_GRANULE_64K] = { 6, 4, 2 }
};

static struct extent extent;
static unsigned granule;          /* its number, as a rule */
static unsigned bits;             /* of a page of that granule, */
static unsigned unit;             /* and its bytes */
static uint8_t memory[VMSA_MEMORY_LIMIT];
static uint8_t before[VMSA_MEMORY_LIMIT];  /* as a harvest found it */
static uint8_t updated[VMSA_MEMORY_LIMIT]; /* what a call is to leave of it */
static uint64_t pool;             /* its physical address, as a rule */
static int big;                   /* the byte order of its tables, as a rule */
static struct vmsa_regime regime; /* the last one that was accepted */
static struct vmsa_session session;

/*
 * Random numbers: xorshift64*. No expression takes two of them, since C leaves
 * their order to the compiler.
 */

static uint64_t state = UINT64_C(0x9E3779B97F4A7C15);

static uint64_t next(void)
{
    state ^= state >> 12;
    state ^= state << 25;
    state ^= state >> 27;
    return state * UINT64_C(0x2545F4914F6CDD1D);
}

static unsigned below(unsigned n)
{
    return (unsigned)(next() >> 33) % n;
}

static int one_in(unsigned n)
{
    return below(n) == 0;
}

/* How the calls ended, and the number over all that they left. */

static unsigned successes[GRANULES], faults, refusals[UINT8_MAX + 1], accepted,
    held, under, accessed, accessed_big, dirtied, stepped, updates, harvests,
    reported, cleaned, differences;
static uint64_t digest = UINT64_C(0xCBF29CE484222325);

static void add(const void *from, size_t size)
{
    const uint8_t *bytes = (const uint8_t *)from;
    uint64_t word;

    for (; size >= 8; size -= 8, bytes += 8) {
        memcpy(&word, bytes, 8);
        digest = (digest ^ word) * UINT64_C(0x100000001B3);
        digest ^= digest >> 29;
    }
}

static void add_reply(unsigned refusal)
{
    uint64_t word = refusal;

    add(&word, sizeof word);
    if (refusal == 0)
        accepted++;
    else
        refusals[refusal]++;
}

/* The number of the granule that a regime's byte names. */
static unsigned named(uint8_t byte)
{
    return byte < GRANULES ? byte : VMSA_GRANULE_4K;
}

/* The answer under this regime. */
static void add_answer(const struct vmsa_answer *answer,
                       const struct vmsa_regime *r)
{
    add(answer, sizeof *answer);
    if (answer->tag == VMSA_REFUSED)
        refusals[answer->refusal]++;
    else if (answer->tag == VMSA_FAULT)
        faults++;
    else
        successes[named(r->granule)]++;
    held += answer->cacheable && answer->reads == 0;
    accessed += answer->accessed;
    accessed_big += r->ee != 0 && answer->accessed;
    dirtied += answer->dirtied;
}

static void check(const char *what, int ok)
{
    if (ok)
        return;
    if (differences++ < 10)
        fprintf(stderr, "%s\n", what);
}

/* A world: tables with entries at a few indexes, and a regime. */

static size_t memory_bytes(void)
{
    return (size_t)extent.memory * unit;
}

/* The first page of the memory that may be the pool's. */
static unsigned first_page(void)
{
    return extent.memory - extent.pool - 2;
}

/* The indexes: the first four, and the last. */
#define INDEXES 5

static unsigned index_at(unsigned i)
{
    return i + 1 < INDEXES ? i : unit / 8 - 1;
}

/*
 * A table above level 3, and a page there; at times a block, or neither. One in
 * eight has something in bits 63 to 59, one in four in those between bit 12 and
 * the granule, which have no say.
 */
static uint64_t descriptor(void)
{
    unsigned which = below(32);
    uint64_t value = next();
    uint64_t flags = value & UINT64_C(0x0078000000000FFC);
    uint64_t page = below(which == 0 ? 4 * extent.pool : extent.pool);

    if (one_in(8))
        flags |= value & UINT64_C(0xF800000000000000);
    if (one_in(4))
        flags |= value & (unit - 4096);
    if (which == 1)
        return value;
    if (which == 2)
        return 0;
    if (which < 6)
        return ((value >> 16) & ~UINT64_C(0xFFF)) | flags | 3;
    if (which < 9)
        return (value & UINT64_C(0xFFE00000)) | flags | 1;
    return (pool + unit * page) | flags | 3;
}

/* The byte order of the world's tables; one in 32 is the other. */
static int order(void)
{
    return one_in(32) ? !big : big;
}

static void build_tables(void)
{
    uint64_t value;
    size_t page;
    unsigned i;
    int byte, last;

    for (page = first_page(); page < extent.memory; page++)
        for (i = 0; i < INDEXES; i++) {
            value = descriptor();
            last = order() ? 7 : 0;
            for (byte = 0; byte < 8; byte++)
                memory[page * unit + index_at(i) * 8 + (size_t)(byte ^ last)] =
                    (uint8_t)(value >> (8 * byte));
        }
}

static uint64_t attributes(void)
{
    static const uint8_t bytes[] = { 0x00, 0x04, 0x08, 0x0C, 0x44, 0xBB, 0xFF };
    uint64_t value = 0;
    int i;

    for (i = 0; i < 8; i++)
        value = value << 8 | bytes[below(sizeof bytes)];
    return one_in(50) ? value ^ 1u << below(31) : value;
}

static uint8_t size_field(void)
{
    if (one_in(100))
        return (uint8_t)next();
    return (uint8_t)(one_in(2) ? 16 : 16 + below(24));
}

/*
 * A multiple of the granule below a number of pages; now and then 8 more, or
 * 4,096 more.
 */
static unsigned pages_below(unsigned n)
{
    unsigned bytes = unit * below(n);

    if (one_in(100))
        return bytes + 8;
    return one_in(50) ? bytes + 4096 : bytes;
}

/* The granule of the world's tables; one in 16 is any byte. */
static uint8_t any_granule(void)
{
    if (!one_in(16))
        return (uint8_t)granule;
    return (uint8_t)(one_in(2) ? below(GRANULES) : below(256));
}

static struct vmsa_regime random_regime(void)
{
    struct vmsa_regime r;

    r.start = unit * first_page() + pages_below(3);
    r.length = unit * extent.pool;
    if (one_in(8))
        r.length = one_in(2) ? pages_below(extent.pool + 2) : r.length + unit;
    r.address = one_in(16) ? pool + pages_below(2) : pool;
    r.root0 = pool + pages_below(extent.pool);
    r.root1 = pool + pages_below(extent.pool);
    r.attributes = attributes();
    r.tsz0 = size_field();
    r.tsz1 = size_field();
    r.disabled0 = (uint8_t)one_in(20);
    r.disabled1 = (uint8_t)one_in(20);
    r.output = (uint8_t)(one_in(4) ? below(7) : 5);
    r.ha = (uint8_t)!one_in(4);
    r.hd = (uint8_t)(r.ha ? !one_in(4) : one_in(32)); /* alone: refused */
    r.wxn = (uint8_t)one_in(4);
    r.hpd0 = (uint8_t)one_in(4);
    r.hpd1 = (uint8_t)one_in(4);
    r.ee = (uint8_t)order();
    r.granule = any_granule();
    memset(r.spare, (int)below(256), sizeof r.spare);
    return r;
}

/* Calls */

/* In a page: one in 8 just before its end, or that of 4 KiB. */
static unsigned offset(void)
{
    unsigned at = below(unit);

    if (one_in(16))
        return at | (unit - 16);
    if (one_in(16))
        return at | 0xFF0;
    return one_in(2) ? at & ~15u : at;
}

static uint64_t address(void)
{
    unsigned range = below(2);
    unsigned size = 64 - (range ? regime.tsz1 : regime.tsz0) % 64u;
    uint64_t value = 0;
    int level;

    for (level = 0; level < 4; level++)
        value = value << (bits - 3) | index_at(below(INDEXES));
    value = value << bits | offset();
    if (size < 64 && !one_in(16)) {
        value &= (UINT64_C(1) << size) - 1;
        if (range)
            value |= UINT64_MAX << size;
    }
    return value;
}

/* Half of them are at one of the last eight addresses. */
static struct vmsa_access random_access(void)
{
    static const uint8_t sizes[] = { 1, 2, 4, 8, 16 };
    static uint64_t last[8];
    struct vmsa_access access = { 0 };
    unsigned i = below(8);

    if (one_in(2))
        last[i] = address();
    access.address = last[i];
    access.kind = (uint8_t)below(7);
    access.size = sizes[below(5)];
    if (access.kind == VMSA_FETCH)
        access.size = 4;
    if (access.kind == VMSA_PROBE_READ || access.kind == VMSA_PROBE_WRITE)
        access.size = 1;
    if (one_in(50))
        access.size = below(20);
    access.el0 = (uint8_t)below(2);
    memset(access.spare, (int)below(256), sizeof access.spare);
    return access;
}

static size_t length_now(void)
{
    return one_in(50) ? below((unsigned)memory_bytes()) : memory_bytes();
}

static void set_regime(void)
{
    struct vmsa_regime r = random_regime();
    uint8_t refusal = vmsa_session_set_regime(&session, memory, length_now(),
                                              &r);

    add_reply(refusal);
    if (refusal == VMSA_ACCEPTED)
        regime = r;
}

static void store(void)
{
    uint64_t at = pool + pages_below(extent.pool + 1);
    uint64_t value = descriptor();
    size_t length = length_now();

    at += 8 * index_at(below(INDEXES));
    if (one_in(20))
        at += below(16);
    add_reply(vmsa_session_store(&session, memory, length, at, value));
}

/* Walks a descriptor at a time */

#define OFFERS 4 /* at most, of any walk */

/* A descriptor of the pool in a memory; none where it is not there. */
static uint8_t *bytes_at(uint8_t *from, const struct vmsa_regime *r,
                         uint64_t at)
{
    const uint64_t offset = at - r->address;

    if (r->length < 8 || offset > r->length - 8 ||
        r->start + r->length > memory_bytes())
        return NULL;
    return from + r->start + (size_t)offset;
}

static uint64_t value_of(const uint8_t *bytes, int reversed)
{
    uint64_t value = 0;
    int byte;

    for (byte = 0; byte < 8; byte++)
        value |= (uint64_t)bytes[reversed ? 7 - byte : byte] << (8 * byte);
    return value;
}

static void put(uint8_t *bytes, int reversed, uint64_t value)
{
    int byte;

    for (byte = 0; byte < 8; byte++)
        bytes[reversed ? 7 - byte : byte] = (uint8_t)(value >> (8 * byte));
}

/* What the pool of a memory has at the address that a walk names. */
static void offer(uint8_t *from, struct vmsa_stepwise *steps,
                  const struct vmsa_regime *r)
{
    const uint8_t *bytes = bytes_at(from, r, steps->address);
    uint8_t reply;

    if (bytes != NULL)
        reply = vmsa_stepwise_value(steps, value_of(bytes, r->ee));
    else
        reply = vmsa_stepwise_unreachable(steps);
    check("steps: an offer is refused", reply == VMSA_ACCEPTED);
}

/* Gives how often a descriptor was offered. */
static int walk_steps(const struct vmsa_regime *r,
                      const struct vmsa_access *access,
                      struct vmsa_stepwise *steps)
{
    int offers;

    memset(steps, 0xAA, sizeof *steps);
    vmsa_stepwise_start(r, access, steps);
    for (offers = 0; offers < OFFERS && !steps->ended; offers++)
        offer(memory, steps, r);
    add(steps, sizeof *steps);
    return offers;
}

/* Copies the memory, and makes the update that is due in the copy. */
static void update_copy(const struct vmsa_regime *r,
                        const struct vmsa_stepwise *steps)
{
    uint8_t *bytes;

    memcpy(updated, memory, memory_bytes());
    if (!steps->update)
        return;
    bytes = bytes_at(updated, r, steps->address);
    check("steps: an update is not in the pool", bytes != NULL);
    if (bytes == NULL)
        return;
    check("steps: another value is expected",
          value_of(bytes, r->ee) == steps->expected);
    put(bytes, r->ee, steps->value);
}

/* The answer of the plain walk: rows 1 and 2 are of the pool alone. */
static void compare(const struct vmsa_answer *answer,
                    const struct vmsa_stepwise *steps, int offers)
{
    if (answer->tag == VMSA_REFUSED && answer->refusal <= 2)
        return;
    stepped++;
    updates += steps->update;
    check("steps: it has not ended", steps->ended == 1);
    check("steps: another answer",
          memcmp(&steps->answer, answer, sizeof *answer) == 0);
    check("steps: another count of reads", offers == answer->reads);
    check("steps: other bytes", memcmp(updated, memory, memory_bytes()) == 0);
}

/* A walk that no call leaves, and any descriptors: it ends all the same. */
static void walk_any(void)
{
    struct vmsa_regime r = random_regime();
    struct vmsa_access access = random_access();
    struct vmsa_stepwise steps;
    int offers;

    vmsa_stepwise_start(&r, &access, &steps);
    steps.address = next();
    steps.ended = 0;
    steps.left = (uint8_t)(one_in(2) ? below(4) : below(256));
    steps.tables = (uint8_t)below(256);
    memset(steps.spare, (int)below(256), sizeof steps.spare);
    for (offers = 0; offers < OFFERS && !steps.ended; offers++) {
        if (one_in(16))
            vmsa_stepwise_unreachable(&steps);
        else
            vmsa_stepwise_value(&steps, descriptor());
        add(&steps, sizeof steps);
    }
    check("steps, any bytes: it has not ended", steps.ended == 1);
}

static void walk(void)
{
    struct vmsa_regime r = one_in(4) ? random_regime() : regime;
    struct vmsa_access access = random_access();
    size_t length = length_now();
    struct vmsa_stepwise steps;
    struct vmsa_answer answer;
    int offers = walk_steps(&r, &access, &steps);

    update_copy(&r, &steps);
    memset(&answer, 0xAA, sizeof answer);
    vmsa_walk(memory, length, &r, &access, &answer);
    add_answer(&answer, &r);
    compare(&answer, &steps, offers);
}

/* Harvests */

#define AP2 UINT64_C(0x80)
#define AF UINT64_C(0x400)
#define DBM (UINT64_C(1) << 51)

static uint8_t map[VMSA_HARVEST_LIMIT / 8 + 8];
static uint8_t expected[sizeof map]; /* what a harvest is to leave of it */

struct run {
    uint64_t first, count;
    size_t map_length;
};

/* How many pages an entry of a level maps. */
static uint64_t span_of(const struct vmsa_regime *r, unsigned level)
{
    return UINT64_C(1) << ((3 - level) * (page_bits[named(r->granule)] - 3));
}

/*
 * Pages around one that tables lead to. One run in 16 begins with an entry of
 * level 2 and mostly ends with one; few are as long as can be, or a page
 * longer.
 */
static struct run random_run(const struct vmsa_regime *r)
{
    const uint64_t span = span_of(r, 2);
    struct run run;

    run.first = address() >> page_bits[named(r->granule)];
    run.count = 1 + below(one_in(4) ? 700 : 40);
    if (one_in(16)) {
        run.first = run.first / span * span;
        run.count = span * (1 + below(2)) - one_in(4);
    } else if (run.first > 20) {
        run.first -= below(20);
    }
    if (one_in(400))
        run.count = VMSA_HARVEST_LIMIT + (unsigned)one_in(4);
    if (one_in(50))
        run.count = 0;
    run.map_length = (size_t)(run.count + 7) / 8 + below(3);
    if (one_in(20))
        run.map_length = below((unsigned)run.map_length + 1);
    if (run.map_length > sizeof map)
        run.map_length = sizeof map;
    return run;
}

/* The leaf of a page, and its level; or none. Any leaf is read from EL1. */
static uint8_t *leaf_of(const struct vmsa_regime *r, uint64_t page,
                        unsigned *level)
{
    struct vmsa_access access = { 0 };
    struct vmsa_stepwise steps;
    uint8_t *bytes = NULL;

    access.address = page << page_bits[named(r->granule)];
    access.size = 1;
    access.kind = VMSA_PROBE_READ;
    vmsa_stepwise_start(r, &access, &steps);
    while (!steps.ended) {
        bytes = bytes_at(before, r, steps.address);
        offer(before, &steps, r);
    }
    *level = steps.answer.level;
    return steps.answer.tag == VMSA_SUCCESS ? bytes : NULL;
}

/* What one page of a harvest is to change, of the map and of the memory. */
static void expect_page(const struct vmsa_regime *r, struct run run, uint64_t n)
{
    unsigned level;
    const uint8_t *bytes = leaf_of(r, run.first + n, &level);
    const uint64_t span = span_of(r, level);
    const uint64_t start = (run.first + n) / span * span;
    const uint64_t value = bytes != NULL ? value_of(bytes, r->ee) : 0;

    if ((value & (AP2 | AF | DBM)) != (AF | DBM))
        return;
    reported++;
    expected[n / 8] |= (uint8_t)(1u << n % 8);
    if (start < run.first || start + span > run.first + run.count)
        return;
    cleaned++;
    put(updated + (bytes - before), r->ee, value | AP2);
}

static void lend_map(void)
{
    memset(map, 0x5A, sizeof map);
    memset(expected, 0x5A, sizeof expected);
    memcpy(before, memory, memory_bytes());
    memcpy(updated, memory, memory_bytes());
}

/* What a harvest has left, and what it gave. */
static void compare_harvest(const struct vmsa_regime *r, struct run run,
                            uint8_t refusal)
{
    uint64_t n;

    add_reply(refusal);
    if (refusal == VMSA_ACCEPTED) {
        harvests++;
        memset(expected, 0, (size_t)(run.count + 7) / 8);
        for (n = 0; n < run.count; n++)
            expect_page(r, run, n);
    }
    check("harvest: another map", memcmp(map, expected, sizeof map) == 0);
    check("harvest: other bytes",
          memcmp(memory, updated, memory_bytes()) == 0);
    add(map, sizeof map);
}

static void harvest(void)
{
    struct vmsa_regime r = one_in(4) ? random_regime() : regime;
    struct run run = random_run(&r);
    size_t length = length_now();

    lend_map();
    compare_harvest(&r, run,
                    vmsa_harvest(memory, length, &r, run.first, run.count, map,
                                 run.map_length));
}

static void harvest_session(void)
{
    struct vmsa_session wanted = session;
    struct run run = random_run(&session.regime);
    size_t length = length_now();
    uint8_t refusal;

    lend_map();
    refusal = vmsa_session_harvest(&session, memory, length, run.first,
                                   run.count, map, run.map_length);
    if (refusal == VMSA_ACCEPTED)
        memset(wanted.entries, 0, sizeof wanted.entries);
    check("harvest: another session",
          memcmp(&session, &wanted, sizeof session) == 0);
    compare_harvest(&session.regime, run, refusal);
}

static void access_session(void)
{
    struct vmsa_access access = random_access();
    struct vmsa_answer answer;
    uint64_t page;

    memset(&answer, 0xAA, sizeof answer);
    vmsa_session_access(&session, memory, length_now(), &access, &answer);
    add_answer(&answer, &session.regime);
    page = access.address >> page_bits[named(session.regime.granule)];
    under += answer.cacheable && answer.reads == 0 &&
             session.entries[page % VMSA_ENTRIES].tables != 0;
}

static void call(void)
{
    unsigned which = below(64);

    if (which == 0)
        vmsa_session_invalidate_all(&session);
    else if (which == 1)
        set_regime();
    else if (which < 6)
        store();
    else if (which < 16)
        walk();
    else if (which == 16)
        walk_any();
    else if (which == 17)
        harvest();
    else if (which == 18)
        harvest_session();
    else
        access_session();
}

static void set_extent(int large)
{
    const struct extent largest = {
        VMSA_MEMORY_LIMIT / unit, VMSA_POOL_LIMIT / unit, 1
    };

    extent = large ? largest : usual[granule];
}

static void run_world(unsigned number, int large)
{
    int i;

    granule = number;
    bits = page_bits[granule];
    unit = 1u << bits;
    set_extent(large);
    pool = one_in(8) ? (UINT64_C(1) << 48) - unit * extent.pool : 0x40000000u;
    big = one_in(2);
    regime = random_regime();
    memset(memory, 0, memory_bytes());
    build_tables();
    memset(&session, 0xAA, sizeof session);
    vmsa_session_empty(&session);
    while (!one_in(8))
        set_regime();
    for (i = 0; i < CALLS; i++) {
        call();
        if ((i + 1) % (CALLS / extent.looks) == 0) {
            add(&session, sizeof session);
            add(memory, memory_bytes());
        }
    }
}

int main(void)
{
    int i;

    for (i = 0; i < WORLDS; i++)
        run_world((unsigned)i % GRANULES, i < LARGE);
    printf("%u, %u and %u successes with 4, 16 and 64 KiB (%u set the Access "
           "flag, %u of them with EE on, %u marked dirty), %u faults, %u of "
           "both from an entry (%u under tables that take away)\n",
           successes[VMSA_GRANULE_4K], successes[VMSA_GRANULE_16K],
           successes[VMSA_GRANULE_64K], accessed, accessed_big, dirtied, faults,
           held, under);
    printf("%u accepted; refused, by number:", accepted);
    for (i = 1; i <= UINT8_MAX; i++)
        if (refusals[i] != 0)
            printf(" %d: %u", i, refusals[i]);
    printf("\n%u walks a descriptor at a time too, %u with an update\n",
           stepped, updates);
    printf("%u harvests of %u dirty pages, in %u of which a leaf was made "
           "clean\n", harvests, reported, cleaned);
    printf("%d random calls, digest 0x%016" PRIx64 "\n", WORLDS * CALLS,
           digest);
    return differences != 0;
}
