/*
 * Runs the library over the worked cases P1 to P12, every refusal, the largest
 * pool and memory, a script of a session, the bits of tables, the spare bytes
 * and VMSA_REGIME_INIT; over what EE turns; over the tables of each granule and
 * what another granule turns; and over harvests, plain and in a session; all of
 * it in both byte orders. Each walk is made a descriptor at a time too; and
 * such walks have cases of their own, with bytes that no call leaves among
 * them. Then over the texts. Prints how many checks were made, and how many
 * failed.
 *
 * Each call goes through one of the expect functions. It takes what the call
 * is given and its answer; want has what the call is to leave of memory and
 * session, of the walk a descriptor at a time, or of a harvest's map. Every
 * byte is compared. A reader of a file of cases can use them in the same way.
 */
#include <stdio.h>
#include <string.h>

#include "vmsa.h"

#define POOL UINT64_C(0x40000000)   /* physical address of the pool */
#define LENGTH 65536u               /* bytes of the pool, and of the memory */
#define SECOND UINT64_C(0x40001000) /* of the level 1 descriptor */
#define THIRD UINT64_C(0x40002010)  /* of the level 2 descriptor */
#define LEAF UINT64_C(0x40003018)   /* of the leaf descriptor of page 0x403 */
#define PAGE 0x403
#define ADDRESS UINT64_C(0x403ABC)
#define FRAME UINT64_C(0x80005000)

#define TABLE UINT64_C(0x40003003) /* the level 2 descriptor */
#define CLEAN UINT64_C(0x00080000800053C3) /* the leaf: writable-clean, AF 0 */
#define READ UINT64_C(0x00080000800057C3)  /* the leaf after a read */
#define DIRTY UINT64_C(0x0008000080005743) /* the leaf after a write */

/* Bits of a table descriptor. */
#define NO_SAY (UINT64_C(1) << 63)
#define NO_WRITE (UINT64_C(1) << 62)
#define NO_EL0 (UINT64_C(1) << 61)
#define NO_EL0_FETCH (UINT64_C(1) << 60)
#define NO_EL1_FETCH (UINT64_C(1) << 59)

#define LIMIT48 (UINT64_C(1) << 48)

/*
 * What the calls are lent, and what it is to be afterwards. The memory starts
 * at an odd address, between two guards, in one of two rooms: the large one is
 * for the few checks that need it, since each compares every byte. The map of a
 * harvest lies between two guards too.
 */
#define GUARD 63
#define MAP (VMSA_HARVEST_LIMIT / 8 + 2) /* the most bytes of a map */

static struct world {
    struct vmsa_session session;
    struct vmsa_stepwise walk;
    size_t map_length; /* of the map lent */
    uint8_t map[GUARD + MAP + GUARD];
    size_t length; /* of the memory lent; no call changes it */
    uint8_t *room;
    uint8_t usual[GUARD + 2 * LENGTH + GUARD];
    uint8_t large[GUARD + VMSA_MEMORY_LIMIT + 1 + GUARD];
} lent, want;

/* EE of the worked regime, and so the byte order in which tables are stored. */
static uint8_t ee;

/*
 * The shape of a granule's tables: the index bits at each level, the least T
 * whose first level it is, and whether it has blocks. There is no level 0 with
 * 64 KiB, and no T for a first level 3 with 4 KiB.
 */
#define LEVELS 4

static const struct shape {
    const char *name;
    uint8_t granule;
    uint8_t high[LEVELS], low[LEVELS];
    uint8_t first[LEVELS];
    uint8_t blocks[LEVELS];
} shapes[] = {
    { "", VMSA_GRANULE_4K, { 47, 38, 29, 20 }, { 39, 30, 21, 12 },
      { 16, 25, 34, 40 }, { 0, 1, 1, 0 } },
    { ", 16 KiB", VMSA_GRANULE_16K, { 47, 46, 35, 24 }, { 47, 36, 25, 14 },
      { 16, 17, 28, 39 }, { 0, 0, 1, 0 } },
    { ", 64 KiB", VMSA_GRANULE_64K, { 0, 47, 41, 28 }, { 0, 42, 29, 16 },
      { 0, 16, 22, 35 }, { 0, 0, 1, 0 } }
};
#define SHAPES (sizeof shapes / sizeof shapes[0])

/* That of the tables under test; the worked cases have 4 KiB. */
static const struct shape *shape = shapes;

/* Checks */

static unsigned checks, failures;

static void check(const char *name, const char *part, int ok)
{
    checks++;
    if (ok)
        return;
    failures++;
    printf("%s%s%s: %s\n", name, shape->name, ee ? ", EE" : "", part);
}

static void check_bytes(const char *name, const char *part, const void *got,
                        const void *expected, size_t size)
{
    const uint8_t *a = (const uint8_t *)got, *b = (const uint8_t *)expected;
    const int same = memcmp(a, b, size) == 0;
    size_t i = 0;

    check(name, part, same);
    if (same)
        return;
    while (a[i] == b[i])
        i++;
    printf("    byte %lu is 0x%02x and not 0x%02x\n", (unsigned long)i,
           (unsigned)a[i], (unsigned)b[i]);
}

static void check_world(const char *name)
{
    check_bytes(name, "memory", lent.room, want.room,
                GUARD + lent.length + GUARD);
    check_bytes(name, "session", &lent.session, &want.session,
                sizeof lent.session);
}

static uint8_t *memory(void)
{
    return lent.length == 0 ? NULL : lent.room + GUARD;
}

static void expect_plain(const char *name, struct vmsa_regime regime,
                         struct vmsa_access access, struct vmsa_answer answer)
{
    struct vmsa_answer got;
    const struct vmsa_regime regime_before = regime;
    const struct vmsa_access access_before = access;

    memset(&got, 0xAA, sizeof got);
    vmsa_walk(memory(), lent.length, &regime, &access, &got);
    check_bytes(name, "answer", &got, &answer, sizeof got);
    check_bytes(name, "regime", &regime, &regime_before, sizeof regime);
    check_bytes(name, "access", &access, &access_before, sizeof access);
    check_world(name);
}

static void expect_access(const char *name, struct vmsa_access access,
                          struct vmsa_answer answer)
{
    struct vmsa_answer got;
    const struct vmsa_access before = access;

    memset(&got, 0xAA, sizeof got);
    vmsa_session_access(&lent.session, memory(), lent.length, &access, &got);
    check_bytes(name, "answer", &got, &answer, sizeof got);
    check_bytes(name, "access", &access, &before, sizeof access);
    check_world(name);
}

static void expect_set(const char *name, struct vmsa_regime regime,
                       unsigned refusal)
{
    const struct vmsa_regime before = regime;
    uint8_t got = vmsa_session_set_regime(&lent.session, memory(), lent.length,
                                          &regime);

    check(name, "reply", got == refusal);
    check_bytes(name, "regime", &regime, &before, sizeof regime);
    check_world(name);
}

static void expect_store(const char *name, uint64_t address, uint64_t value,
                         unsigned refusal)
{
    uint8_t got = vmsa_session_store(&lent.session, memory(), lent.length,
                                     address, value);

    check(name, "reply", got == refusal);
    check_world(name);
}

static void expect_invalidate(const char *name)
{
    vmsa_session_invalidate_all(&lent.session);
    check_world(name);
}

/* Accesses and answers */

static struct vmsa_access access_of(unsigned kind, uint64_t address,
                                    uint64_t size)
{
    struct vmsa_access access = { 0 };

    access.address = address;
    access.size = size;
    access.el0 = 1;
    access.kind = (uint8_t)kind;
    return access;
}

static struct vmsa_access a_read(void)
{
    return access_of(VMSA_READ, ADDRESS, 4);
}

static struct vmsa_access a_write(void)
{
    return access_of(VMSA_WRITE, ADDRESS, 4);
}

#define AF 1    /* the access sets the Access flag */
#define DIRTIED 2
#define UNKEPT 4 /* a TLB may not hold it */

static struct vmsa_answer found(uint64_t output, unsigned marks, uint8_t reads)
{
    struct vmsa_answer answer = { 0 };

    answer.output = output;
    answer.tag = VMSA_SUCCESS;
    answer.level = 3;
    answer.attribute = 0xFF;
    answer.shareability = 3;
    answer.accessed = (marks & AF) != 0;
    answer.dirtied = (marks & DIRTIED) != 0;
    answer.cacheable = (marks & UNKEPT) == 0;
    answer.reads = reads;
    return answer;
}

static struct vmsa_answer fault(unsigned code, unsigned level, uint8_t reads)
{
    struct vmsa_answer answer = { 0 };

    answer.tag = VMSA_FAULT;
    answer.code = (uint16_t)code;
    answer.level = (uint8_t)level;
    answer.reads = reads;
    return answer;
}

static struct vmsa_answer refused(unsigned number)
{
    struct vmsa_answer answer = { 0 };

    answer.tag = VMSA_REFUSED;
    answer.refusal = (uint8_t)number;
    return answer;
}

/* The walk a descriptor at a time */

/* It is to want the descriptor at an address, under tables with these bits. */
static void wants(uint64_t address, unsigned level, unsigned tables)
{
    want.walk.answer = refused(0);
    want.walk.address = address;
    want.walk.expected = 0;
    want.walk.value = 0;
    want.walk.ended = 0;
    want.walk.update = 0;
    want.walk.left = (uint8_t)(LEVELS - 1 - level);
    want.walk.tables = (uint8_t)tables;
    memset(want.walk.spare, 0, sizeof want.walk.spare);
}

/* It is to end with an answer, and an update at an address. */
static void ends_with(struct vmsa_answer answer, uint64_t address,
                      uint64_t expected, uint64_t value)
{
    wants(address, LEVELS - 1, 0);
    want.walk.answer = answer;
    want.walk.expected = expected;
    want.walk.value = value;
    want.walk.ended = 1;
    want.walk.update = 1;
}

/* It is to end with an answer, and no update. */
static void ends(struct vmsa_answer answer)
{
    ends_with(answer, 0, 0, 0);
    want.walk.update = 0;
}

/* After the end both offers are refused, and change no byte. */
static void check_walk(const char *name)
{
    check_bytes(name, "walk", &lent.walk, &want.walk, sizeof lent.walk);
    if (!want.walk.ended)
        return;
    check(name, "value after the end",
          vmsa_stepwise_value(&lent.walk, UINT64_MAX) == 12);
    check(name, "unreachable after the end",
          vmsa_stepwise_unreachable(&lent.walk) == 12);
    check_bytes(name, "walk after the end", &lent.walk, &want.walk,
                sizeof lent.walk);
}

/* A walk has the regime and the access of its start, with no spare byte set. */
static void wants_start(struct vmsa_regime regime, struct vmsa_access access)
{
    want.walk.regime = regime;
    want.walk.access = access;
    memset(want.walk.regime.spare, 0, sizeof regime.spare);
    memset(want.walk.access.spare, 0, sizeof access.spare);
}

/* A start writes every byte, whatever stood there. */
static void expect_start(const char *name, struct vmsa_regime regime,
                         struct vmsa_access access)
{
    static const int fills[] = { 0x00, 0xFF, 0xA5 };
    const struct vmsa_regime regime_before = regime;
    const struct vmsa_access access_before = access;
    size_t i;

    wants_start(regime, access);
    for (i = 0; i < sizeof fills / sizeof fills[0]; i++) {
        memset(&lent.walk, fills[i], sizeof lent.walk);
        vmsa_stepwise_start(&regime, &access, &lent.walk);
        check_walk(name);
    }
    check_bytes(name, "regime", &regime, &regime_before, sizeof regime);
    check_bytes(name, "access", &access, &access_before, sizeof access);
}

static void expect_value(const char *name, uint64_t value)
{
    check(name, "reply", vmsa_stepwise_value(&lent.walk, value) == 0);
    check_walk(name);
}

static void expect_unreachable(const char *name)
{
    check(name, "reply", vmsa_stepwise_unreachable(&lent.walk) == 0);
    check_walk(name);
}

static void to_bytes(uint8_t bytes[8], uint64_t value, int big)
{
    int i;

    for (i = 0; i < 8; i++)
        bytes[big ? 7 - i : i] = (uint8_t)(value >> (8 * i));
}

static uint64_t from_bytes(const uint8_t bytes[8], int big)
{
    uint64_t value = 0;
    int i;

    for (i = 0; i < 8; i++)
        value |= (uint64_t)bytes[big ? 7 - i : i] << (8 * i);
    return value;
}

/* The bytes of a descriptor of the pool; none where it is not there. */
static uint8_t *bytes_at(const struct vmsa_regime *regime, uint64_t address)
{
    const uint64_t offset = address - regime->address;

    if (offset > regime->length - 8)
        return NULL;
    return memory() + regime->start + (size_t)offset;
}

struct descriptor {
    uint64_t address, value;
};

/*
 * Offers what the pool has until the walk ends, and checks how often that is.
 * Gives the last descriptor that was wanted.
 */
static struct descriptor offer_pool(const char *name,
                                    const struct vmsa_regime *regime,
                                    unsigned reads)
{
    struct descriptor last = { 0, 0 };
    unsigned offers;

    for (offers = 0; offers < LEVELS && !lent.walk.ended; offers++) {
        const uint8_t *bytes = bytes_at(regime, lent.walk.address);
        uint8_t reply;

        wants(lent.walk.address, LEVELS - 1u - lent.walk.left,
              lent.walk.tables);
        check_walk(name);
        last.address = lent.walk.address;
        last.value = bytes ? from_bytes(bytes, regime->ee) : 0;
        reply = bytes ? vmsa_stepwise_value(&lent.walk, last.value)
                      : vmsa_stepwise_unreachable(&lent.walk);
        check(name, "reply", reply == 0);
    }
    check(name, "offers", offers == reads);
    return last;
}

/*
 * A walk over what the pool has: its end is to be that of the plain walk, and
 * its update is to make of the memory what the plain walk makes of it.
 */
static void expect_steps(const char *name, struct vmsa_regime regime,
                         struct vmsa_access access, struct vmsa_answer answer)
{
    struct descriptor last;
    uint8_t *updated = NULL;

    wants_start(regime, access);
    vmsa_stepwise_start(&regime, &access, &lent.walk);
    last = offer_pool(name, &regime, answer.reads);
    ends(answer);
    if (answer.accessed || answer.dirtied) {
        ends_with(answer, last.address, last.value, lent.walk.value);
        updated = bytes_at(&regime, last.address);
    }
    check_walk(name);
    if (updated)
        to_bytes(updated, lent.walk.value, regime.ee);
    check_world(name);
    if (updated)
        to_bytes(updated, last.value, regime.ee);
}

/* The plain walk; first a descriptor at a time, where the pool has no say. */
static void expect_walk(const char *name, struct vmsa_regime regime,
                        struct vmsa_access access, struct vmsa_answer answer)
{
    if (answer.tag != VMSA_REFUSED || answer.refusal > 2)
        expect_steps(name, regime, access, answer);
    expect_plain(name, regime, access, answer);
}

/* The world of the worked cases */

static struct vmsa_regime worked_regime(void)
{
    struct vmsa_regime regime = VMSA_REGIME_INIT;

    regime.length = LENGTH;
    regime.address = POOL;
    regime.root0 = POOL;
    regime.root1 = POOL;
    regime.disabled0 = 0;
    regime.disabled1 = 0;
    regime.ha = 1;
    regime.hd = 1;
    regime.ee = ee;
    regime.attributes = UINT64_MAX;
    return regime;
}

/* Bytes at a physical address; the memory's first is at POOL. */
static void put_bytes(struct world *world, uint64_t address,
                      const uint8_t bytes[8])
{
    memcpy(world->room + GUARD + (address - POOL), bytes, 8);
}

/* A descriptor at a physical address, in the byte order of ee. */
static void put(struct world *world, uint64_t address, uint64_t value)
{
    uint8_t bytes[8];

    to_bytes(bytes, value, ee);
    put_bytes(world, address, bytes);
}

/* A descriptor to start from: before a call and after it. */
static void given(uint64_t address, uint64_t value)
{
    put(&lent, address, value);
    put(&want, address, value);
}

static void given_bytes(uint64_t address, const uint8_t bytes[8])
{
    put_bytes(&lent, address, bytes);
    put_bytes(&want, address, bytes);
}

/* The fresh session, and in both rooms so many zeros, 0x5A around them. */
static void lend(uint8_t *room, uint8_t *wanted, size_t size, size_t zeros)
{
    const struct vmsa_regime init = VMSA_REGIME_INIT;

    memset(wanted, 0x5A, size);
    memset(wanted + GUARD, 0, zeros);
    memcpy(room, wanted, size);
    lent.room = room;
    want.room = wanted;
    lent.length = zeros;
    memset(&want.session, 0, sizeof want.session);
    want.session.regime = init;
    vmsa_session_empty(&lent.session);
}

/* The descriptors of the worked cases, by level, and their bytes by ee. */
static const struct on_the_way {
    uint64_t address, value;
    uint8_t bytes[2][8];
} on_the_way[LEVELS] = {
    { POOL, UINT64_C(0x40001003),
      { { 0x03, 0x10, 0x00, 0x40, 0x00, 0x00, 0x00, 0x00 },
        { 0x00, 0x00, 0x00, 0x00, 0x40, 0x00, 0x10, 0x03 } } },
    { SECOND, UINT64_C(0x40002003),
      { { 0x03, 0x20, 0x00, 0x40, 0x00, 0x00, 0x00, 0x00 },
        { 0x00, 0x00, 0x00, 0x00, 0x40, 0x00, 0x20, 0x03 } } },
    { THIRD, TABLE,
      { { 0x03, 0x30, 0x00, 0x40, 0x00, 0x00, 0x00, 0x00 },
        { 0x00, 0x00, 0x00, 0x00, 0x40, 0x00, 0x30, 0x03 } } },
    { LEAF, CLEAN,
      { { 0xC3, 0x53, 0x00, 0x80, 0x00, 0x00, 0x08, 0x00 },
        { 0x00, 0x08, 0x00, 0x00, 0x80, 0x00, 0x53, 0xC3 } } }
};

static void given_tables(void)
{
    int i;

    for (i = 0; i < LEVELS; i++)
        given(on_the_way[i].address, on_the_way[i].value);
}

/* A memory of zeros, exactly the pool, and the fresh session. */
static void blank(void)
{
    lend(lent.usual, want.usual, sizeof want.usual, LENGTH);
}

/* The memory of the worked cases, and the fresh session. */
static void fresh(void)
{
    blank();
    given_tables();
}

/*
 * What the session is to hold of a page whose leaf is at level 3, under tables
 * with these bits.
 */
static void holds_under(uint8_t tables, uint64_t page, uint64_t leaf)
{
    struct vmsa_entry *entry = &want.session.entries[page % VMSA_ENTRIES];

    memset(entry, 0, sizeof *entry);
    entry->page = page;
    entry->value = leaf;
    entry->held = 1;
    entry->tables = tables;
}

static void holds(uint64_t page, uint64_t leaf)
{
    holds_under(0, page, leaf);
}

static void holds_nothing(void)
{
    memset(want.session.entries, 0, sizeof want.session.entries);
}

/* A session under the worked regime that holds the page, once read. */
static void started(void)
{
    fresh();
    want.session.regime = worked_regime();
    want.session.set = 1;
    expect_set("start", worked_regime(), VMSA_ACCEPTED);
    put(&want, LEAF, READ);
    holds(PAGE, READ);
    expect_access("start", a_read(), found(FRAME + 0xABC, AF, 4));
}

/* P1 to P12 */

struct worked {
    const char *name;
    uint64_t third, leaf;              /* the last two descriptors */
    uint8_t output, ha, hd, attribute; /* of the regime; attribute byte 0 */
    unsigned kind;
    uint64_t address, size;
    uint8_t tag;
    unsigned result;                   /* marks, fault code or refusal */
    uint64_t after;                    /* the leaf afterwards */
};

static const struct worked worked[] = {
    { "P1", TABLE, CLEAN, 5, 1, 1, 0xFF, VMSA_READ, 0x403ABC, 4,
      VMSA_SUCCESS, AF, READ },
    { "P2", TABLE, CLEAN, 5, 1, 1, 0xFF, VMSA_WRITE, 0x403ABC, 4,
      VMSA_SUCCESS, AF | DIRTIED, DIRTY },
    { "P3", TABLE, CLEAN, 5, 1, 1, 0xFF, VMSA_PROBE_WRITE, 0x403ABC, 1,
      VMSA_SUCCESS, UNKEPT, CLEAN },
    { "P3, size 4", TABLE, CLEAN, 5, 1, 1, 0xFF, VMSA_PROBE_WRITE, 0x403ABC, 4,
      VMSA_REFUSED, 6, CLEAN },
    { "P4", TABLE, CLEAN, 5, 1, 0, 0xFF, VMSA_WRITE, 0x403ABC, 4,
      VMSA_FAULT, 15, CLEAN },
    { "P5", TABLE, CLEAN, 5, 0, 0, 0xFF, VMSA_WRITE, 0x403ABC, 4,
      VMSA_FAULT, 11, CLEAN },
    { "P5, HD on", TABLE, CLEAN, 5, 0, 1, 0xFF, VMSA_WRITE, 0x403ABC, 4,
      VMSA_REFUSED, 13, CLEAN },
    { "P6", 0x4000F003, CLEAN, 5, 1, 1, 0xFF, VMSA_READ, 0x403ABC, 4,
      VMSA_FAULT, 7, CLEAN },
    { "P7", 0x40010003, CLEAN, 5, 1, 1, 0xFF, VMSA_READ, 0x403ABC, 4,
      VMSA_FAULT, 23, CLEAN },
    { "P8", TABLE, UINT64_C(0x00080001000003C3), 0, 1, 1, 0xFF, VMSA_READ,
      0x403ABC, 4, VMSA_FAULT, 3, UINT64_C(0x00080001000003C3) },
    { "P9", TABLE, CLEAN & ~UINT64_C(2), 5, 1, 1, 0xFF, VMSA_READ, 0x403ABC, 4,
      VMSA_FAULT, 7, CLEAN & ~UINT64_C(2) },
    { "P10", TABLE, CLEAN, 5, 1, 1, 0x00, VMSA_READ, 0x403ABD, 2,
      VMSA_FAULT, 33, CLEAN },
    { "P11", TABLE, CLEAN, 5, 1, 1, 0xFF, VMSA_READ, 0x403FFC, 4,
      VMSA_SUCCESS, AF, READ },
    { "P11, next", TABLE, CLEAN, 5, 1, 1, 0xFF, VMSA_READ, 0x403FFD, 4,
      VMSA_REFUSED, 7, CLEAN }
};

/* Each that is walked ends at level 3, after 4 reads. */
static struct vmsa_answer worked_answer(const struct worked *row)
{
    switch (row->tag) {
    case VMSA_SUCCESS:
        return found(FRAME + (row->address & 0xFFF), row->result, 4);
    case VMSA_FAULT:
        return fault(row->result, 3, 4);
    default:
        return refused(row->result);
    }
}

static struct vmsa_regime regime_of(const struct worked *row)
{
    struct vmsa_regime regime = worked_regime();

    regime.output = row->output;
    regime.ha = row->ha;
    regime.hd = row->hd;
    regime.attributes = UINT64_MAX << 8 | row->attribute;
    return regime;
}

static void test_worked(void)
{
    size_t i;

    for (i = 0; i < sizeof worked / sizeof worked[0]; i++) {
        const struct worked *row = &worked[i];

        fresh();
        given(THIRD, row->third);
        given(LEAF, row->leaf);
        put(&want, LEAF, row->after);
        expect_walk(row->name, regime_of(row),
                    access_of(row->kind, row->address, row->size),
                    worked_answer(row));
    }
}

static void test_worked_leaf(void)
{
    /* P6 reads at 0x4000F018: a leaf there is found. */
    fresh();
    given(THIRD, 0x4000F003);
    given(0x4000F018, CLEAN);
    put(&want, 0x4000F018, READ);
    expect_walk("P6, a leaf", worked_regime(), a_read(),
                found(FRAME + 0xABC, AF, 4));
}

/* P2 under bit 62 of the second table, without HPD and with it. */
static void test_worked_tables(void)
{
    struct vmsa_regime regime = worked_regime();

    fresh();
    given(SECOND, UINT64_C(0x40002003) | NO_WRITE);
    expect_walk("P2, bit 62", regime, a_write(), fault(15, 3, 4));
    regime.hpd0 = 1;
    put(&want, LEAF, DIRTY);
    expect_walk("P2, bit 62, HPD", regime, a_write(),
                found(FRAME + 0xABC, AF | DIRTIED, 4));
}

/* A memory of so many zeros, and the fresh session. */
static void blank_of(size_t length)
{
    lend(lent.large, want.large, GUARD + length + GUARD, length);
}

/* The worked cases over a pool, and so a memory, of another length. */
static struct vmsa_regime fresh_of(size_t length)
{
    struct vmsa_regime regime = worked_regime();

    blank_of(length);
    given_tables();
    regime.length = length;
    return regime;
}

/* P12 has the limit, and a page more, as numbers. */
static void test_worked_limit(void)
{
    struct vmsa_regime regime = fresh_of(1048576);

    put(&want, LEAF, READ);
    expect_walk("P12", regime, a_read(), found(FRAME + 0xABC, AF, 4));
    regime = fresh_of(1052672);
    expect_walk("P12, next", regime, a_read(), refused(1));
}

/* Refusals */

/* A regime that a walk and a session refuse, over a memory of length bytes. */
static void refuses(const char *name, unsigned number, size_t length,
                    struct vmsa_regime regime)
{
    started();
    lent.length = length;
    expect_set(name, regime, number);
    expect_walk(name, regime, a_read(), refused(number));
}

static void test_refused_pool(void)
{
    struct vmsa_regime regime = worked_regime();

    refuses("no memory", 1, 0, regime);
    refuses("pool past the memory", 1, LENGTH - 1, regime);
    regime.start = 4096;
    refuses("pool past the memory, moved", 1, LENGTH + 4095, regime);
    regime.start = SIZE_MAX - 4095;
    refuses("pool past the memory, wrapped", 1, LENGTH, regime);
    regime.start = 8;
    refuses("start", 1, 2 * LENGTH, regime);
    regime.start = 0;
    regime.length = 0;
    refuses("empty pool", 1, LENGTH, regime);
    regime.length = 4095;
    refuses("pool length", 1, LENGTH, regime);

    regime = worked_regime();
    regime.address = POOL + 8;
    refuses("pool address", 2, LENGTH, regime);
    regime.address = LIMIT48 - LENGTH + 4096;
    refuses("pool above 2^48", 2, LENGTH, regime);
    regime.address = ~UINT64_C(4095);
    refuses("pool above 2^48, wrapped", 2, LENGTH, regime);
}

static void test_refused_sizes(void)
{
    static const uint8_t sizes[] = { 0, 15, 40, 255 };
    struct vmsa_regime regime;
    size_t i;

    for (i = 0; i < sizeof sizes; i++) {
        regime = worked_regime();
        regime.tsz0 = sizes[i];
        refuses("tsz0", 3, LENGTH, regime);
        regime = worked_regime();
        regime.tsz1 = sizes[i];
        regime.disabled1 = 1;
        refuses("tsz1", 3, LENGTH, regime);
    }
    regime = worked_regime();
    regime.output = 6;
    refuses("output", 3, LENGTH, regime);
}

static void test_refused_roots(void)
{
    static const uint64_t roots[] = { POOL + 8, LIMIT48, ~UINT64_C(4095) };
    struct vmsa_regime regime;
    size_t i;

    for (i = 0; i < sizeof roots / sizeof roots[0]; i++) {
        regime = worked_regime();
        regime.root0 = roots[i];
        refuses("root0", 4, LENGTH, regime);
        regime = worked_regime();
        regime.root1 = roots[i];
        regime.disabled1 = 1;
        refuses("root1", 4, LENGTH, regime);
    }
}

static void test_refused_attributes(void)
{
    static const uint8_t attributes[] = { 0x01, 0x0F, 0x10, 0xF0 };
    size_t i, byte;

    for (i = 0; i < sizeof attributes; i++)
        for (byte = 0; byte < 8; byte++) {
            struct vmsa_regime regime = worked_regime();

            regime.attributes &= ~(UINT64_C(0xFF) << (8 * byte));
            regime.attributes |= (uint64_t)attributes[i] << (8 * byte);
            refuses("attributes", 5, LENGTH, regime);
        }
}

/* A walk that writes under a regime with these updates, and a set regime. */
static void takes_updates(struct vmsa_regime regime)
{
    struct vmsa_answer answer = fault(11, 3, 4);

    started();
    given(LEAF, CLEAN);
    if (regime.hd != 0) {
        answer = found(FRAME + 0xABC, AF | DIRTIED, 4);
        put(&want, LEAF, DIRTY);
    } else if (regime.ha != 0) {
        answer = fault(15, 3, 4);
    }
    expect_walk("updates", regime, a_write(), answer);

    holds_nothing();
    want.session.regime.ha = regime.ha != 0;
    want.session.regime.hd = regime.hd != 0;
    expect_set("updates", regime, VMSA_ACCEPTED);
}

/* Each flag off, or on by several bytes: hd on with ha off is refused. */
static void test_updates(void)
{
    static const uint8_t flags[] = { 0, 1, 0x80, 0xFF };
    struct vmsa_regime regime = worked_regime();
    size_t ha, hd;

    for (ha = 0; ha < sizeof flags; ha++)
        for (hd = 0; hd < sizeof flags; hd++) {
            regime.ha = flags[ha];
            regime.hd = flags[hd];
            if (regime.hd != 0 && regime.ha == 0)
                refuses("hd without ha", 13, LENGTH, regime);
            else
                takes_updates(regime);
        }
}

/* An access that a walk and a session refuse. */
static void refuses_access(const char *name, unsigned number,
                           struct vmsa_access access)
{
    started();
    expect_access(name, access, refused(number));
    expect_walk(name, worked_regime(), access, refused(number));
}

static void test_refused_access(void)
{
    static const uint64_t sizes[] = { 0, 3, 5, 15, 32, UINT64_MAX };
    size_t i;

    for (i = 0; i < sizeof sizes / sizeof sizes[0]; i++)
        refuses_access("size", 6, access_of(VMSA_READ, ADDRESS, sizes[i]));
    refuses_access("fetch, size", 6, access_of(VMSA_FETCH, ADDRESS, 8));
    refuses_access("fetch, address", 6, access_of(VMSA_FETCH, ADDRESS + 2, 4));
    refuses_access("probe-read, size", 6,
                   access_of(VMSA_PROBE_READ, ADDRESS, 2));
    refuses_access("probe-write, size", 6,
                   access_of(VMSA_PROBE_WRITE, ADDRESS, 2));
    refuses_access("two pages", 7, access_of(VMSA_READ, 0x403FFF, 2));
    refuses_access("two pages, wrapped", 7,
                   access_of(VMSA_READ, UINT64_MAX, 2));
}

static void test_refused_calls(void)
{
    static const uint64_t addresses[] = {
        LEAF + 4, POOL - 8, POOL + LENGTH, 0, ~UINT64_C(7)
    };
    size_t i;

    started();
    for (i = 0; i < sizeof addresses / sizeof addresses[0]; i++)
        expect_store("store, address", addresses[i], 1, 8);

    fresh();
    expect_access("access, no regime", a_read(), refused(9));
    expect_store("store, no regime", LEAF, 1, 9);

    started();
    lent.length = LENGTH - 1;
    expect_access("access, short memory", a_read(), refused(1));
    expect_store("store, short memory", LEAF, 1, 1);
    lent.length = 0;
    expect_access("access, no memory", a_read(), refused(1));
    expect_store("store, no memory", LEAF, 1, 1);
}

/* What is wrong with the regime, a walk and a set regime find alike. */
static void order(const char *name, unsigned number, struct vmsa_regime regime,
                  struct vmsa_access access)
{
    expect_walk(name, regime, access, refused(number));
    expect_set(name, regime, number);
}

/* A call with every mistake; mended one by one, the numbers come in order. */
static void test_refusal_order(void)
{
    struct vmsa_regime regime = VMSA_REGIME_INIT;
    struct vmsa_access access = access_of(VMSA_READ, 0x403FFF, 3);
    const struct vmsa_regime good = worked_regime();

    fresh();
    regime.address = 8;
    regime.tsz0 = 15;
    regime.root1 = 8;
    regime.attributes = 1;
    regime.hd = 1;
    order("order 1", 1, regime, access);
    regime.length = good.length;
    order("order 2", 2, regime, access);
    regime.address = good.address;
    order("order 3", 3, regime, access);
    regime.tsz0 = good.tsz0;
    order("order 4", 4, regime, access);
    regime.root1 = good.root1;
    order("order 5", 5, regime, access);
    regime.attributes = good.attributes;
    order("order 13", 13, regime, access);
    regime = good;
    expect_walk("order 6", regime, access, refused(6));
    access.size = 2;
    expect_walk("order 7", regime, access, refused(7));
    access.size = 1;
    put(&want, LEAF, READ);
    expect_walk("order, mended", regime, access, found(FRAME + 0xFFF, AF, 4));
}

/* The largest pool, in the largest memory */

#define LAST UINT64_C(0x5FFABC) /* its leaf is the pool's last descriptor */
#define NEXT UINT64_C(0x600ABC) /* its leaf would be the one past the pool */

static struct vmsa_regime largest_regime(uint64_t pool)
{
    struct vmsa_regime regime = worked_regime();

    regime.start = (size_t)(pool - POOL);
    regime.length = VMSA_POOL_LIMIT;
    regime.address = pool;
    regime.root0 = pool;
    regime.root1 = pool;
    return regime;
}

/*
 * Tables in a pool at an address: a leaf at its very end, and one right behind
 * it. Bytes of 0x5A are around them, and make no valid descriptor.
 */
static void fresh_largest(uint64_t pool)
{
    const uint64_t end = pool + VMSA_POOL_LIMIT;

    lend(lent.large, want.large, sizeof want.large, 0);
    lent.length = VMSA_MEMORY_LIMIT;
    given(pool, (pool + 0x1000) | 3);
    given(pool + 0x1000, (pool + 0x2000) | 3);
    given(pool + 0x2010, (end - 0x1000) | 3);
    given(pool + 0x2018, end | 3);
    given(end - 8, CLEAN);
    given(end, CLEAN);
}

static void started_largest(uint64_t pool)
{
    fresh_largest(pool);
    want.session.regime = largest_regime(pool);
    want.session.set = 1;
    expect_set("largest", largest_regime(pool), VMSA_ACCEPTED);
}

static void largest_walk(uint64_t pool)
{
    const struct vmsa_regime regime = largest_regime(pool);
    const uint64_t last = pool + VMSA_POOL_LIMIT - 8;

    fresh_largest(pool);
    put(&want, last, READ);
    expect_walk("last, read", regime, access_of(VMSA_READ, LAST, 4),
                found(FRAME + 0xABC, AF, 4));
    put(&want, last, DIRTY);
    expect_walk("last, write", regime, access_of(VMSA_WRITE, LAST, 4),
                found(FRAME + 0xABC, DIRTIED, 4));
    expect_walk("past the pool", regime, access_of(VMSA_WRITE, NEXT, 4),
                fault(23, 3, 4));
}

static void largest_session(uint64_t pool)
{
    const uint64_t last = pool + VMSA_POOL_LIMIT - 8;

    started_largest(pool);
    put(&want, last, READ);
    holds(LAST >> 12, READ);
    expect_access("last, read", access_of(VMSA_READ, LAST, 4),
                  found(FRAME + 0xABC, AF, 4));
    put(&want, last, DIRTY);
    holds(LAST >> 12, DIRTY);
    expect_access("last, write", access_of(VMSA_WRITE, LAST, 4),
                  found(FRAME + 0xABC, DIRTIED, 4));
    expect_access("past the pool", access_of(VMSA_WRITE, NEXT, 4),
                  fault(23, 3, 4));
    put(&want, last, 0);
    expect_store("last, store", last, 0, VMSA_ACCEPTED);
    expect_store("past the pool, store", last + 8, 0, 8);
}

/* At the start of the memory, and at its very end. */
static void test_largest(void)
{
    const uint64_t end = POOL + VMSA_MEMORY_LIMIT;

    largest_walk(POOL);
    largest_session(POOL);
    largest_walk(end - VMSA_POOL_LIMIT);
    largest_session(end - VMSA_POOL_LIMIT);
}

/* Refused with 1 by each call that checks the memory. */
static void refuses_memory(const char *name, struct vmsa_regime regime)
{
    const struct vmsa_access access = access_of(VMSA_READ, LAST, 4);

    expect_walk(name, regime, access, refused(1));
    expect_set(name, regime, 1);
    expect_access(name, access, refused(1));
    expect_store(name, POOL, 0, 1);
}

/* A byte more of memory; a page more of pool, in the session's bytes too. */
static void test_above_limits(void)
{
    struct vmsa_regime regime = largest_regime(POOL);

    started_largest(POOL);
    lent.length = VMSA_MEMORY_LIMIT + 1;
    refuses_memory("memory above its limit", regime);

    lent.length = VMSA_MEMORY_LIMIT;
    regime.length = VMSA_POOL_LIMIT + 4096;
    lent.session.regime.length = VMSA_POOL_LIMIT + 4096;
    want.session = lent.session;
    refuses_memory("pool above its limit", regime);
}

/* A session */

static void test_script(void)
{
    const uint64_t output = FRAME + 0xABC;

    started();
    expect_access("second read", a_read(), found(output, 0, 0));
    put(&want, LEAF, DIRTY);
    holds(PAGE, DIRTY);
    expect_access("first write", a_write(), found(output, DIRTIED, 4));
    expect_access("second write", a_write(), found(output, 0, 0));
    put(&want, LEAF, 0);
    expect_store("store", LEAF, 0, VMSA_ACCEPTED);
    expect_access("after a store", a_write(), found(output, 0, 0));
    holds_nothing();
    expect_invalidate("invalidate");
    expect_access("after an invalidate", a_write(), fault(7, 3, 4));
    expect_access("and again", a_write(), fault(7, 3, 4));

    put(&want, LEAF, CLEAN);
    expect_store("store again", LEAF, CLEAN, VMSA_ACCEPTED);
    put(&want, LEAF, DIRTY);
    holds(PAGE, DIRTY);
    expect_access("write, cold", a_write(), found(output, AF | DIRTIED, 4));
    holds_nothing();
    expect_set("set again", worked_regime(), VMSA_ACCEPTED);
    holds(PAGE, DIRTY);
    expect_access("after a set", a_write(), found(output, 0, 4));
}

/* What fills an entry, and what does not. */
static void test_entries(void)
{
    const uint64_t far = ADDRESS + (uint64_t)VMSA_ENTRIES * 4096;
    const uint64_t far_leaf = LEAF + VMSA_ENTRIES * 8;
    struct vmsa_answer held = fault(15, 3, 0);

    started();
    held.cacheable = 1;
    expect_access("fetch, held", access_of(VMSA_FETCH, ADDRESS, 4),
                  found(FRAME + 0xABC, 0, 0));
    given(far_leaf, CLEAN);
    expect_access("probe, not kept", access_of(VMSA_PROBE_READ, far, 1),
                  found(FRAME + 0xABC, UNKEPT, 4));
    put(&want, far_leaf, READ);
    holds(PAGE + VMSA_ENTRIES, READ);
    expect_access("same entry", access_of(VMSA_READ, far, 8),
                  found(FRAME + 0xABC, AF, 4));
    holds(PAGE, READ);
    expect_access("page again", a_read(), found(FRAME + 0xABC, 0, 4));

    /* A page of EL1 alone: the fault is answered from the entry. */
    given(far_leaf, READ & ~UINT64_C(0x40));
    holds(PAGE + VMSA_ENTRIES, READ & ~UINT64_C(0x40));
    held.reads = 4;
    expect_access("fault, kept", access_of(VMSA_READ, far, 4), held);
    held.reads = 0;
    expect_access("fault, held", access_of(VMSA_READ, far, 4), held);
}

/* Bits of tables */

#define UPPER (ADDRESS | UINT64_C(0xFFFF) << 48) /* the page in range 1 */
#define EL1_ONLY (READ & ~UINT64_C(0x40))        /* its leaf with AP[1] 0 */

/* An access under tables with bits; the leaf has its Access flag set. */
struct under {
    const char *name;
    uint64_t bits[3]; /* in the descriptors of levels 0 to 2 */
    uint8_t tables;   /* what an entry holds of them */
    uint64_t leaf;
    uint8_t el0;
    unsigned kind;
    uint8_t wxn;
    int passes;       /* where the bits count */
    int passes_hpd;   /* where they do not */
};

static const struct under under[] = {
    { "no bit", { 0, 0, 0 }, 0, READ, 1, VMSA_WRITE, 0, 1, 1 },
    { "62, level 0", { NO_WRITE, 0, 0 }, 8, READ, 1, VMSA_WRITE, 0, 0, 1 },
    { "62, level 1", { 0, NO_WRITE, 0 }, 8, READ, 1, VMSA_WRITE, 0, 0, 1 },
    { "62, level 2", { 0, 0, NO_WRITE }, 8, READ, 1, VMSA_WRITE, 0, 0, 1 },
    { "62, EL1", { 0, 0, NO_WRITE }, 8, READ, 0, VMSA_WRITE, 0, 0, 1 },
    { "62, dirty", { 0, 0, NO_WRITE }, 8, DIRTY, 1, VMSA_WRITE, 0, 0, 1 },
    { "62, update", { 0, 0, NO_WRITE }, 8, DIRTY, 1, VMSA_UPDATE, 0, 0, 1 },
    { "62, probe", { 0, 0, NO_WRITE }, 8, READ, 1, VMSA_PROBE_WRITE, 0, 0, 1 },
    { "62, read", { 0, 0, NO_WRITE }, 8, READ, 1, VMSA_READ, 0, 1, 1 },
    { "62, fetch, EL1", { 0, NO_WRITE, 0 }, 8, READ, 0, VMSA_FETCH, 0, 1, 0 },
    { "62, fetch, WXN", { 0, NO_WRITE, 0 }, 8, READ, 1, VMSA_FETCH, 1, 1, 0 },
    { "61, level 0", { NO_EL0, 0, 0 }, 4, READ, 1, VMSA_READ, 0, 0, 1 },
    { "61, level 1", { 0, NO_EL0, 0 }, 4, READ, 1, VMSA_READ, 0, 0, 1 },
    { "61, level 2", { 0, 0, NO_EL0 }, 4, READ, 1, VMSA_READ, 0, 0, 1 },
    { "61, EL1", { 0, 0, NO_EL0 }, 4, READ, 0, VMSA_READ, 0, 1, 1 },
    { "61, write", { 0, 0, NO_EL0 }, 4, READ, 1, VMSA_WRITE, 0, 0, 1 },
    { "61, write, EL1", { 0, 0, NO_EL0 }, 4, READ, 0, VMSA_WRITE, 0, 1, 1 },
    { "61, fetch", { 0, NO_EL0, 0 }, 4, READ, 1, VMSA_FETCH, 0, 1, 1 },
    { "61, fetch, EL1", { 0, NO_EL0, 0 }, 4, READ, 0, VMSA_FETCH, 0, 1, 0 },
    { "61, fetch, WXN", { 0, NO_EL0, 0 }, 4, READ, 1, VMSA_FETCH, 1, 1, 0 },
    { "61, fetch, EL1, WXN", { 0, NO_EL0, 0 }, 4, READ, 0, VMSA_FETCH, 1, 0,
      0 },
    { "60, level 0", { NO_EL0_FETCH, 0, 0 }, 2, READ, 1, VMSA_FETCH, 0, 0, 1 },
    { "60, level 2", { 0, 0, NO_EL0_FETCH }, 2, READ, 1, VMSA_FETCH, 0, 0, 1 },
    { "60, EL1", { 0, 0, NO_EL0_FETCH }, 2, EL1_ONLY, 0, VMSA_FETCH, 0, 1, 1 },
    { "59, level 0", { NO_EL1_FETCH, 0, 0 }, 1, EL1_ONLY, 0, VMSA_FETCH, 0, 0,
      1 },
    { "59, level 2", { 0, 0, NO_EL1_FETCH }, 1, EL1_ONLY, 0, VMSA_FETCH, 0, 0,
      1 },
    { "59, EL0", { 0, 0, NO_EL1_FETCH }, 1, READ, 1, VMSA_FETCH, 0, 1, 1 },
    { "62 and 61", { NO_EL0, 0, NO_WRITE }, 12, READ, 0, VMSA_WRITE, 0, 0, 1 },
    { "61 and 62", { NO_WRITE, 0, NO_EL0 }, 12, READ, 1, VMSA_READ, 0, 0, 1 },
    { "all four", { NO_EL1_FETCH, NO_EL0_FETCH | NO_EL0, NO_WRITE }, 15, READ,
      0, VMSA_READ, 0, 1, 1 },
    { "63", { NO_SAY, NO_SAY, NO_SAY }, 0, READ, 1, VMSA_WRITE, 0, 1, 1 },
    { "the leaf's", { 0, 0, 0 }, 0, READ | UINT64_C(31) << 59, 1, VMSA_WRITE, 0,
      1, 1 },
    { "the leaf's, fetch", { 0, 0, 0 }, 0, EL1_ONLY | UINT64_C(31) << 59, 0,
      VMSA_FETCH, 0, 1, 1 }
};

static void fresh_under(const struct under *row)
{
    fresh();
    given(POOL, UINT64_C(0x40001003) | row->bits[0]);
    given(SECOND, UINT64_C(0x40002003) | row->bits[1]);
    given(THIRD, TABLE | row->bits[2]);
    given(LEAF, row->leaf);
}

/* What the access leaves of the leaf, where it passes. */
static uint64_t leaf_after(const struct under *row)
{
    const int writes = row->kind == VMSA_WRITE || row->kind == VMSA_UPDATE;

    return writes ? row->leaf & ~UINT64_C(0x80) : row->leaf;
}

/*
 * A walk in one of the ranges, then a miss and a hit in a session. own is HPD
 * of that range, other that of the other, which has no say.
 */
static void expect_under(const struct under *row, int upper, uint8_t own,
                         uint8_t other)
{
    const uint64_t address = upper ? UPPER : ADDRESS;
    const int passes = own != 0 ? row->passes_hpd : row->passes;
    const uint64_t after = passes ? leaf_after(row) : row->leaf;
    struct vmsa_access access = access_of(row->kind, address, 4);
    struct vmsa_regime regime = worked_regime();
    struct vmsa_answer answer = fault(15, 3, 4);

    regime.wxn = row->wxn;
    regime.hpd0 = upper ? other : own;
    regime.hpd1 = upper ? own : other;
    access.el0 = row->el0;
    if (row->kind == VMSA_PROBE_WRITE)
        access.size = 1;
    answer.cacheable = 1;
    if (passes)
        answer = found(FRAME + 0xABC, after != row->leaf ? DIRTIED : 0, 4);

    fresh_under(row);
    put(&want, LEAF, after);
    expect_walk(row->name, regime, access, answer);

    fresh_under(row);
    want.session.regime = regime;
    want.session.regime.hpd0 = regime.hpd0 != 0;
    want.session.regime.hpd1 = regime.hpd1 != 0;
    want.session.set = 1;
    expect_set(row->name, regime, VMSA_ACCEPTED);
    put(&want, LEAF, after);
    holds_under(own != 0 ? 0 : row->tables, address >> 12, after);
    expect_access(row->name, access, answer);
    answer.reads = 0;
    answer.dirtied = 0;
    expect_access(row->name, access, answer);
}

static void test_tables(void)
{
    static const uint8_t flags[] = { 0, 1, 0x80 };
    size_t i, own, other;
    int upper;

    for (i = 0; i < sizeof under / sizeof under[0]; i++)
        for (upper = 0; upper < 2; upper++)
            for (own = 0; own < sizeof flags; own++)
                for (other = 0; other < 2; other++)
                    expect_under(&under[i], upper, flags[own], flags[other]);
}

/* A table on the way of one address is the leaf of another. */
static void test_table_as_leaf(void)
{
    const uint64_t first = UINT64_C(0x40001003) | NO_WRITE;
    const uint64_t through_root = UINT64_C(0x8040200ABC); /* 1, 1, 1, 0 */
    struct vmsa_access access = access_of(VMSA_WRITE, through_root, 4);
    struct vmsa_answer answer = found(0x40001ABC, AF, 4);

    access.el0 = 0;
    answer.shareability = 0;
    fresh();
    given(POOL, first);
    given(POOL + 8, POOL | 3);
    put(&want, POOL, first | 0x400);
    expect_walk("62 of a leaf", worked_regime(), access, answer);
    expect_walk("62 of a table", worked_regime(), a_write(), fault(15, 3, 4));
}

/* An entry holds the sum as the walk met it, until it is walked again. */
static void test_tables_held(void)
{
    const uint64_t output = FRAME + 0xABC;
    struct vmsa_answer met = fault(15, 3, 4), held = fault(15, 3, 0);

    met.cacheable = held.cacheable = 1;
    started();
    put(&want, THIRD, TABLE | NO_EL0);
    expect_store("61 comes", THIRD, TABLE | NO_EL0, VMSA_ACCEPTED);
    expect_access("61, not seen", a_read(), found(output, 0, 0));
    holds_nothing();
    expect_invalidate("61, dropped");
    holds_under(4, PAGE, READ);
    expect_access("61, seen", a_read(), met);
    put(&want, THIRD, TABLE);
    expect_store("61 goes", THIRD, TABLE, VMSA_ACCEPTED);
    expect_access("61, held", a_read(), held);

    /* A write that would mark the page dirty walks, and meets the bit. */
    started();
    put(&want, THIRD, TABLE | NO_WRITE);
    expect_store("62 comes", THIRD, TABLE | NO_WRITE, VMSA_ACCEPTED);
    expect_access("62, not seen", a_read(), found(output, 0, 0));
    holds_under(8, PAGE, READ);
    expect_access("62, seen", a_write(), met);
    put(&want, THIRD, TABLE);
    expect_store("62 goes", THIRD, TABLE, VMSA_ACCEPTED);
    expect_access("62, held", a_write(), held);
    expect_access("62, held, read", a_read(), found(output, 0, 0));
    holds_nothing();
    expect_invalidate("62, dropped");
    put(&want, LEAF, DIRTY);
    holds(PAGE, DIRTY);
    expect_access("62, gone", a_write(), found(output, DIRTIED, 4));
}

/* A held sum is bits 3 to 0 of its byte, and counts with HPD too. */
static void test_tables_odd(void)
{
    struct vmsa_answer held = fault(15, 3, 0);
    unsigned tables;

    held.cacheable = 1;
    started();
    for (tables = 0; tables < 512; tables++) {
        lent.session.regime.hpd0 = tables >= 256;
        lent.session.entries[PAGE % VMSA_ENTRIES].tables = (uint8_t)tables;
        want.session = lent.session;
        expect_access("any sum", a_read(),
                      tables & 4 ? held : found(FRAME + 0xABC, 0, 0));
        if (tables & 8)
            expect_access("any sum, write", a_write(), held);
    }
}

/* Bytes that no caller should pass have a meaning too. */
static void test_odd_values(void)
{
    struct vmsa_regime regime = worked_regime();
    struct vmsa_access access = a_write();

    regime.ha = 0x80;
    regime.hd = 2;
    access.el0 = 0x40;
    fresh();
    put(&want, LEAF, DIRTY);
    expect_walk("flags", regime, access,
                found(FRAME + 0xABC, AF | DIRTIED, 4));

    fresh();
    want.session.regime = worked_regime();
    want.session.set = 1;
    expect_set("flags", regime, VMSA_ACCEPTED);

    fresh();
    access.kind = 6;
    put(&want, LEAF, DIRTY);
    expect_walk("kind 6", regime, access,
                found(FRAME + 0xABC, AF | DIRTIED, 4));

    fresh();
    memset(&lent.session, 0xAA, sizeof lent.session);
    want.session = lent.session;
    expect_access("any bytes", access, refused(1));
    expect_store("any bytes", LEAF, 1, 1);
}

/*
 * A session whose bytes have hd without ha, as no call leaves them: it is not
 * refused, no leaf is writable-clean, and no Access flag is set.
 */
static void test_odd_updates(void)
{
    struct vmsa_access fetch = access_of(VMSA_FETCH, ADDRESS, 4);
    struct vmsa_answer denied = fault(15, 3, 0);

    started();
    lent.session.regime.ha = 0;
    want.session = lent.session;
    fetch.el0 = 0;
    denied.cacheable = 1;
    expect_access("hd alone, held", a_read(), found(FRAME + 0xABC, 0, 0));
    expect_access("hd alone, fetch, held", fetch, found(FRAME + 0xABC, 0, 0));
    expect_access("hd alone, write, held", a_write(), denied);
    holds_nothing();
    expect_invalidate("hd alone");
    holds(PAGE, READ);
    denied.reads = 4;
    expect_access("hd alone, write", a_write(), denied);

    put(&want, LEAF, CLEAN);
    expect_store("hd alone", LEAF, CLEAN, VMSA_ACCEPTED);
    holds_nothing();
    expect_invalidate("hd alone");
    expect_access("hd alone, AF clear", a_read(), fault(11, 3, 4));
}

/* Byte order */

/* From here on regimes and descriptors are of the other byte order. */
static void turn(void)
{
    ee = !ee;
}

/* The shape that a regime's byte names. */
static const struct shape *shape_of(uint8_t granule)
{
    size_t i;

    for (i = 0; i < SHAPES; i++)
        if (shapes[i].granule == granule)
            return &shapes[i];
    return shapes;
}

/* The session is to have this regime, and nothing held. */
static void expect_regime(const char *name, struct vmsa_regime regime)
{
    holds_nothing();
    want.session.regime = regime;
    want.session.regime.ee = regime.ee != 0;
    want.session.regime.granule = shape_of(regime.granule)->granule;
    want.session.set = 1;
    expect_set(name, regime, VMSA_ACCEPTED);
}

/* P2 byte for byte: a walk, and a session, whose stores build the tables. */
static void test_order_bytes(void)
{
    static const uint8_t after[2][8] = {
        { 0x43, 0x57, 0x00, 0x80, 0x00, 0x00, 0x08, 0x00 },
        { 0x00, 0x08, 0x00, 0x00, 0x80, 0x00, 0x57, 0x43 }
    };
    const struct vmsa_answer answer = found(FRAME + 0xABC, AF | DIRTIED, 4);
    int i;

    blank();
    for (i = 0; i < LEVELS; i++)
        given_bytes(on_the_way[i].address, on_the_way[i].bytes[ee]);
    put_bytes(&want, LEAF, after[ee]);
    expect_walk("P2, bytes", worked_regime(), a_write(), answer);

    blank();
    expect_regime("P2, bytes", worked_regime());
    for (i = 0; i < LEVELS; i++) {
        put_bytes(&want, on_the_way[i].address, on_the_way[i].bytes[ee]);
        expect_store("P2, bytes", on_the_way[i].address, on_the_way[i].value,
                     VMSA_ACCEPTED);
    }
    put_bytes(&want, LEAF, after[ee]);
    holds(PAGE, DIRTY);
    expect_access("P2, bytes", a_write(), answer);
    expect_access("P2, bytes, held", a_write(), found(FRAME + 0xABC, 0, 0));
}

/* A descriptor in the other order is none in this one: bit 0 is clear. */
static void test_order_mixed(void)
{
    unsigned level;

    for (level = 0; level < LEVELS; level++) {
        const struct vmsa_answer answer =
            fault(4 + level, level, (uint8_t)(level + 1));

        fresh();
        given_bytes(on_the_way[level].address, on_the_way[level].bytes[!ee]);
        expect_walk("other order", worked_regime(), a_write(), answer);
        expect_regime("other order", worked_regime());
        expect_access("other order", a_write(), answer);
    }
}

/* EE is turned over the same memory, and the tables are then stored again. */
static void test_order_turned(void)
{
    const uint64_t output = FRAME + 0xABC;
    struct vmsa_regime bad = worked_regime();
    int i;

    started();
    bad.ee = !ee;
    bad.tsz0 = 0;
    expect_set("turned, refused", bad, 3);
    expect_access("turned, refused", a_read(), found(output, 0, 0));

    turn();
    expect_regime("turned", worked_regime());
    expect_walk("turned", worked_regime(), a_read(), fault(4, 0, 1));
    expect_access("turned", a_read(), fault(4, 0, 1));
    for (i = 0; i < LEVELS; i++) {
        put(&want, on_the_way[i].address, on_the_way[i].value);
        expect_store("turned", on_the_way[i].address, on_the_way[i].value,
                     VMSA_ACCEPTED);
    }
    put(&want, LEAF, READ);
    holds(PAGE, READ);
    expect_access("turned, stored", a_read(), found(output, AF, 4));
    expect_access("turned, held", a_read(), found(output, 0, 0));
    put(&want, LEAF, DIRTY);
    holds(PAGE, DIRTY);
    expect_access("turned, marked", a_write(), found(output, DIRTIED, 4));

    turn();
    expect_regime("turned back", worked_regime());
    expect_access("turned back", a_read(), fault(4, 0, 1));
}

/*
 * A block of level 2 that is writable-clean in both orders. What is AP[2] in
 * one is bit 63 in the other, where it has no say.
 */
static void test_order_both(void)
{
    static const uint8_t bytes[] = {
        0x81, 0x0F, 0x20, 0x80, 0x00, 0x40, 0x0F, 0xC1
    };
    static const uint64_t leaves[] = { /* by ee, once marked in both */
        UINT64_C(0x410F400080200F01), UINT64_C(0x010F208000400F41)
    };
    struct vmsa_access access = access_of(VMSA_WRITE, 0x12340, 8);
    int i;

    access.el0 = 0;
    fresh();
    given_bytes(POOL, bytes);
    for (i = 0; i < 4; i++, turn()) {
        const uint64_t leaf = leaves[ee] | (uint64_t)(i == 0) << 63;
        const uint64_t frame = leaf & UINT64_C(0xFFFFFFE00000);
        struct vmsa_regime regime = worked_regime();
        struct vmsa_answer answer =
            found(frame + access.address, i < 2 ? DIRTIED : 0, 1);

        regime.tsz0 = 39;
        answer.level = 2;
        answer.nonglobal = 1;
        expect_regime("both", regime);
        put(&want, POOL, leaf);
        holds(access.address >> 12, leaf);
        want.session.entries[access.address >> 12].left = 1;
        expect_access("both", access, answer);
        answer.reads = 0;
        answer.dirtied = 0;
        expect_access("both, held", access, answer);
    }
}

/* Every value of the byte, in a regime that is given. */
static void test_order_values(void)
{
    unsigned value;

    for (value = 0; value <= UINT8_MAX; value++) {
        const int ours = (value != 0) == ee;
        struct vmsa_regime regime = worked_regime();
        struct vmsa_answer answer = fault(4, 0, 1);

        if (ours)
            answer = found(FRAME + 0xABC, AF | DIRTIED, 4);
        regime.ee = (uint8_t)value;
        fresh();
        put(&want, LEAF, ours ? DIRTY : CLEAN);
        expect_walk("any EE", regime, a_write(), answer);

        fresh();
        expect_regime("any EE", regime);
        put(&want, LEAF, ours ? DIRTY : CLEAN);
        if (ours)
            holds(PAGE, DIRTY);
        expect_access("any EE", a_write(), answer);
    }
}

/*
 * Every value of the byte, where a session has it: no call leaves one above 1.
 * A hit has nothing to read, so that the entry answers in either order.
 */
static void test_order_held(void)
{
    const struct vmsa_access next = access_of(VMSA_READ, ADDRESS + 4096, 4);
    const uint8_t first = ee;
    unsigned value;

    started();
    for (value = 0; value <= UINT8_MAX; value++) {
        const int ours = (value != 0) == first;

        lent.session.regime.ee = (uint8_t)value;
        want.session = lent.session;
        expect_access("held EE, hit", a_read(), found(FRAME + 0xABC, 0, 0));
        expect_access("held EE, miss", next,
                      ours ? fault(7, 3, 4) : fault(4, 0, 1));
        if (!ours)
            expect_access("held EE, mark", a_write(), fault(4, 0, 1));
        ee = value != 0;
        put(&want, POOL + LENGTH - 8, READ + value);
        expect_store("held EE, store", POOL + LENGTH - 8, READ + value,
                     VMSA_ACCEPTED);
        ee = first;
    }
}

/* Granules */

#define LEAST_T 16
#define MOST_T 39
#define LAST_LEVEL (LEVELS - 1)

/* Bits of an address at every level, for each granule. */
#define SOME UINT64_C(0x0000B4D2A59E3C71)

#define BLOCK (CLEAN & ~UINT64_C(2))
#define ADDRESS_BITS UINT64_C(0x0000FFFFFFFFF000) /* of a descriptor */

/* The bytes of the granule: of a page, and of a table. */
static uint64_t granule(void)
{
    return UINT64_C(1) << shape->low[LAST_LEVEL];
}

static uint64_t low_bits(uint64_t value, unsigned count)
{
    return value & ((UINT64_C(1) << count) - 1);
}

static unsigned first_level(unsigned tsz)
{
    unsigned level = LAST_LEVEL;

    while (tsz < shape->first[level])
        level--;
    return level;
}

/* The reads of a walk that ends at a level. */
static uint8_t reads_to(unsigned tsz, unsigned level)
{
    return (uint8_t)(level - first_level(tsz) + 1);
}

/* The tables lie one behind the other, that of the first level at POOL. */
static uint64_t table_of(unsigned tsz, unsigned level)
{
    return POOL + (level - first_level(tsz)) * granule();
}

/* Where the descriptor of an address stands in the table of a level. */
static uint64_t entry_of(unsigned tsz, unsigned level, uint64_t address)
{
    const unsigned range = 64 - tsz, end = shape->high[level] + 1u;

    address = low_bits(address, end < range ? end : range);
    return table_of(tsz, level) + 8 * (address >> shape->low[level]);
}

/* The pool is a table of each level, from the first on. */
static struct vmsa_regime shaped_regime(unsigned tsz)
{
    struct vmsa_regime regime = worked_regime();

    regime.length = (size_t)(reads_to(tsz, LAST_LEVEL) * granule());
    regime.tsz0 = (uint8_t)tsz;
    regime.tsz1 = (uint8_t)tsz;
    regime.granule = shape->granule;
    return regime;
}

/*
 * The descriptor at a level, of the next level's table. What it has between bit
 * 12 and the granule has no say.
 */
static uint64_t onward(unsigned tsz, unsigned level)
{
    return table_of(tsz, level + 1) | (granule() - 4096) | 3;
}

/* The tables on the way of an address to a level. */
static void given_way(unsigned tsz, uint64_t address, unsigned last)
{
    unsigned level;

    for (level = first_level(tsz); level < last; level++)
        given(entry_of(tsz, level, address), onward(tsz, level));
}

/* The pool with nothing but that way, and a descriptor at its end. */
static void fresh_way(unsigned tsz, uint64_t address, unsigned last,
                      uint64_t descriptor)
{
    blank_of(shaped_regime(tsz).length);
    given_way(tsz, address, last);
    given(entry_of(tsz, last, address), descriptor);
}

/* An address, through a leaf of a level. */
static uint64_t output_of(unsigned level, uint64_t leaf, uint64_t address)
{
    const unsigned low = shape->low[level];

    return (low_bits(leaf, 48) >> low << low) + low_bits(address, low);
}

/* The session is to hold the page of an address, whose leaf has a level. */
static void holds_leaf(uint64_t address, unsigned level, uint64_t leaf)
{
    const uint64_t page = address >> shape->low[LAST_LEVEL];

    holds(page, leaf);
    want.session.entries[page % VMSA_ENTRIES].left =
        (uint8_t)(LAST_LEVEL - level);
}

/* The answer of a read or write, at the level of its leaf. */
static struct vmsa_answer found_at(unsigned level, uint64_t leaf,
                                   uint64_t address, unsigned marks,
                                   uint8_t reads)
{
    struct vmsa_answer answer =
        found(output_of(level, leaf, address), marks, reads);

    answer.level = (uint8_t)level;
    return answer;
}

/* What a write makes of a writable-clean leaf. */
static uint64_t dirty_of(uint64_t leaf)
{
    return (leaf | 0x400) & ~UINT64_C(0x80);
}

/* A write through a writable-clean leaf: a walk, a miss, and a hit. */
static void expect_leaf(const char *name, unsigned tsz, uint64_t address,
                        unsigned level, uint64_t leaf)
{
    const uint64_t dirty = dirty_of(leaf);
    const struct vmsa_access access = access_of(VMSA_WRITE, address, 1);
    const struct vmsa_answer answer = found_at(
        level, leaf, address, AF | DIRTIED, reads_to(tsz, level));

    fresh_way(tsz, address, level, leaf);
    put(&want, entry_of(tsz, level, address), dirty);
    expect_walk(name, shaped_regime(tsz), access, answer);

    fresh_way(tsz, address, level, leaf);
    expect_regime(name, shaped_regime(tsz));
    put(&want, entry_of(tsz, level, address), dirty);
    holds_leaf(address, level, dirty);
    expect_access(name, access, answer);
    expect_access(name, access, found_at(level, leaf, address, 0, 0));
}

/* A walk and a miss that a descriptor ends, with a fault of its level. */
static void expect_end(const char *name, struct vmsa_regime regime,
                       unsigned code, unsigned level, uint64_t descriptor)
{
    const struct vmsa_access access =
        access_of(VMSA_WRITE, low_bits(SOME, 64u - regime.tsz0), 1);
    const struct vmsa_answer answer =
        fault(code + level, level, reads_to(regime.tsz0, level));

    fresh_way(regime.tsz0, access.address, level, descriptor);
    expect_walk(name, regime, access, answer);
    expect_regime(name, regime);
    expect_access(name, access, answer);
}

/* From every first level to a page, in both ranges. */
static void test_granule_levels(void)
{
    static const uint64_t addresses[] = { SOME, ~SOME, UINT64_MAX };
    unsigned tsz;
    size_t i;

    for (tsz = LEAST_T; tsz <= MOST_T; tsz++)
        for (i = 0; i < sizeof addresses / sizeof addresses[0]; i++) {
            const uint64_t address = low_bits(addresses[i], 64 - tsz);

            expect_leaf("page", tsz, address, LAST_LEVEL, CLEAN);
            expect_leaf("page, range 1", tsz,
                        address | UINT64_MAX << (64 - tsz), LAST_LEVEL, CLEAN);
        }
}

/* The outermost address of a range is looked up, the next is not. */
static void test_granule_ends(void)
{
    const struct vmsa_answer outside = fault(VMSA_TRANSLATION_FAULT, 0, 0);
    unsigned tsz;

    blank_of(shaped_regime(LEAST_T).length);
    for (tsz = LEAST_T; tsz <= MOST_T; tsz++) {
        const struct vmsa_regime regime = shaped_regime(tsz);
        const unsigned level = first_level(tsz);
        const uint64_t size = UINT64_C(1) << (64 - tsz);
        const struct vmsa_answer inside =
            fault(VMSA_TRANSLATION_FAULT + level, level, 1);

        expect_walk("end", regime, access_of(VMSA_READ, size - 1, 1), inside);
        expect_walk("past the end", regime, access_of(VMSA_READ, size, 1),
                    outside);
        expect_walk("end, range 1", regime, access_of(VMSA_READ, ~size + 1, 1),
                    inside);
        expect_walk("past the end, range 1", regime,
                    access_of(VMSA_READ, ~size, 1), outside);
    }
}

/* Bits 1..0 = 01: a block, where the level has any, or no translation. */
static void expect_block(unsigned tsz, unsigned level)
{
    if (shape->blocks[level])
        expect_leaf("block", tsz, low_bits(SOME, 64 - tsz), level, BLOCK);
    else
        expect_end("no block", shaped_regime(tsz), VMSA_TRANSLATION_FAULT,
                   level, BLOCK);
}

/* At every level, below tables and as the first. */
static void test_granule_blocks(void)
{
    unsigned level;

    for (level = first_level(LEAST_T); level < LEVELS; level++) {
        expect_block(LEAST_T, level);
        if (shape->first[level] <= MOST_T)
            expect_block(shape->first[level], level);
    }
}

/* Of a leaf's address those bits count that are above what it maps. */
static void test_granule_cut(void)
{
    unsigned level;

    for (level = first_level(LEAST_T); level < LEVELS; level++) {
        const uint64_t leaf =
            (level == LAST_LEVEL ? CLEAN : BLOCK) & ~ADDRESS_BITS;

        if (level < LAST_LEVEL && !shape->blocks[level])
            continue;
        expect_leaf("all bits", LEAST_T, 0, level, leaf | ADDRESS_BITS);
        expect_leaf("low bits", LEAST_T, 0, level,
                    leaf | low_bits(ADDRESS_BITS, shape->low[level]));
    }
}

/* An address in a table or a page that is beyond the output size. */
static void test_granule_output(void)
{
    struct vmsa_regime regime = shaped_regime(LEAST_T);
    unsigned level;

    regime.output = 0;
    for (level = first_level(LEAST_T); level < LEVELS; level++)
        expect_end("output size", regime, VMSA_ADDRESS_SIZE_FAULT, level,
                   UINT64_C(1) << 32 | 3);
}

/* The tables' sum, of every table on the way. */
static void test_granule_tables(void)
{
    struct vmsa_answer answer = fault(15, LAST_LEVEL, 0);
    unsigned level;

    answer.cacheable = 1;
    answer.reads = reads_to(LEAST_T, LAST_LEVEL);
    for (level = first_level(LEAST_T); level < LAST_LEVEL; level++) {
        fresh_way(LEAST_T, SOME, LAST_LEVEL, READ);
        given(entry_of(LEAST_T, level, SOME),
              table_of(LEAST_T, level + 1) | NO_WRITE | 3);
        expect_walk("62", shaped_regime(LEAST_T),
                    access_of(VMSA_WRITE, SOME, 1), answer);
        expect_regime("62", shaped_regime(LEAST_T));
        holds_under(8, SOME >> shape->low[LAST_LEVEL], READ);
        expect_access("62", access_of(VMSA_WRITE, SOME, 1), answer);
    }
}

/* An access in the page that is held, or one that leaves it. */
static void expect_inside(uint64_t address, uint64_t size)
{
    const struct vmsa_access access = access_of(VMSA_READ, address, size);
    struct vmsa_answer answer = found_at(LAST_LEVEL, READ, address, 0, 0);

    expect_access("one page", access, answer);
    answer.reads = reads_to(LEAST_T, LAST_LEVEL);
    expect_walk("one page", shaped_regime(LEAST_T), access, answer);
}

static void expect_across(uint64_t address, uint64_t size)
{
    const struct vmsa_access access = access_of(VMSA_READ, address, size);

    expect_access("two pages", access, refused(7));
    expect_walk("two pages", shaped_regime(LEAST_T), access, refused(7));
}

/* Multiples of 4,096 may be crossed, where the page does not end there. */
static void test_granule_crossing(void)
{
    const uint64_t page = 3 * granule(), end = page + granule();
    uint64_t at, size;

    fresh_way(LEAST_T, page, LAST_LEVEL, READ);
    expect_regime("pages", shaped_regime(LEAST_T));
    holds_leaf(page, LAST_LEVEL, READ);
    expect_access("pages", access_of(VMSA_READ, page, 1),
                  found_at(LAST_LEVEL, READ, page, 0,
                           reads_to(LEAST_T, LAST_LEVEL)));
    for (size = 2; size <= 16; size *= 2) {
        for (at = page + 4096; at < end; at += 4096)
            expect_inside(at - 1, size);
        expect_inside(end - size, size);
        expect_across(end - size + 1, size);
        expect_across(end - 1, size);
        expect_across(page - 1, size);
        expect_across(UINT64_MAX, size);
    }
}

/* A session whose bytes have such a pool, as no call leaves them. */
static void refuses_held(size_t start, size_t length)
{
    started();
    lent.length = 2 * LENGTH;
    lent.session.regime.start = start;
    lent.session.regime.length = length;
    lent.session.regime.granule = shape->granule;
    want.session = lent.session;
    expect_access("held pool", a_read(), refused(1));
    expect_store("held pool", LEAF, 1, 1);
}

/* A session whose bytes have such a root finds no table. */
static void finds_no_table(uint64_t root)
{
    started();
    lent.session.regime.root0 = root;
    lent.session.regime.granule = shape->granule;
    want.session = lent.session;
    expect_access("held root", access_of(VMSA_READ, 0x404000, 4),
                  fault(VMSA_TRANSLATION_FAULT, 0, 0));
}

/* So many bytes, in each number that is to be a multiple of the granule. */
static void refuses_bytes(size_t bytes)
{
    struct vmsa_regime good = worked_regime(), regime;

    good.granule = shape->granule;
    regime = good;
    regime.start = bytes;
    refuses("start", 1, 2 * LENGTH, regime);
    refuses_held(bytes, LENGTH);
    regime = good;
    regime.length = LENGTH - bytes;
    refuses("pool length", 1, LENGTH, regime);
    refuses_held(0, LENGTH - bytes);
    regime = good;
    regime.address = POOL + bytes;
    refuses("pool address", 2, LENGTH, regime);
    regime = good;
    regime.root0 = POOL + bytes;
    refuses("root0", 4, LENGTH, regime);
    finds_no_table(POOL + bytes);
    regime = good;
    regime.root1 = LIMIT48 - bytes;
    regime.disabled1 = 1;
    refuses("root1", 4, LENGTH, regime);
}

static void test_granule_refused(void)
{
    struct vmsa_regime regime = worked_regime();
    size_t bytes;

    for (bytes = 2048; bytes < granule(); bytes *= 2)
        refuses_bytes(bytes);
    regime.granule = shape->granule;
    regime.tsz0 = LEAST_T - 1;
    refuses("tsz0", 3, LENGTH, regime);
    regime.tsz0 = MOST_T + 1;
    refuses("tsz0", 3, LENGTH, regime);
}

/* One granule, in each of those numbers, with the pool at the end of all. */
static void test_granule_accepted(void)
{
    struct vmsa_regime regime = shaped_regime(LEAST_T);
    const unsigned level = first_level(LEAST_T);

    regime.start = (size_t)granule();
    regime.length = (size_t)granule();
    regime.address = LIMIT48 - granule();
    regime.root0 = LIMIT48 - granule();
    regime.root1 = granule();
    blank_of(2 * (size_t)granule());
    expect_regime("aligned", regime);
    expect_access("aligned", access_of(VMSA_READ, 0, 1),
                  fault(VMSA_TRANSLATION_FAULT + level, level, 1));
    expect_access("aligned, no pool", access_of(VMSA_READ, UINT64_MAX, 1),
                  fault(VMSA_EXTERNAL_ABORT + level, level, 1));
    regime.address += granule();
    expect_set("aligned, above 2^48", regime, 2);
}

static struct vmsa_access read_in(unsigned page, uint64_t offset)
{
    return access_of(VMSA_READ, page * granule() + offset, 8);
}

/* Entries go by pages of the granule. */
static void test_granule_entries(void)
{
    static const unsigned pages[] = { 3, 4, 3 + VMSA_ENTRIES };
    const uint8_t reads = reads_to(LEAST_T, LAST_LEVEL);
    const uint64_t last = granule() - 8;
    size_t i;

    fresh_way(LEAST_T, 0, LAST_LEVEL, 0);
    for (i = 0; i < sizeof pages / sizeof pages[0]; i++)
        given(entry_of(LEAST_T, LAST_LEVEL, pages[i] * granule()), READ);
    expect_regime("entries", shaped_regime(LEAST_T));
    for (i = 0; i < sizeof pages / sizeof pages[0]; i++) {
        holds(pages[i], READ);
        expect_access("page, first", read_in(pages[i], 0),
                      found_at(LAST_LEVEL, READ, 0, 0, reads));
        expect_access("page, last", read_in(pages[i], last),
                      found_at(LAST_LEVEL, READ, last, 0, 0));
    }
    expect_access("next page, held", read_in(pages[1], last),
                  found_at(LAST_LEVEL, READ, last, 0, 0));
    holds(pages[0], READ);
    expect_access("page, replaced", read_in(pages[0], last),
                  found_at(LAST_LEVEL, READ, last, 0, reads));
}

/*
 * An address is not taken for one of a page that is held, whose number it has
 * in pages of 4 KiB; both have the same entry.
 */
static void test_granule_numbers(void)
{
    const unsigned held = VMSA_ENTRIES * (unsigned)(granule() / 4096);
    const uint8_t reads = reads_to(LEAST_T, LAST_LEVEL);

    fresh_way(LEAST_T, held * granule(), LAST_LEVEL, READ);
    expect_regime("number", shaped_regime(LEAST_T));
    holds(held, READ);
    expect_access("number", read_in(held, 0),
                  found_at(LAST_LEVEL, READ, 0, 0, reads));
    if (held != VMSA_ENTRIES)
        expect_access("number, another page", read_in(VMSA_ENTRIES, 0),
                      fault(7, LAST_LEVEL, reads));
}

/* What a table of level 3 maps, and so the first address of the next. */
static uint64_t next_table(void)
{
    return UINT64_C(1) << shape->low[LAST_LEVEL - 1];
}

/*
 * The pool at its limit, with memory behind it: a leaf at its very end, and one
 * right behind it.
 */
static struct vmsa_regime fresh_limit(void)
{
    const uint64_t end = POOL + VMSA_POOL_LIMIT;
    struct vmsa_regime regime = shaped_regime(LEAST_T);

    regime.length = VMSA_POOL_LIMIT;
    blank_of(VMSA_POOL_LIMIT + (size_t)granule());
    given_way(LEAST_T, 0, LAST_LEVEL - 1);
    given(entry_of(LEAST_T, LAST_LEVEL - 1, 0), (end - granule()) | 3);
    given(entry_of(LEAST_T, LAST_LEVEL - 1, next_table()), end | 3);
    given(end - 8, CLEAN);
    given(end, CLEAN);
    return regime;
}

static void test_granule_limit(void)
{
    const uint64_t next = next_table();
    const struct vmsa_access write = access_of(VMSA_WRITE, next - 8, 8);
    const uint8_t reads = reads_to(LEAST_T, LAST_LEVEL);
    const struct vmsa_answer past = fault(23, LAST_LEVEL, reads);
    struct vmsa_regime regime = fresh_limit();

    put(&want, POOL + VMSA_POOL_LIMIT - 8, DIRTY);
    expect_walk("limit", regime, write,
                found_at(LAST_LEVEL, CLEAN, next - 8, AF | DIRTIED, reads));
    expect_walk("limit, past", regime, access_of(VMSA_READ, next, 8), past);

    fresh_limit();
    expect_regime("limit", regime);
    expect_access("limit, past", access_of(VMSA_READ, next, 8), past);
    put(&want, POOL + VMSA_POOL_LIMIT - 8, 1);
    expect_store("limit", POOL + VMSA_POOL_LIMIT - 8, 1, VMSA_ACCEPTED);
    expect_store("limit, past", POOL + VMSA_POOL_LIMIT, 1, 8);
    regime.length += (size_t)granule();
    expect_set("above the limit", regime, 1);
    expect_walk("above the limit", regime, write, refused(1));
}

/*
 * With T 39 an address has another entry of the root, its leaf, for each
 * granule.
 */
#define TURNED UINT64_C(0x12340)

static uint64_t turned_leaf(void)
{
    return first_level(MOST_T) == LAST_LEVEL ? READ : READ & ~UINT64_C(2);
}

static void fresh_turned(void)
{
    const struct shape *now = shape;

    blank();
    for (shape = shapes; shape < shapes + SHAPES; shape++)
        given(entry_of(MOST_T, first_level(MOST_T), TURNED), turned_leaf());
    shape = now;
}

static struct vmsa_regime turned_regime(uint8_t granule)
{
    struct vmsa_regime regime = worked_regime();

    regime.tsz0 = MOST_T;
    regime.granule = granule;
    return regime;
}

/* A read near that address, through that leaf. */
static void expect_turned(const char *name, uint64_t address, uint8_t reads)
{
    expect_access(name, access_of(VMSA_READ, address, 2),
                  found_at(first_level(MOST_T), turned_leaf(), address, 0,
                           reads));
}

/* From each granule to each other, over the same memory. */
static void test_granule_turned(void)
{
    size_t from, to;

    fresh_turned();
    for (from = 0; from < SHAPES; from++)
        for (to = 0; to < SHAPES; to++) {
            struct vmsa_regime bad = turned_regime(shapes[to].granule);

            shape = &shapes[from];
            expect_regime("turned", turned_regime(shape->granule));
            holds_leaf(TURNED, first_level(MOST_T), turned_leaf());
            expect_turned("turned", TURNED, 1);
            bad.tsz1 = MOST_T + 1;
            expect_set("turned, refused", bad, 3);
            expect_turned("turned, refused", TURNED, 0);

            shape = &shapes[to];
            expect_regime("turned", turned_regime(shape->granule));
            holds_leaf(TURNED, first_level(MOST_T), turned_leaf());
            expect_turned("turned", TURNED, 1);
            expect_turned("turned, held", TURNED, 0);
        }
    shape = shapes;
}

/* Every value of the byte, in a regime that is given. */
static void test_granule_values(void)
{
    const struct vmsa_access read = access_of(VMSA_READ, TURNED, 2);
    unsigned value;

    for (value = 0; value <= UINT8_MAX; value++) {
        const struct vmsa_regime regime = turned_regime((uint8_t)value);

        shape = shape_of((uint8_t)value);
        fresh_turned();
        expect_walk("any granule", regime, read,
                    found_at(first_level(MOST_T), turned_leaf(), TURNED, 0, 1));
        expect_regime("any granule", regime);
        holds_leaf(TURNED, first_level(MOST_T), turned_leaf());
        expect_turned("any granule", TURNED, 1);
    }
    shape = shapes;
}

/* A session of this shape: the page is read, another is not there. */
static void expect_held(uint8_t reads)
{
    const struct vmsa_access across = access_of(VMSA_READ, 0x12FFF, 2);
    const struct vmsa_access miss = access_of(VMSA_READ, 0x1000000, 2);
    const unsigned level = first_level(MOST_T);

    holds_leaf(TURNED, level, turned_leaf());
    expect_turned("held granule", TURNED, reads);
    expect_access("held granule, miss", miss,
                  fault(VMSA_TRANSLATION_FAULT + level, level, 1));
    if (granule() == 4096)
        expect_access("held granule, across", across, refused(7));
    else
        expect_turned("held granule, across", across.address, 0);
}

/*
 * Every value of the byte, where a session has it: no call leaves one above 2.
 * The page has an entry for each granule; the first with it has to walk.
 */
static void test_granule_held(void)
{
    unsigned value;

    fresh_turned();
    expect_regime("held granule", turned_regime(VMSA_GRANULE_4K));
    for (value = 0; value <= UINT8_MAX; value++) {
        lent.session.regime.granule = (uint8_t)value;
        want.session = lent.session;
        shape = shape_of((uint8_t)value);
        expect_held(value < SHAPES);
    }
    shape = shapes;
}

/* Spare bytes */

static void test_spare_given(void)
{
    struct vmsa_regime regime = worked_regime();
    struct vmsa_access access = a_read();

    memset(regime.spare, 0xAA, sizeof regime.spare);
    memset(access.spare, 0xAA, sizeof access.spare);
    fresh();
    put(&want, LEAF, READ);
    expect_walk("spare, walk", regime, access, found(FRAME + 0xABC, AF, 4));

    fresh();
    want.session.regime = worked_regime();
    want.session.set = 1;
    expect_set("spare, set", regime, VMSA_ACCEPTED);
    put(&want, LEAF, READ);
    holds(PAGE, READ);
    expect_access("spare, miss", access, found(FRAME + 0xABC, AF, 4));
    expect_access("spare, hit", access, found(FRAME + 0xABC, 0, 0));
}

/* A started session with something in every spare byte, and spare bit. */
static void started_spare(void)
{
    size_t i;

    started();
    memset(lent.session.regime.spare, 0xAA, sizeof lent.session.regime.spare);
    memset(lent.session.spare, 0xAA, sizeof lent.session.spare);
    for (i = 0; i < VMSA_ENTRIES; i++) {
        memset(lent.session.entries[i].spare, 0xAA,
               sizeof lent.session.entries[i].spare);
        lent.session.entries[i].tables = 0xA0;
    }
    want.session = lent.session;
}

/* They have no say, and what a call leaves alone it leaves byte for byte. */
static void test_spare_session(void)
{
    started_spare();
    expect_access("spare, held", a_read(), found(FRAME + 0xABC, 0, 0));
    expect_access("spare, fault", access_of(VMSA_READ, 0x404000, 4),
                  fault(7, 3, 4));
    expect_access("spare, refused", access_of(VMSA_READ, ADDRESS, 3),
                  refused(6));
    put(&want, LEAF, CLEAN | 0x400);
    expect_store("spare, store", LEAF, CLEAN | 0x400, VMSA_ACCEPTED);
    put(&want, LEAF, DIRTY);
    holds(PAGE, DIRTY);
    expect_access("spare, filled", a_write(),
                  found(FRAME + 0xABC, DIRTIED, 4));
    holds_nothing();
    expect_invalidate("spare, emptied");
}

static void test_spare_set(void)
{
    struct vmsa_regime bad = worked_regime();

    started_spare();
    bad.tsz0 = 0;
    expect_set("spare, refused regime", bad, 3);
    holds_nothing();
    want.session.regime = worked_regime();
    memset(want.session.spare, 0, sizeof want.session.spare);
    expect_set("spare, regime", worked_regime(), VMSA_ACCEPTED);
}

/* The session's bytes before have no say in the fresh one. */
static void test_empty(void)
{
    static const int fills[] = { 0x00, 0x55, 0xAA, 0xFF };
    size_t i;

    fresh();
    for (i = 0; i < sizeof fills / sizeof fills[0]; i++) {
        memset(&lent.session, fills[i], sizeof lent.session);
        vmsa_session_empty(&lent.session);
        check_world("empty session");
    }
}

static void test_init(void)
{
    struct vmsa_regime regime = VMSA_REGIME_INIT;
    struct vmsa_regime zeroed = { 0 };

    refuses("init, no pool", 1, LENGTH, regime);
    regime.length = LENGTH;
    zeroed.length = LENGTH;
    refuses("zeroed", 3, LENGTH, zeroed);

    fresh();
    expect_walk("init, range 0", regime, a_read(), fault(4, 0, 0));
    expect_walk("init, range 1", regime,
                access_of(VMSA_READ, ~UINT64_C(0xFFF), 4), fault(4, 0, 0));
    want.session.regime = regime;
    want.session.set = 1;
    expect_set("init, set", regime, VMSA_ACCEPTED);
}

/* Walks a descriptor at a time: where they lead, and where they end */

/* A worked case: the addresses that it names, and its update. */
static void expect_worked_steps(const struct worked *row)
{
    const uint64_t last = (row->third & ~UINT64_C(0xFFF)) + 0x18;
    const struct vmsa_answer answer = worked_answer(row);
    unsigned level;

    if (row->tag == VMSA_REFUSED)
        ends(answer);
    else
        wants(POOL, 0, 0);
    expect_start(row->name, regime_of(row),
                 access_of(row->kind, row->address, row->size));
    if (row->tag == VMSA_REFUSED)
        return;
    for (level = 0; level < 2; level++) {
        wants(on_the_way[level + 1].address, level + 1, 0);
        expect_value(row->name, on_the_way[level].value);
    }
    wants(last, 3, 0);
    expect_value(row->name, row->third);
    ends(answer);
    if (row->after != row->leaf)
        ends_with(answer, LEAF, row->leaf, row->after);
    if (last < POOL + LENGTH)
        expect_value(row->name, last == LEAF ? row->leaf : 0);
    else
        expect_unreachable(row->name);
}

static void test_steps_worked(void)
{
    size_t i;

    for (i = 0; i < sizeof worked / sizeof worked[0]; i++)
        expect_worked_steps(&worked[i]);
}

/* Starts a walk under a regime like that of shaped_regime, up to a level. */
static void expect_way(const char *name, struct vmsa_regime regime,
                       struct vmsa_access access, unsigned last)
{
    const unsigned tsz = regime.tsz0;
    unsigned level = first_level(tsz);

    wants(entry_of(tsz, level, access.address), level, 0);
    expect_start(name, regime, access);
    for (; level < last; level++) {
        wants(entry_of(tsz, level + 1, access.address), level + 1, 0);
        expect_value(name, onward(tsz, level));
    }
}

/* The ends of a write at a level: no descriptor, a bad one, and a leaf. */
static void expect_ends(unsigned tsz, uint64_t address, unsigned level)
{
    const struct vmsa_regime regime = shaped_regime(tsz);
    const struct vmsa_access access = access_of(VMSA_WRITE, address, 1);
    const uint8_t reads = reads_to(tsz, level);
    const uint64_t leaf = level == LAST_LEVEL ? CLEAN : BLOCK;

    expect_way("steps", regime, access, level);
    ends(fault(VMSA_EXTERNAL_ABORT + level, level, reads));
    expect_unreachable("steps, unreachable");

    expect_way("steps", regime, access, level);
    ends(fault(VMSA_TRANSLATION_FAULT + level, level, reads));
    expect_value("steps, bit 0 clear", ~UINT64_C(1));

    if (level < LAST_LEVEL && !shape->blocks[level])
        return;
    expect_way("steps", regime, access, level);
    ends_with(found_at(level, leaf, address, AF | DIRTIED, reads),
              entry_of(tsz, level, address), leaf, dirty_of(leaf));
    expect_value("steps, leaf", leaf);
}

/* From every first level to every level, in both ranges. */
static void test_granule_steps(void)
{
    unsigned tsz, level;

    for (tsz = LEAST_T; tsz <= MOST_T; tsz++)
        for (level = first_level(tsz); level < LEVELS; level++) {
            const uint64_t address = low_bits(SOME, 64 - tsz);

            expect_ends(tsz, address, level);
            expect_ends(tsz, address | UINT64_MAX << (64 - tsz), level);
        }
}

/* Faults before any descriptor is wanted. */
static void test_steps_start(void)
{
    struct vmsa_regime regime = worked_regime();

    ends(fault(VMSA_TRANSLATION_FAULT, 0, 0));
    expect_start("outside", regime, access_of(VMSA_READ, LIMIT48, 1));
    regime.disabled0 = 1;
    expect_start("disabled", regime, a_read());
    regime = worked_regime();
    regime.output = 0;
    regime.root0 = UINT64_C(1) << 32;
    ends(fault(VMSA_ADDRESS_SIZE_FAULT, 0, 0));
    expect_start("root beyond the output size", regime, a_read());
}

/* Makes a call one that is refused with a number. */
static void spoil(unsigned number, struct vmsa_regime *regime,
                  struct vmsa_access *access)
{
    switch (number) {
    case VMSA_REFUSED_SIZES:
        regime->tsz1 = MOST_T + 1;
        break;
    case VMSA_REFUSED_ROOT:
        regime->root1 = LIMIT48;
        break;
    case VMSA_REFUSED_ATTRIBUTES:
        regime->attributes = 1;
        break;
    case VMSA_REFUSED_DIRTY_STATE:
        regime->ha = 0;
        break;
    case VMSA_REFUSED_ACCESS_SIZE:
        access->size = 32;
        break;
    default:
        access->address = 0x403FFF;
    }
}

/*
 * The start is refused; and so is an offer to a walk that has not ended under
 * such a regime or for such an access, as no call leaves one.
 */
static void refuses_start(unsigned number, struct vmsa_regime regime,
                          struct vmsa_access access)
{
    ends(refused(number));
    expect_start("steps, refused", regime, access);
    lent.walk.ended = 0;
    expect_value("steps, refused, value", CLEAN);
    lent.walk.ended = 0;
    expect_unreachable("steps, refused, unreachable");
}

/* Each mistake alone, and any two of them: the first counts. */
static void test_steps_refused(void)
{
    static const unsigned numbers[] = { 3, 4, 5, 13, 6, 7 };
    const size_t count = sizeof numbers / sizeof numbers[0];
    size_t first, later;

    for (first = 0; first < count; first++)
        for (later = first; later < count; later++) {
            struct vmsa_regime regime = worked_regime();
            struct vmsa_access access = a_read();

            spoil(numbers[later], &regime, &access);
            spoil(numbers[first], &regime, &access);
            refuses_start(numbers[first], regime, access);
        }
}

/* P2, a descriptor at a time. */
static void expect_write_steps(const char *name, struct vmsa_regime regime)
{
    expect_way(name, regime, a_write(), LAST_LEVEL);
    ends_with(found(FRAME + 0xABC, AF | DIRTIED, 4), LEAF, CLEAN, DIRTY);
    expect_value(name, CLEAN);
}

/* The pool has no say, both lengths of P12 among the numbers, nor has EE. */
static void test_steps_no_say(void)
{
    static const size_t numbers[] = { 0, 1, 1048576, 1052672, SIZE_MAX };
    struct vmsa_regime regime = worked_regime();
    unsigned value;
    size_t i;

    for (i = 0; i < sizeof numbers / sizeof numbers[0]; i++) {
        regime = worked_regime();
        regime.start = numbers[i];
        expect_write_steps("any pool start", regime);
        regime.length = numbers[i];
        expect_write_steps("any pool length", regime);
        regime.address = numbers[i];
        expect_write_steps("any pool address", regime);
    }
    for (value = 0; value <= UINT8_MAX; value++) {
        regime.ee = (uint8_t)value;
        expect_write_steps("any EE, steps", regime);
    }
}

/* The bits of tables add up on the way. */
static void test_steps_tables(void)
{
    static const struct {
        uint64_t bits;
        unsigned sum;
    } rows[] = {
        { NO_EL1_FETCH | NO_SAY, 1 },
        { NO_EL0_FETCH | NO_WRITE, 11 },
        { NO_EL0 | NO_WRITE, 15 }
    };
    struct vmsa_answer answer = fault(15, 3, 4);
    unsigned level;

    wants(POOL, 0, 0);
    expect_start("sum", worked_regime(), a_read());
    for (level = 0; level < LAST_LEVEL; level++) {
        wants(on_the_way[level + 1].address, level + 1, rows[level].sum);
        expect_value("sum", on_the_way[level].value | rows[level].bits);
    }
    answer.cacheable = 1;
    ends(answer);
    expect_value("sum", READ);
}

/* Puts something in every byte that has no say in an offer, and spare bit. */
static void fill_unused(void)
{
    memset(&lent.walk.answer, 0xAA, sizeof lent.walk.answer);
    memset(&lent.walk.expected, 0xAA, sizeof lent.walk.expected);
    memset(&lent.walk.value, 0xAA, sizeof lent.walk.value);
    lent.walk.update = 0xAA;
    lent.walk.tables |= 0xA0;
    memset(lent.walk.spare, 0xAA, sizeof lent.walk.spare);
    memset(lent.walk.regime.spare, 0xAA, sizeof lent.walk.regime.spare);
    memset(lent.walk.access.spare, 0xAA, sizeof lent.walk.access.spare);
    want.walk = lent.walk; /* an offer leaves regime and access alone */
}

static void test_steps_unused(void)
{
    struct vmsa_regime regime = worked_regime();
    struct vmsa_access access = a_write();
    unsigned level;

    memset(regime.spare, 0xAA, sizeof regime.spare);
    memset(access.spare, 0xAA, sizeof access.spare);
    for (level = 0; level < LEVELS; level++) {
        expect_way("unused", regime, access, level);
        fill_unused();
        ends(fault(VMSA_EXTERNAL_ABORT + level, level, (uint8_t)(level + 1)));
        expect_unreachable("unused, unreachable");
    }
    for (level = 0; level < LAST_LEVEL; level++) {
        expect_way("unused", regime, access, level);
        fill_unused();
        wants(on_the_way[level + 1].address, level + 1, 0);
        expect_value("unused, table", on_the_way[level].value);
    }
    fill_unused();
    ends_with(found(FRAME + 0xABC, AF | DIRTIED, 4), LEAF, CLEAN, DIRTY);
    expect_value("unused, leaf", CLEAN);
}

/* Any byte but 0 is an end, whatever stands beside it. */
static void test_steps_ended(void)
{
    unsigned value;

    for (value = 1; value <= UINT8_MAX; value++) {
        expect_way("ended", worked_regime(), a_write(), LAST_LEVEL);
        lent.walk.ended = (uint8_t)value;
        want.walk = lent.walk;
        check_walk("ended");
        memset(&lent.walk, (int)value, sizeof lent.walk);
        want.walk = lent.walk;
        check_walk("ended, any bytes");
    }
}

/* Bytes of 0 are a walk that has not ended, under a regime with T 0. */
static void test_steps_zeroed(void)
{
    memset(&lent.walk, 0, sizeof lent.walk);
    want.walk = lent.walk;
    ends(refused(3));
    expect_value("zeroed, value", CLEAN);
    memset(&lent.walk, 0, sizeof lent.walk);
    expect_unreachable("zeroed, unreachable");
}

/* The descriptor that is wanted may have any address. */
static void test_steps_address(void)
{
    static const uint64_t addresses[] = { 0, 5, LIMIT48, UINT64_MAX };
    size_t i;

    for (i = 0; i < sizeof addresses / sizeof addresses[0]; i++) {
        expect_way("address", worked_regime(), a_read(), LAST_LEVEL);
        lent.walk.address = addresses[i];
        ends_with(found(FRAME + 0xABC, AF, 4), addresses[i], CLEAN, READ);
        expect_value("any address", CLEAN);
    }
}

/* A walk with any sum, of which bits 3 to 0 count: a table, and a leaf. */
static void test_steps_sum(void)
{
    struct vmsa_answer denied = fault(15, 3, 4);
    unsigned sum;

    denied.cacheable = 1;
    for (sum = 0; sum <= UINT8_MAX; sum++) {
        expect_way("any sum", worked_regime(), a_write(), 2);
        lent.walk.tables = (uint8_t)sum;
        wants(LEAF, 3, (sum & 15) | 1);
        expect_value("any sum, table", TABLE | NO_EL1_FETCH);
        lent.walk.tables = (uint8_t)sum;
        if (sum & 12)
            ends(denied);
        else
            ends_with(found(FRAME + 0xABC, DIRTIED, 4), LEAF, READ, DIRTY);
        expect_value("any sum, leaf", READ);
    }
}

/* A start, and then so many levels left. */
static void start_left(unsigned tsz, unsigned left)
{
    const struct vmsa_regime regime = shaped_regime(tsz);
    const struct vmsa_access access = access_of(VMSA_READ, 0, 1);

    vmsa_stepwise_start(&regime, &access, &lent.walk);
    lent.walk.left = (uint8_t)left;
    want.walk = lent.walk;
}

/* With more levels left than there are, a walk is at the first level. */
static void expect_left(unsigned tsz, unsigned left)
{
    const unsigned first = first_level(tsz);
    const unsigned level =
        left > LAST_LEVEL - first ? first : LAST_LEVEL - left;

    start_left(tsz, left);
    ends(fault(VMSA_EXTERNAL_ABORT + level, level, reads_to(tsz, level)));
    expect_unreachable("left");
    start_left(tsz, left);
    ends(fault(VMSA_TRANSLATION_FAULT + level, level, reads_to(tsz, level)));
    expect_value("left, bit 0 clear", 0);
    if (level == LAST_LEVEL)
        return;
    start_left(tsz, left);
    wants(table_of(tsz, level + 1), level + 1, 0);
    expect_value("left, table", onward(tsz, level));
}

static void test_granule_left(void)
{
    unsigned tsz, left;

    for (tsz = LEAST_T; tsz <= MOST_T; tsz++)
        for (left = 0; left <= UINT8_MAX; left += left < 5 ? 1 : 50)
            expect_left(tsz, left);
}

/* Harvests */

#define AP2 UINT64_C(0x80)
#define AF_BIT UINT64_C(0x400)
#define DBM (UINT64_C(1) << 51)

/* A map of so many bytes, with 0x5A in it and around it. */
static void lend_map(size_t length)
{
    memset(want.map, 0x5A, sizeof want.map);
    memcpy(lent.map, want.map, sizeof lent.map);
    lent.map_length = length;
}

static uint8_t *map(void)
{
    return lent.map_length == 0 ? NULL : lent.map + GUARD;
}

/* A map with two bytes more than it needs, in which no page is to be dirty. */
static void reports_none(uint64_t count)
{
    const size_t bytes = (size_t)(count + 7) / 8;

    lend_map(bytes + 2);
    memset(want.map + GUARD, 0, bytes);
}

/* So many pages are to be dirty, from one on that is counted from the first. */
static void reports(uint64_t from, uint64_t count)
{
    for (; count > 0; count--, from++)
        want.map[GUARD + from / 8] |= (uint8_t)(1u << from % 8);
}

static void check_map(const char *name)
{
    check_bytes(name, "map", lent.map, want.map, sizeof lent.map);
    check_world(name);
}

static void expect_harvest(const char *name, struct vmsa_regime regime,
                           uint64_t first, uint64_t count, unsigned refusal)
{
    const struct vmsa_regime before = regime;
    uint8_t got = vmsa_harvest(memory(), lent.length, &regime, first, count,
                               map(), lent.map_length);

    check(name, "reply", got == refusal);
    check_bytes(name, "regime", &regime, &before, sizeof regime);
    check_map(name);
}

static void expect_session_harvest(const char *name, uint64_t first,
                                   uint64_t count, unsigned refusal)
{
    uint8_t got = vmsa_session_harvest(&lent.session, memory(), lent.length,
                                       first, count, map(), lent.map_length);

    check(name, "reply", got == refusal);
    check_map(name);
}

/* A session of this regime, with something in every other byte of it. */
static void hold_anything(struct vmsa_regime regime)
{
    memset(&lent.session, 0xA5, sizeof lent.session);
    lent.session.regime = regime;
    want.session = lent.session;
}

/*
 * A harvest, and one in a session over the same memory and map: they leave the
 * same, and the second empties every entry, where it is not refused.
 */
static void expect_harvests(const char *name, struct vmsa_regime regime,
                            uint64_t first, uint64_t count, unsigned refusal)
{
    static uint8_t before[sizeof want.large];
    const size_t size = GUARD + lent.length + GUARD;

    hold_anything(regime);
    memcpy(before, lent.room, size);
    expect_harvest(name, regime, first, count, refusal);
    memcpy(lent.room, before, size);
    memset(lent.map, 0x5A, sizeof lent.map);
    if (refusal == VMSA_ACCEPTED)
        holds_nothing();
    expect_session_harvest(name, first, count, refusal);
}

/* P2's leaf, byte for byte: dirty, and clean again. */
static void test_harvest_bytes(void)
{
    static const uint8_t dirty[2][8] = {
        { 0x43, 0x57, 0x00, 0x80, 0x00, 0x00, 0x08, 0x00 },
        { 0x00, 0x08, 0x00, 0x00, 0x80, 0x00, 0x57, 0x43 }
    };
    static const uint8_t clean[2][8] = {
        { 0xC3, 0x57, 0x00, 0x80, 0x00, 0x00, 0x08, 0x00 },
        { 0x00, 0x08, 0x00, 0x00, 0x80, 0x00, 0x57, 0xC3 }
    };

    fresh();
    given_bytes(LEAF, dirty[ee]);
    put_bytes(&want, LEAF, clean[ee]);
    reports_none(1);
    want.map[GUARD] = 0x01;
    expect_harvests("harvest", worked_regime(), PAGE, 1, 0);
    reports_none(1);
    expect_harvests("harvest, again", worked_regime(), PAGE, 1, 0);

    /* The same leaf, in the other range. */
    given_bytes(LEAF, dirty[ee]);
    put_bytes(&want, LEAF, clean[ee]);
    reports_none(9);
    want.map[GUARD + 1] = 0x01;
    expect_harvests("harvest, range 1", worked_regime(),
                    UINT64_C(0xFFFF000000403) - 8, 9, 0);
}

/* A leaf is dirty by three of its bits; the others have no say, and stay. */
static void test_harvest_bits(void)
{
    static const uint64_t others[] = {
        3, DIRTY, UINT64_C(0xFFF7FFFFFFFFFB7F), UINT64_C(0x555555555555)
    };
    const uint64_t marks = AF_BIT | DBM | AP2;
    unsigned bits;
    size_t i;

    for (i = 0; i < sizeof others / sizeof others[0]; i++)
        for (bits = 0; bits < 32; bits++) {
            const uint64_t leaf =
                (others[i] & ~(marks | 3)) | (bits & 3) |
                (bits & 4 ? AF_BIT : 0) | (bits & 8 ? DBM : 0) |
                (bits & 16 ? AP2 : 0);

            fresh();
            given(LEAF, leaf);
            reports_none(1);
            if (bits == (3 | 4 | 8)) {
                reports(0, 1);
                put(&want, LEAF, leaf | AP2);
            }
            expect_harvests("bits", worked_regime(), PAGE, 1, 0);
        }
}

/* The leaf of page 0x400 + n; there are 512 in that table. */
static uint64_t leaf_of(uint64_t n)
{
    return POOL + 0x3000 + 8 * n;
}

/*
 * One dirty page among so many: it is the nth of them. The pages right before
 * the first and right behind the last are dirty too, and stay so.
 */
static void expect_one(uint64_t first, uint64_t count, uint64_t n)
{
    fresh();
    given(LEAF, CLEAN);
    given(leaf_of(first - 1), DIRTY);
    given(leaf_of(first + count), DIRTY);
    given(leaf_of(first + n), DIRTY);
    put(&want, leaf_of(first + n), READ);
    reports_none(count);
    reports(n, 1);
    expect_harvests("one page", worked_regime(), 0x400 + first, count, 0);
}

static void test_harvest_places(void)
{
    uint64_t count, n;

    for (count = 1; count <= 20; count++)
        for (n = 0; n < count; n++)
            expect_one(5, count, n);
    for (n = 0; n < 500; n += 83)
        expect_one(5, 500, n);
}

/* Every third page, among so many from one on; and then once more. */
static void test_harvest_many(void)
{
    static const uint64_t runs[][2] = {
        { 0x400, 512 }, { 0x401, 509 }, { 0x3F9, 527 }, { 0x5FF, 1 },
        { 0, VMSA_HARVEST_LIMIT }, { 0x400, VMSA_HARVEST_LIMIT },
        { 0x500, VMSA_HARVEST_LIMIT - 1 }
    };
    size_t i;
    uint64_t n;

    for (i = 0; i < sizeof runs / sizeof runs[0]; i++) {
        const uint64_t first = runs[i][0], count = runs[i][1];

        fresh();
        reports_none(count);
        for (n = 0; n < 512; n++) {
            given(leaf_of(n), n % 3 == 0 ? DIRTY : READ);
            if (n % 3 != 0 || 0x400 + n < first || 0x400 + n >= first + count)
                continue;
            put(&want, leaf_of(n), READ);
            reports(0x400 + n - first, 1);
        }
        expect_harvests("many", worked_regime(), first, count, 0);
        reports_none(count);
        expect_harvests("many, again", worked_regime(), first, count, 0);
    }
}

/* A bit less in the map than pages is refused; as many, or more, are not. */
static void test_harvest_map_length(void)
{
    static const struct {
        uint64_t count;
        size_t length;
        unsigned refusal;
    } rows[] = {
        { 1, 0, 11 }, { 1, 1, 0 }, { 8, 1, 0 }, { 9, 1, 11 }, { 9, 2, 0 },
        { 16, 2, 0 }, { 17, 2, 11 }, { 17, 0, 11 }, { 17, 3, 0 },
        { 65528, 8191, 0 }, { 65529, 8191, 11 }, { 65536, 8191, 11 },
        { 65536, 8192, 0 }, { 65536, 8193, 0 }, { 65536, 1, 11 }
    };
    size_t i;

    for (i = 0; i < sizeof rows / sizeof rows[0]; i++) {
        fresh();
        given(LEAF, DIRTY);
        lend_map(rows[i].length);
        if (rows[i].refusal == 0) {
            memset(want.map + GUARD, 0, (size_t)(rows[i].count + 7) / 8);
            reports(0, 1);
            put(&want, LEAF, READ);
        }
        expect_harvests("map length", worked_regime(), PAGE, rows[i].count,
                        rows[i].refusal);
    }
}

/* What a harvest is made with. */
struct harvest {
    struct vmsa_regime regime;
    uint64_t first, count;
    size_t map_length;
};

static void spoil_harvest(unsigned number, struct harvest *harvest)
{
    switch (number) {
    case VMSA_REFUSED_MEMORY_POOL:
        harvest->regime.start = 4096;
        break;
    case VMSA_REFUSED_POOL_ADDRESS:
        harvest->regime.address = POOL + 8;
        break;
    case VMSA_REFUSED_PAGE_RANGE:
        harvest->first = LIMIT48 >> 12;
        break;
    case VMSA_REFUSED_MAP_LENGTH:
        harvest->map_length = 0;
        break;
    default:
        spoil(number, &harvest->regime, NULL);
    }
}

/* Each mistake alone, and any two of them; and all of them with no regime. */
static void test_harvest_refused(void)
{
    static const unsigned numbers[] = { 1, 2, 3, 4, 5, 13, 10, 11 };
    const size_t count = sizeof numbers / sizeof numbers[0];
    struct harvest harvest;
    size_t first, later;

    for (first = 0; first < count; first++)
        for (later = first; later < count; later++) {
            const struct harvest good = { worked_regime(), PAGE, 9, 2 };

            harvest = good;
            spoil_harvest(numbers[later], &harvest);
            spoil_harvest(numbers[first], &harvest);
            fresh();
            given(LEAF, DIRTY);
            lend_map(harvest.map_length);
            expect_harvests("harvest, refused", harvest.regime, harvest.first,
                            harvest.count, numbers[first]);
            lent.session.set = want.session.set = 0;
            expect_session_harvest("harvest, no regime", harvest.first,
                                   harvest.count, 9);
        }
}

/* The rows of the pool and the memory, in the numbers that other calls have. */
static void test_harvest_memory(void)
{
    struct vmsa_regime regime = worked_regime();

    fresh();
    given(LEAF, DIRTY);
    lend_map(1);
    lent.length = 0;
    expect_harvests("harvest, no memory", regime, PAGE, 1, 1);
    lent.length = LENGTH - 1;
    expect_harvests("harvest, short memory", regime, PAGE, 1, 1);
    lent.length = LENGTH;
    regime.length = 0;
    expect_harvests("harvest, empty pool", regime, PAGE, 1, 1);

    regime = largest_regime(POOL);
    fresh_largest(POOL);
    lend_map(1);
    lent.length = VMSA_MEMORY_LIMIT + 1;
    expect_harvests("harvest, memory above its limit", regime, PAGE, 1, 1);
    lent.length = VMSA_MEMORY_LIMIT;
    regime.length = VMSA_POOL_LIMIT + 4096;
    expect_harvests("harvest, pool above its limit", regime, PAGE, 1, 1);
}

/* What has no say, over a leaf that is dirty. */
static void test_harvest_no_say(void)
{
    static const uint64_t bits = NO_SAY | NO_WRITE | NO_EL0 | NO_EL0_FETCH |
                                 NO_EL1_FETCH | DBM | AF_BIT | AP2;
    unsigned flags;

    for (flags = 0; flags < 64; flags++) {
        struct vmsa_regime regime = worked_regime();
        unsigned level;

        fresh();
        for (level = 0; level < LAST_LEVEL && flags & 1; level++)
            given(on_the_way[level].address, on_the_way[level].value | bits);
        regime.ha = flags & 2 ? 0 : 0x80;
        regime.hd = flags & 6 ? 0 : 0xFF;
        regime.wxn = (flags & 8) != 0;
        regime.hpd0 = flags & 16 ? 0x40 : 0;
        regime.attributes = flags & 32 ? 0 : UINT64_MAX;
        memset(regime.spare, (int)flags, sizeof regime.spare);
        given(LEAF, DIRTY);
        put(&want, LEAF, READ);
        reports_none(3);
        reports(1, 1);
        expect_harvests("no say", regime, PAGE - 1, 3, 0);
    }
}

/* A dirty leaf that no walk of the page reaches. */
static void expect_nowhere(const char *name, struct vmsa_regime regime)
{
    reports_none(11);
    expect_harvests(name, regime, PAGE - 2, 11, 0);
}

static void test_harvest_nowhere(void)
{
    struct vmsa_regime regime = worked_regime();
    unsigned level, type;

    fresh();
    given(LEAF, DIRTY);
    regime.disabled0 = 0x80;
    expect_nowhere("disabled", regime);
    regime = worked_regime();
    regime.output = 0;
    regime.root0 = UINT64_C(1) << 32;
    expect_nowhere("root beyond the output size", regime);
    regime.root0 = POOL + LENGTH;
    expect_nowhere("root outside the pool", regime);
    regime.root0 = POOL;
    for (level = 0; level < LEVELS; level++) {
        const uint64_t value = level < LAST_LEVEL ? on_the_way[level].value
                                                  : DIRTY;

        for (type = 0; type < 3; type++) {
            given(on_the_way[level].address, (value & ~UINT64_C(3)) | type);
            if (type != 1 || !shape->blocks[level])
                expect_nowhere("no descriptor", regime);
        }
        given(on_the_way[level].address, value | UINT64_C(1) << 32);
        expect_nowhere("beyond the output size", regime);
        given(on_the_way[level].address, value + LENGTH);
        if (level < LAST_LEVEL)
            expect_nowhere("outside the pool", regime);
        given(on_the_way[level].address, value);
    }
}

/* Two entries that lead to one table, so that two pages share each leaf. */
static void test_harvest_shared(void)
{
    fresh();
    given(THIRD + 8, TABLE);
    given(LEAF, DIRTY);
    put(&want, LEAF, READ);
    reports_none(0x201);
    reports(0, 1);
    reports(0x200, 1);
    expect_harvests("shared", worked_regime(), PAGE, 0x201, 0);

    /* Either alone makes the leaf clean, and the other is no longer dirty. */
    given(LEAF, DIRTY);
    put(&want, LEAF, READ);
    reports_none(0x200);
    reports(0, 1);
    expect_harvests("shared, first", worked_regime(), PAGE, 0x200, 0);
    given(LEAF, DIRTY);
    put(&want, LEAF, READ);
    reports_none(1);
    reports(0, 1);
    expect_harvests("shared, second", worked_regime(), PAGE + 0x200, 1, 0);
    reports_none(1);
    expect_harvests("shared, the other", worked_regime(), PAGE, 1, 0);
}

/*
 * A root that is a table of every level: its entries are tables on the way and
 * leaves, and AP[2] of a table has no say.
 */
static void test_harvest_loop(void)
{
    const uint64_t page = UINT64_C(0x8040201); /* by entry 1 at each level */
    const uint64_t marked = POOL | AF_BIT | DBM | 3;

    fresh();
    given(POOL, UINT64_C(0x40001003) | AF_BIT | DBM);
    given(POOL + 8, marked);
    put(&want, POOL, UINT64_C(0x40001003) | AF_BIT | DBM | AP2);
    put(&want, POOL + 8, marked | AP2);
    given(LEAF, DIRTY);
    reports_none(8);
    reports(0, 2);
    expect_harvests("loop", worked_regime(), page - 1, 8, 0);
    reports_none(8);
    expect_harvests("loop, again", worked_regime(), page - 1, 8, 0);
    put(&want, LEAF, READ);
    reports_none(1);
    reports(0, 1);
    expect_harvests("loop, below", worked_regime(), PAGE, 1, 0);
}

/* A session: what is written is reported, each time, and nothing is held. */
static void test_harvest_script(void)
{
    const uint64_t output = FRAME + 0xABC;
    int round;

    started();
    for (round = 0; round < 3; round++) {
        put(&want, LEAF, DIRTY);
        holds(PAGE, DIRTY);
        expect_access("harvested, write", a_write(),
                      found(output, DIRTIED, 4));
        expect_access("harvested, held", a_write(), found(output, 0, 0));
        lend_map(0);
        expect_session_harvest("harvested, no map", PAGE, 1, 11);
        expect_session_harvest("harvested, no pages", PAGE, 0, 10);
        expect_access("harvested, held", a_write(), found(output, 0, 0));
        reports_none(1);
        reports(0, 1);
        put(&want, LEAF, READ);
        holds_nothing();
        expect_session_harvest("harvested", PAGE, 1, 0);
        reports_none(1);
        expect_session_harvest("harvested, again", PAGE, 1, 0);
    }

    /* It is a drop, too, of pages that it was not asked for. */
    holds(PAGE, READ);
    expect_access("dropped", a_read(), found(output, 0, 4));
    put(&want, LEAF, 0);
    expect_store("dropped", LEAF, 0, VMSA_ACCEPTED);
    expect_access("dropped, held", a_read(), found(output, 0, 0));
    holds_nothing();
    reports_none(1);
    expect_session_harvest("dropped", 0, 1, 0);
    expect_access("dropped, seen", a_read(), fault(7, 3, 4));
}

/* A plain harvest leaves what a session holds: the next write has no mark. */
static void test_harvest_lost(void)
{
    const uint64_t output = FRAME + 0xABC;

    started();
    put(&want, LEAF, DIRTY);
    holds(PAGE, DIRTY);
    expect_access("lost, write", a_write(), found(output, DIRTIED, 4));
    put(&want, LEAF, READ);
    reports_none(1);
    reports(0, 1);
    expect_harvest("lost", worked_regime(), PAGE, 1, 0);
    expect_access("lost, no mark", a_write(), found(output, 0, 0));
    reports_none(1);
    expect_harvest("lost, not seen", worked_regime(), PAGE, 1, 0);
    holds_nothing();
    expect_invalidate("lost");
    put(&want, LEAF, DIRTY);
    holds(PAGE, DIRTY);
    expect_access("lost, dropped", a_write(), found(output, DIRTIED, 4));
}

/* Any byte but 0 says that a session has a regime; others may be any. */
static void test_harvest_odd(void)
{
    unsigned value;

    fresh();
    for (value = 1; value <= UINT8_MAX; value++) {
        given(LEAF, DIRTY);
        put(&want, LEAF, READ);
        reports_none(1);
        reports(0, 1);
        hold_anything(worked_regime());
        lent.session.set = (uint8_t)value;
        want.session = lent.session;
        holds_nothing();
        expect_session_harvest("any set", PAGE, 1, 0);
        memset(&lent.session, (int)value, sizeof lent.session);
        want.session = lent.session;
        lend_map(1);
        expect_session_harvest("any bytes", PAGE, 1, 1);
    }
    memset(&lent.session, 0, sizeof lent.session);
    want.session = lent.session;
    expect_session_harvest("zeroed", PAGE, 1, 9);
}

/* Harvests of each granule */

static uint64_t page_of(uint64_t address)
{
    return address >> shape->low[LAST_LEVEL];
}

/* From every first level to a page, in both ranges, the last page too. */
static void test_harvest_levels(void)
{
    static const uint64_t addresses[] = { SOME, ~SOME, UINT64_MAX };
    unsigned tsz, range;
    size_t i;

    for (tsz = LEAST_T; tsz <= MOST_T; tsz++)
        for (i = 0; i < sizeof addresses / sizeof addresses[0]; i++)
            for (range = 0; range < 2; range++) {
                uint64_t address = low_bits(addresses[i], 64 - tsz);

                if (range == 1)
                    address |= UINT64_MAX << (64 - tsz);
                fresh_way(tsz, address, LAST_LEVEL, DIRTY);
                put(&want, entry_of(tsz, LAST_LEVEL, address), READ);
                reports_none(1);
                reports(0, 1);
                expect_harvests("level", shaped_regime(tsz), page_of(address),
                                1, 0);
            }
}

/*
 * Pages around a dirty block: from so many before its start to so many behind
 * its end, counted the other way where they are negative.
 */
static void expect_around(unsigned level, uint64_t address, int64_t before,
                          int64_t behind)
{
    const uint64_t span = UINT64_C(1)
                          << (shape->low[level] - shape->low[LAST_LEVEL]);
    const uint64_t start = page_of(address) / span * span;
    const uint64_t first = start - (uint64_t)before;
    const uint64_t count = span + (uint64_t)before + (uint64_t)behind;
    const uint64_t from = before > 0 ? (uint64_t)before : 0;
    const uint64_t to = behind > 0 ? count - (uint64_t)behind : count;

    fresh_way(LEAST_T, address, level, DIRTY & ~UINT64_C(2));
    if (before >= 0 && behind >= 0)
        put(&want, entry_of(LEAST_T, level, address), READ & ~UINT64_C(2));
    reports_none(count);
    reports(from, to - from);
    expect_harvests("block", shaped_regime(LEAST_T), first, count, 0);
}

static void expect_block_harvests(unsigned level, uint64_t address)
{
    const int64_t span = INT64_C(1)
                         << (shape->low[level] - shape->low[LAST_LEVEL]);
    const int64_t most = VMSA_HARVEST_LIMIT;
    int64_t before, behind;

    if (span > most) {
        expect_around(level, address, 0, most - span);
        expect_around(level, address, most - span, 0);
        expect_around(level, address, -1, 1 - span + 100);
        expect_around(level, address, 9, most - span - 9);
        return;
    }
    for (before = -2; before <= 2; before++)
        for (behind = -2; behind <= 2; behind++)
            expect_around(level, address, before, behind);
    expect_around(level, address, 0, 1 - span);
    expect_around(level, address, 1 - span, 0);
    expect_around(level, address, 0, most - span);
    expect_around(level, address, most - span, 0);
    expect_around(level, address, 1 - span, most - 1);
}

/* A block is made clean where all of it is asked for. */
static void test_harvest_blocks(void)
{
    unsigned level;

    for (level = 0; level < LAST_LEVEL; level++)
        if (shape->blocks[level]) {
            expect_block_harvests(level, SOME);
            expect_block_harvests(level, SOME | UINT64_MAX << 48);
        }
}

/* Nothing is mapped: accepted with a map of zeros, or refused with 10. */
static void expect_pages(struct vmsa_regime regime, uint64_t first,
                         uint64_t count, int taken)
{
    if (taken)
        reports_none(count);
    else
        lend_map(MAP);
    expect_harvests("pages", regime, first, count, taken ? 0 : 10);
}

/* The bounds of one range, from its first page to the one past its last. */
static void expect_bounds(struct vmsa_regime regime, uint64_t begin,
                          uint64_t end)
{
    const uint64_t pages = end - begin;
    const uint64_t most = VMSA_HARVEST_LIMIT;
    const uint64_t some = pages < most ? pages : most;

    expect_pages(regime, begin, 1, 1);
    expect_pages(regime, begin, some, 1);
    expect_pages(regime, begin, some + 1, 0);
    expect_pages(regime, begin, 0, 0);
    expect_pages(regime, begin, most + 1, 0);
    expect_pages(regime, begin, UINT64_MAX, 0);
    expect_pages(regime, begin - 1, 1, 0);
    expect_pages(regime, begin - 1, 2, 0);
    expect_pages(regime, end - some, some, 1);
    expect_pages(regime, end - some + 1, some, 0);
    expect_pages(regime, end - 1, 1, 1);
    expect_pages(regime, end - 1, 2, 0);
    expect_pages(regime, end - 1, 0, 0);
    expect_pages(regime, end - 1, UINT64_MAX - end + 2, 0);
    expect_pages(regime, end, 1, 0);
    expect_pages(regime, end, 0, 0);
}

static void test_harvest_ranges(void)
{
    const uint64_t top = UINT64_C(1) << (64 - shape->low[LAST_LEVEL]);
    unsigned tsz, disabled;

    for (tsz = LEAST_T; tsz <= MOST_T; tsz++)
        for (disabled = 0; disabled < 2; disabled++) {
            const uint64_t pages = top >> tsz;
            struct vmsa_regime regime = shaped_regime(MOST_T);

            regime.disabled0 = regime.disabled1 = (uint8_t)disabled;
            blank_of(regime.length);
            regime.tsz0 = (uint8_t)tsz;
            expect_bounds(regime, 0, pages);
            regime.tsz0 = LEAST_T + MOST_T - regime.tsz0;
            regime.tsz1 = (uint8_t)tsz;
            expect_bounds(regime, top - pages, top);
            expect_pages(regime, UINT64_MAX, 1, 0);
            expect_pages(regime, top | 3, 1, 0);
        }
}

/* The last leaf of the longest pool is reported, and not the one behind it. */
static void test_harvest_limit(void)
{
    const uint64_t end = POOL + VMSA_POOL_LIMIT;
    const struct vmsa_regime regime = fresh_limit();

    given(end - 8, DIRTY);
    given(end, DIRTY);
    put(&want, end - 8, READ);
    reports_none(2);
    reports(0, 1);
    expect_harvests("limit", regime, page_of(next_table()) - 1, 2, 0);
}

/* Every value of the byte, given and where a session has it. */
static void test_harvest_granules(void)
{
    unsigned value;

    for (value = 0; value <= UINT8_MAX; value++) {
        const struct vmsa_regime regime = turned_regime((uint8_t)value);
        uint64_t leaf;

        shape = shape_of((uint8_t)value);
        leaf = turned_leaf() & ~AP2;
        fresh_turned();
        given(entry_of(MOST_T, first_level(MOST_T), TURNED), leaf);
        reports_none(1);
        reports(0, 1);
        if (first_level(MOST_T) == LAST_LEVEL)
            put(&want, entry_of(MOST_T, LAST_LEVEL, TURNED), leaf | AP2);
        expect_harvests("any granule", regime, page_of(TURNED), 1, 0);
    }
    shape = shapes;
}

/* Texts */

/* The numbers with a text of their own. */
static const unsigned known[] = {
    VMSA_ACCEPTED,
    VMSA_REFUSED_MEMORY_POOL,
    VMSA_REFUSED_POOL_ADDRESS,
    VMSA_REFUSED_SIZES,
    VMSA_REFUSED_ROOT,
    VMSA_REFUSED_ATTRIBUTES,
    VMSA_REFUSED_ACCESS_SIZE,
    VMSA_REFUSED_PAGE_CROSSING,
    VMSA_REFUSED_STORE_ADDRESS,
    VMSA_REFUSED_NO_REGIME,
    VMSA_REFUSED_PAGE_RANGE,
    VMSA_REFUSED_MAP_LENGTH,
    VMSA_REFUSED_WALK_ENDED,
    VMSA_REFUSED_DIRTY_STATE
};
#define KNOWN (sizeof known / sizeof known[0])

static int is_known(unsigned number)
{
    size_t i;

    for (i = 0; i < KNOWN; i++)
        if (known[i] == number)
            return 1;
    return 0;
}

static void test_refusal_texts(void)
{
    unsigned number;
    size_t i, j;

    check("texts", "0", strcmp(vmsa_refusal_text(0), "accepted") == 0);
    for (number = 0; number <= 300; number++)
        check("texts", "unknown refusal",
              (strcmp(vmsa_refusal_text(number), "unknown refusal") == 0) !=
                  is_known(number));
    for (i = 0; i < KNOWN; i++)
        for (j = i + 1; j < KNOWN; j++)
            check("texts", "two refusals with one text",
                  strcmp(vmsa_refusal_text(known[i]),
                         vmsa_refusal_text(known[j])) != 0);
}

static const char *fault_name(unsigned code)
{
    switch (code & ~3u) {
    case VMSA_ADDRESS_SIZE_FAULT:
        return "Address size fault";
    case VMSA_TRANSLATION_FAULT:
        return "Translation fault";
    case VMSA_ACCESS_FLAG_FAULT:
        return "Access flag fault";
    case VMSA_PERMISSION_FAULT:
        return "Permission fault";
    case VMSA_EXTERNAL_ABORT:
        return "Synchronous External abort on translation table walk";
    default:
        return NULL;
    }
}

static void test_fault_texts(void)
{
    unsigned code;

    for (code = 0; code <= 300; code++) {
        char expected[80] = "unknown fault";

        if (code == VMSA_ALIGNMENT_FAULT)
            strcpy(expected, "Alignment fault");
        else if (fault_name(code) != NULL)
            sprintf(expected, "%s, level %u", fault_name(code), code & 3);
        check("texts", expected, strcmp(vmsa_fault_text(code), expected) == 0);
    }
}

static void test_walks(void)
{
    test_worked();
    test_worked_leaf();
    test_worked_tables();
    test_worked_limit();
    test_refused_pool();
    test_refused_sizes();
    test_refused_roots();
    test_refused_attributes();
    test_updates();
    test_refused_access();
    test_refused_calls();
    test_refusal_order();
    test_largest();
    test_above_limits();
}

static void test_sessions(void)
{
    test_script();
    test_entries();
    test_tables();
    test_table_as_leaf();
    test_tables_held();
    test_tables_odd();
    test_odd_values();
    test_odd_updates();
    test_spare_given();
    test_spare_session();
    test_spare_set();
    test_empty();
    test_init();
}

static void test_order(void)
{
    test_order_bytes();
    test_order_mixed();
    test_order_turned();
    test_order_both();
    test_order_values();
    test_order_held();
}

static void test_steps(void)
{
    test_steps_worked();
    test_steps_start();
    test_steps_refused();
    test_steps_no_say();
    test_steps_tables();
    test_steps_unused();
    test_steps_ended();
    test_steps_zeroed();
    test_steps_address();
    test_steps_sum();
}

static void test_harvests(void)
{
    test_harvest_bytes();
    test_harvest_bits();
    test_harvest_places();
    test_harvest_many();
    test_harvest_map_length();
    test_harvest_refused();
    test_harvest_memory();
    test_harvest_no_say();
    test_harvest_nowhere();
    test_harvest_shared();
    test_harvest_loop();
    test_harvest_script();
    test_harvest_lost();
    test_harvest_odd();
    test_harvest_granules();
    for (shape = shapes; shape < shapes + SHAPES; shape++) {
        test_harvest_levels();
        test_harvest_blocks();
        test_harvest_ranges();
        test_harvest_limit();
    }
    shape = shapes;
}

static void test_granules(void)
{
    for (shape = shapes; shape < shapes + SHAPES; shape++) {
        test_granule_levels();
        test_granule_ends();
        test_granule_blocks();
        test_granule_cut();
        test_granule_output();
        test_granule_tables();
        test_granule_crossing();
        test_granule_refused();
        test_granule_accepted();
        test_granule_entries();
        test_granule_numbers();
        test_granule_limit();
        test_granule_steps();
        test_granule_left();
    }
    shape = shapes;
    test_granule_turned();
    test_granule_values();
    test_granule_held();
}

int main(void)
{
    check("library", "version", vmsa_version() == VMSA_VERSION);
    test_refusal_texts();
    test_fault_texts();
    for (ee = 0; ee < 2; ee++) {
        test_walks();
        test_sessions();
        test_order();
        test_steps();
        test_granules();
        test_harvests();
    }
    printf("%u checks, %u failed\n", checks, failures);
    return failures != 0;
}
