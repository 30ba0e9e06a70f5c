/*
 * Builds four tables for a guest, walks them, uses a session, walks tables that
 * the guest may write meanwhile, a descriptor at a time, and harvests what is
 * marked dirty. The run script next to this file builds it and compares what it
 * prints with example.out.
 */
#include <inttypes.h>
#include <stdio.h>

#include "vmsa.h"

#define POOL 0x40000000u /* physical address of the pool */
#define LEAF 0x40003018u /* of the leaf descriptor of page 0x403 */

#define AP2 (UINT64_C(1) << 7)

/* Exactly the pool, which may have up to VMSA_POOL_LIMIT bytes. */
static uint8_t memory[0x10000];

/* A descriptor of the tables, little-endian, as ee 0 has it. */
static void put(uint64_t address, uint64_t value)
{
    int i;

    for (i = 0; i < 8; i++)
        memory[address - POOL + (uint64_t)i] = (uint8_t)(value >> (8 * i));
}

static uint64_t get(uint64_t address)
{
    uint64_t value = 0;
    int i;

    for (i = 7; i >= 0; i--)
        value = value << 8 | memory[address - POOL + (uint64_t)i];
    return value;
}

static void print_answer(const char *what, const struct vmsa_answer *answer)
{
    printf("%-26s ", what);
    switch (answer->tag) {
    case VMSA_SUCCESS:
        printf("0x%08" PRIx64 ", level %d, attribute 0x%02x%s%s, %d reads\n",
               answer->output, answer->level, (unsigned)answer->attribute,
               answer->accessed ? ", AF set" : "",
               answer->dirtied ? ", marked dirty" : "", answer->reads);
        break;
    case VMSA_FAULT:
        printf("fault %d: %s, %d reads\n", answer->code,
               vmsa_fault_text(answer->code), answer->reads);
        break;
    default:
        printf("refused with %d: %s\n", answer->refusal,
               vmsa_refusal_text(answer->refusal));
    }
}

static void print_reply(const char *what, unsigned refusal)
{
    printf("%-26s %u: %s\n", what, refusal, vmsa_refusal_text(refusal));
}

static void build_tables(void)
{
    put(0x40000000, 0x40001003); /* level 0: a table */
    put(0x40001000, 0x40002003); /* level 1: a table */
    put(0x40002010, 0x40003003); /* level 2: a table */
    /* level 3: a writable-clean page, its Access flag clear */
    put(LEAF, UINT64_C(0x00080000800053C3));
}

static struct vmsa_regime build_regime(void)
{
    struct vmsa_regime regime = VMSA_REGIME_INIT;

    regime.length = sizeof memory;
    regime.address = POOL;
    regime.root0 = POOL;
    regime.disabled0 = 0;
    regime.ha = 1;
    regime.hd = 1;
    regime.attributes = UINT64_MAX;
    return regime;
}

/* An access of four bytes from EL0. */
static struct vmsa_access four_bytes(uint8_t kind, uint64_t address)
{
    struct vmsa_access access = { 0 };

    access.address = address;
    access.size = 4;
    access.el0 = 1;
    access.kind = kind;
    return access;
}

static void walk(const char *what, const struct vmsa_regime *regime,
                 struct vmsa_access access)
{
    struct vmsa_answer answer;

    vmsa_walk(memory, sizeof memory, regime, &access, &answer);
    print_answer(what, &answer);
}

static void write_page(const char *what, struct vmsa_session *session)
{
    struct vmsa_access access = four_bytes(VMSA_WRITE, 0x403ABC);
    struct vmsa_answer answer;

    vmsa_session_access(session, memory, sizeof memory, &access, &answer);
    print_answer(what, &answer);
}

static void plain_walks(const struct vmsa_regime *regime)
{
    puts("plain walks");
    walk("read", regime, four_bytes(VMSA_READ, 0x403ABC));
    walk("write", regime, four_bytes(VMSA_WRITE, 0x403ABC));
    walk("write, next page", regime, four_bytes(VMSA_WRITE, 0x404ABC));
    walk("write across two pages", regime, four_bytes(VMSA_WRITE, 0x403FFD));
    printf("leaf 0x%016" PRIx64 "\n", get(LEAF));
}

static void a_session(const struct vmsa_regime *regime)
{
    struct vmsa_session session;

    puts("session");
    vmsa_session_empty(&session);
    write_page("write, no regime", &session);
    print_reply("set regime",
                vmsa_session_set_regime(&session, memory, sizeof memory,
                                        regime));
    write_page("write", &session);
    write_page("write again", &session);

    /* Page copied: make it writable-clean again, and drop what is held. */
    print_reply("store",
                vmsa_session_store(&session, memory, sizeof memory, LEAF,
                                   get(LEAF) | AP2));
    vmsa_session_invalidate_all(&session);
    write_page("write, re-armed", &session);
    print_reply("store past the pool",
                vmsa_session_store(&session, memory, sizeof memory,
                                   POOL + sizeof memory, 0));
    printf("leaf 0x%016" PRIx64 "\n", get(LEAF));
}

/*
 * Tables that nobody can lend, since the guest's vCPUs write them: a monitor
 * loads a descriptor at a time, and makes the update by compare-and-swap. With
 * ee 1 it would swap the bytes of what it loads and of what it stores.
 */
static uint64_t live[sizeof memory / 8];

/* A descriptor of them; none where the address is not theirs. */
static uint64_t *live_at(uint64_t address)
{
    const uint64_t offset = address - POOL;

    return offset < sizeof live ? &live[offset / 8] : NULL;
}

static void offer(struct vmsa_stepwise *walk)
{
    const uint64_t *at = live_at(walk->address);

    if (at)
        vmsa_stepwise_value(walk, __atomic_load_n(at, __ATOMIC_ACQUIRE));
    else
        vmsa_stepwise_unreachable(walk);
}

/* The update that is due; fails where the guest wrote the leaf meanwhile. */
static int update(const struct vmsa_stepwise *walk)
{
    uint64_t expected = walk->expected;

    return __atomic_compare_exchange_n(live_at(walk->address), &expected,
                                       walk->value, 0, __ATOMIC_SEQ_CST,
                                       __ATOMIC_SEQ_CST);
}

static void live_walk(const char *what, const struct vmsa_regime *regime,
                      struct vmsa_access access)
{
    struct vmsa_stepwise walk;

    do {
        vmsa_stepwise_start(regime, &access, &walk);
        while (!walk.ended)
            offer(&walk);
    } while (walk.update && !update(&walk));
    print_answer(what, &walk.answer);
}

static void live_walks(const struct vmsa_regime *regime)
{
    size_t i;

    puts("a descriptor at a time");
    build_tables();
    for (i = 0; i < sizeof live / 8; i++)
        live[i] = get(POOL + 8 * i);
    live_walk("read", regime, four_bytes(VMSA_READ, 0x403ABC));
    live_walk("write", regime, four_bytes(VMSA_WRITE, 0x403ABC));
    live_walk("write, next page", regime, four_bytes(VMSA_WRITE, 0x404ABC));
    printf("leaf 0x%016" PRIx64 "\n", *live_at(LEAF));
}

/* Which of the pages from 0x400 on are dirty; they are then clean again. */
static void harvest(const char *what, struct vmsa_session *session,
                    uint64_t count)
{
    const uint64_t first = 0x400;
    uint8_t map[2]; /* a bit for each of 16 pages */
    uint8_t refusal = vmsa_session_harvest(session, memory, sizeof memory,
                                           first, count, map, sizeof map);
    uint64_t n;

    if (refusal != VMSA_ACCEPTED) {
        print_reply(what, refusal);
        return;
    }
    printf("%-26s dirty:", what);
    for (n = 0; n < count; n++)
        if (map[n / 8] >> (n % 8) & 1)
            printf(" 0x%" PRIx64, first + n);
    putchar('\n');
}

/*
 * Rounds of a migration: the pages that a harvest reports are copied after it.
 * Its entries being emptied, the session marks the next write again.
 */
static void harvests(const struct vmsa_regime *regime)
{
    struct vmsa_session session;

    puts("harvest");
    build_tables();
    vmsa_session_empty(&session);
    print_reply("set regime",
                vmsa_session_set_regime(&session, memory, sizeof memory,
                                        regime));
    write_page("write", &session);
    harvest("harvest", &session, 16);
    harvest("harvest again", &session, 16);
    write_page("write", &session);
    harvest("harvest", &session, 16);
    harvest("harvest, short map", &session, 17);
    printf("leaf 0x%016" PRIx64 "\n", get(LEAF));
}

int main(void)
{
    const struct vmsa_regime regime = build_regime();

    if (vmsa_version() != VMSA_VERSION) {
        fputs("the library has another version\n", stderr);
        return 1;
    }
    build_tables();
    plain_walks(&regime);
    a_session(&regime);
    live_walks(&regime);
    harvests(&regime);
    return 0;
}
