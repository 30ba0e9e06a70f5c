/*
 * Stage 1 translation of an Arm guest's addresses (VMSAv8-64, EL1&0 regime,
 * granules of 4, 16 and 64 KiB), for the emulated devices of a monitor.
 *
 * The caller lends a memory of at most VMSA_MEMORY_LIMIT bytes. The guest's
 * table pool is a part of it; no byte outside the pool is changed or has a
 * say in any answer. Link with libvmsa.a; a 64-bit, little-endian host.
 *
 * No value needs checking before a call: every field may have any value, a
 * flag is true where its byte is not 0, and the memory pointer may be null
 * where the length is 0. A call that makes no sense is refused with a number
 * (enum vmsa_refusal) and changes neither memory nor session, nor the map of a
 * harvest.
 *
 * What a guest must not use
 *
 * The library is not told of, and leaves alone: top-byte-ignore, 52-bit
 * addresses, different granules for the two ranges, PAN and E0PD, the
 * Contiguous bit, permission indirection, protected table walks, Access flags
 * of tables, ASIDs, a second stage, Realm and Secure state, alignment checking
 * of Normal memory. It refuses a root that is aligned to its own small table
 * and not to the granule. docs/RULES.md, section 14, says for each what happens
 * here and what hardware would do.
 *
 * Out of contract
 *
 * Three things: a bad pointer (null for a struct, or one that does not name a
 * whole struct, length bytes or map_length bytes), two pointers of one call
 * that overlap, and a write by anyone else to what is lent, while the call
 * runs. No function keeps a pointer.
 *
 * What is returned
 *
 * An answer, the session given to vmsa_session_empty and the walk given to
 * vmsa_stepwise_start are only written: every byte, whatever stood there, so
 * they need not be initialised.
 *
 * No struct has padding; bytes without a use are named spare. In what you pass
 * they may have any value, and have no say; pass 0 all the same, since a later
 * version may give them a use. In what is returned they are 0, so answers, and
 * sessions that began with vmsa_session_empty, may be compared with memcmp.
 *
 * Threads
 *
 * While a call runs, the lent memory must not be written by anyone, a running
 * vCPU included. The marks (Access flag, dirty) are plain stores and not
 * compare-and-swap: what a vCPU writes to the descriptor in between is lost.
 * So a monitor does one of three things:
 *   - It stops the vCPUs for the call.
 *   - It lends a copy of the pool, made by aligned loads of 8 bytes. A success
 *     changes at most one descriptor of the copy; before it uses the answer,
 *     the monitor puts that change into the guest's table, by compare-and-swap
 *     of the old 8 bytes with the new, not swapped, whatever ee is. Where
 *     that fails the session, if one was used, holds a mark that was not made:
 *     empty it (vmsa_session_invalidate_all), take a new copy and call again.
 *   - It walks a descriptor at a time (vmsa_stepwise_start), which lends
 *     nothing and hands out the expected and the new value of the one update.
 *
 * A harvest changes many descriptors. Over a copy of the pool each change is
 * put into the guest's table by a compare-and-swap of its own. Where one fails
 * the leaf stays as it is, and if it is dirty the next harvest reports it.
 *
 * Two threads may call at the same time unless they share a memory, a session,
 * an answer, a walk or a map.
 *
 * Dirty pages
 *
 * A harvest (vmsa_harvest, vmsa_session_harvest) reports the pages whose leaf
 * is marked dirty, and nothing else. A WRITTEN PAGE IS LOST where a monitor
 * forgets one of these:
 *   1. A page that was written and whose Access flag the guest has cleared
 *      since is NOT reported; nor is one that it has made clean or unmapped
 *      itself. With a guest that ages its pages, harvest before it does, or
 *      take every leaf with DBM set, AP[2] clear and the Access flag clear for
 *      dirty yourself.
 *   2. vmsa_harvest over a pool that a session has translations of LOSES MARKS:
 *      an entry still holds the leaf as dirty and answers the next write, which
 *      makes no new mark. Use vmsa_session_harvest, or else call
 *      vmsa_session_invalidate_all at once, before the next access. Either
 *      empties one session: empty every other one that uses this pool, and
 *      throw away a walk a descriptor at a time that is under way.
 *   3. A page that is writable without DBM (DBM clear, AP[2] clear) is NEVER
 *      reported. Take it for dirty always, or have the guest use DBM.
 *   4. Copy a page AFTER the harvest that reports it. Where vCPUs run,
 *      invalidate their TLBs in between: they may hold the page as dirty, and
 *      write it without a mark. And carry out, before the copy, each write
 *      whose access was answered before the harvest.
 *   5. Two addresses share a leaf where two entries lead to one table. A
 *      harvest of both reports both. A harvest of one alone makes the leaf
 *      clean, and a later harvest of the other does not report it: ask for both
 *      at once, or go by the addresses that the pages lead to.
 */
#ifndef VMSA_H
#define VMSA_H

#include <stddef.h>
#include <stdint.h>

#if defined(__BYTE_ORDER__) && __BYTE_ORDER__ != __ORDER_LITTLE_ENDIAN__
#error "vmsa is for little-endian hosts"
#endif

#ifdef __cplusplus
extern "C" {
#endif

/* The version of this interface; vmsa_version() gives the library's. */
#define VMSA_VERSION 11u

/*
 * The most bytes of a lent memory, and of a pool: 256 tables of 4 KiB, 64 of
 * 16 KiB, or 16 of 64 KiB.
 */
#define VMSA_MEMORY_LIMIT 16777216u
#define VMSA_POOL_LIMIT 1048576u

/* The TLB entries of a session. */
#define VMSA_ENTRIES 64

/* The most pages of a harvest. Its map then has 8192 bytes. */
#define VMSA_HARVEST_LIMIT 65536u

/*
 * The granules, by their numbers in TCR_EL1.TG0; any other number is taken as
 * VMSA_GRANULE_4K. Pages and tables have so many bytes, and the levels and
 * their index bits follow (docs/RULES.md, 6.2).
 *
 * A regime has one granule for both ranges. TCR_EL1.TG1 has other numbers for
 * the same granules (1: 16 KiB, 2: 4 KiB, 3: 64 KiB): do not pass them here. A
 * guest whose TG0 and TG1 name different granules, with neither range
 * disabled, must not be used.
 */
enum vmsa_granule {
    VMSA_GRANULE_4K = 0,
    VMSA_GRANULE_64K = 1,
    VMSA_GRANULE_16K = 2
};

/*
 * A translation regime: the values that the guest has in TTBR0_EL1,
 * TTBR1_EL1, TCR_EL1, MAIR_EL1 and SCTLR_EL1, and where its tables lie.
 * Start from VMSA_REGIME_INIT: T 0, as zeroed bytes have it, is refused.
 * A session keeps what it was given: when the guest changes one of these
 * values, SCTLR_EL1.EE among them, set the regime again.
 */
struct vmsa_regime {
    size_t start;        /* offset of the pool in the memory */
    size_t length;       /* bytes of the pool */
    uint64_t address;    /* physical address of the pool's first byte */
    uint64_t root0;      /* root table of range 0 (address bit 55 is 0) */
    uint64_t root1;      /* root table of range 1 (address bit 55 is 1) */
    uint64_t attributes; /* MAIR_EL1: byte i in bits 8i+7 to 8i */
    uint8_t tsz0;        /* T0SZ, 16 to 39 */
    uint8_t tsz1;        /* T1SZ, 16 to 39 */
    uint8_t disabled0;   /* EPD0 */
    uint8_t disabled1;   /* EPD1 */
    uint8_t output;      /* IPS: 0 to 5 for 32, 36, 40, 42, 44, 48 bits */
    uint8_t ha;          /* the walk sets the Access flag */
    uint8_t hd;          /* the walk marks pages dirty; needs ha, or else the
                            regime is refused with 13 */
    uint8_t wxn;         /* writable pages are execute-never */
    uint8_t hpd0;        /* HPD0: what tables of range 0 take away from all
                            below them (see vmsa_walk) does not count */
    uint8_t hpd1;        /* HPD1: the same for range 1 */
    uint8_t ee;          /* SCTLR_EL1.EE: the 8 bytes of each descriptor, of
                            both ranges, are big-endian, or else
                            little-endian. What a monitor reads of the
                            tables itself is in this order too. It has no
                            say in a device's data */
    uint8_t granule;     /* TG0, enum vmsa_granule: that of both ranges */
    uint8_t spare[4];
};

/*
 * A regime with no pool, both ranges disabled with T 16 and HPD off, 48 bits of
 * output, no updates, little-endian descriptors, a granule of 4 KiB and Device
 * attributes; a call takes it once it has a pool.
 */
#define VMSA_REGIME_INIT \
    { 0, 0, 0, 0, 0, 0, 16, 16, 1, 1, 5, 0, 0, 0, 0, 0, 0, VMSA_GRANULE_4K, \
      { 0, 0, 0, 0 } }

/*
 * The kinds of an access. A kind above 5 is taken as VMSA_UPDATE, so that no
 * write passes without its dirty mark under a wrong number.
 */
enum vmsa_kind {
    VMSA_READ = 0,
    VMSA_WRITE = 1,
    VMSA_UPDATE = 2,     /* an atomic read and write */
    VMSA_FETCH = 3,      /* of an instruction: size 4, aligned */
    VMSA_PROBE_READ = 4, /* as the AT instructions ask: size 1 */
    VMSA_PROBE_WRITE = 5
};

/* An access of size bytes: 1, 2, 4, 8 or 16, all in one page of the granule. */
struct vmsa_access {
    uint64_t address; /* address of the guest */
    uint64_t size;
    uint8_t el0;      /* from EL0, or else from EL1 */
    uint8_t kind;     /* enum vmsa_kind */
    uint8_t spare[6];
};

enum vmsa_tag {
    VMSA_SUCCESS = 0,
    VMSA_FAULT = 1,
    VMSA_REFUSED = 2
};

/*
 * Fault status codes, as in ESR_ELx. To each but the last add the level. (The
 * level of an Alignment fault is the leaf's, and its code is 33 all the same.)
 */
enum vmsa_fault_code {
    VMSA_ADDRESS_SIZE_FAULT = 0,
    VMSA_TRANSLATION_FAULT = 4,
    VMSA_ACCESS_FLAG_FAULT = 8,
    VMSA_PERMISSION_FAULT = 12,
    VMSA_EXTERNAL_ABORT = 20, /* on the walk: a descriptor outside the pool,
                                 or said to be unreachable */
    VMSA_ALIGNMENT_FAULT = 33
};

/*
 * Why a call is refused: the first that applies, in the call's own order.
 *   vmsa_walk                1, 2, 3, 4, 5, 13, 6, 7
 *   vmsa_session_set_regime  1, 2, 3, 4, 5, 13
 *   vmsa_session_access      9, 1, 6, 7
 *   vmsa_session_store       9, 1, 8
 *   vmsa_harvest             1, 2, 3, 4, 5, 13, 10, 11
 *   vmsa_session_harvest     9, 1, 2, 3, 4, 5, 13, 10, 11
 *   vmsa_stepwise_start      3, 4, 5, 13, 6, 7
 *   vmsa_stepwise_value, vmsa_stepwise_unreachable  12
 * Later versions add numbers: a switch over them needs a default.
 */
enum vmsa_refusal {
    VMSA_ACCEPTED = 0,
    VMSA_REFUSED_MEMORY_POOL = 1,   /* memory above its limit; pool start or
                                       length not a multiple of the granule;
                                       pool empty, above its limit, or past
                                       the end of the memory */
    VMSA_REFUSED_POOL_ADDRESS = 2,  /* not a multiple of the granule, or the
                                       pool ends above 2^48 */
    VMSA_REFUSED_SIZES = 3,         /* tsz0, tsz1 or output out of bounds */
    VMSA_REFUSED_ROOT = 4,          /* root0 or root1 not a multiple of the
                                       granule, or not below 2^48 */
    VMSA_REFUSED_ATTRIBUTES = 5,    /* a byte is neither 0x00, 0x04, 0x08,
                                       0x0C nor has both halves nonzero */
    VMSA_REFUSED_ACCESS_SIZE = 6,   /* a size that its kind does not have, or
                                       a fetch that is not aligned */
    VMSA_REFUSED_PAGE_CROSSING = 7, /* first and last byte in two pages of
                                       the granule */
    VMSA_REFUSED_STORE_ADDRESS = 8, /* not a multiple of 8, or not in the
                                       pool */
    VMSA_REFUSED_NO_REGIME = 9,     /* the session has no regime yet */
    VMSA_REFUSED_PAGE_RANGE = 10,   /* the first page is in neither range;
                                       no pages, more than the limit of a
                                       harvest, or past the end of the first
                                       page's range */
    VMSA_REFUSED_MAP_LENGTH = 11,   /* the map has fewer bits than there are
                                       pages */
    VMSA_REFUSED_WALK_ENDED = 12,   /* offered to a walk that has ended */
    VMSA_REFUSED_DIRTY_STATE = 13   /* hd is set and ha is not */
};

/*
 * The answer to an access. What an answer does not hold is 0:
 * a success holds all but refusal and code; a fault holds code, level,
 * cacheable and reads; a refusal holds refusal.
 */
struct vmsa_answer {
    uint64_t output;      /* physical address */
    uint8_t tag;          /* enum vmsa_tag */
    uint8_t refusal;      /* enum vmsa_refusal */
    uint16_t code;        /* fault status code */
    uint8_t level;        /* of the descriptor that decided, 0 to 3 */
    uint8_t attribute;    /* the byte of MAIR_EL1 that the leaf picks */
    uint8_t shareability; /* SH[1:0] of the leaf */
    uint8_t nonglobal;    /* nG of the leaf */
    uint8_t accessed;     /* this access set the Access flag */
    uint8_t dirtied;      /* this access cleared AP[2]: the page is dirty */
    uint8_t cacheable;    /* a TLB may hold it */
    uint8_t reads;        /* descriptor reads, 0 to 4 */
    uint8_t spare[4];
};

/*
 * A TLB entry of a session: where held is not 0, the leaf of a page and what
 * the tables on the way to it take away.
 */
struct vmsa_entry {
    uint64_t page;  /* the guest's address, divided by the granule */
    uint64_t value; /* the leaf descriptor: a number, in which ee has no say */
    uint8_t left;   /* levels below it: 3 less its level */
    uint8_t held;
    uint8_t tables; /* bits 3 to 0: bits 62 to 59 of those tables, or-ed;
                       bits 7 to 4 have no say */
    uint8_t spare[5];
};

/*
 * A session: the regime last accepted, where set is not 0, and 64 entries; a
 * page's entry is its number mod 64. Start from vmsa_session_empty. It is
 * plain data and may be copied; leave its fields to the library.
 */
struct vmsa_session {
    struct vmsa_regime regime;
    struct vmsa_entry entries[VMSA_ENTRIES];
    uint8_t set;
    uint8_t spare[7];
};

/*
 * A walk a descriptor at a time, for tables that cannot be lent. Any bytes are
 * one; start with vmsa_stepwise_start, which writes every byte. It is plain
 * data and may be copied. Read address, ended, answer, update, expected and
 * value; write none of its fields.
 */
struct vmsa_stepwise {
    struct vmsa_regime regime; /* those of the start, spare bytes 0 */
    struct vmsa_access access;
    struct vmsa_answer answer; /* once ended; before that tag VMSA_REFUSED
                                  with refusal 0 */
    uint64_t address;  /* of the descriptor that is wanted; once ended, of the
                          update where one is due, or else 0 */
    uint64_t expected; /* the value that was offered, where an update is due */
    uint64_t value;    /* the new value, where an update is due */
    uint8_t ended;
    uint8_t update;    /* ended, and an update is due */
    uint8_t left;      /* levels below the wanted descriptor: 3 less its level;
                          0 once ended */
    uint8_t tables;    /* bits as in vmsa_entry, of the tables so far, in which
                          hpd0 and hpd1 have no say; 0 once ended */
    uint8_t spare[4];
};

uint32_t vmsa_version(void);

/*
 * Walks the tables for one access, and holds nothing. On success with ha the
 * leaf's Access flag is set; with hd too, a write or update of a
 * writable-clean page (DBM and AP[2] both 1, and no bit 62 above it) also
 * clears AP[2]. Otherwise, and for any probe, no byte of the memory changes.
 * Every descriptor is read, and the leaf written, in the byte order of ee.
 *
 * A table descriptor takes permissions away from all that lies below it: with
 * bit 62 (APTable[1]) nothing may be written, and so nothing is marked dirty;
 * with bit 61 (APTable[0]) AP[1] counts as 0, with bit 60 (UXNTable) UXN as 1,
 * with bit 59 (PXNTable) PXN as 1. Each counts where any table on the way has
 * it, and none where hpd0 or hpd1, that of the address's range, is set.
 */
void vmsa_walk(uint8_t *memory, size_t length,
               const struct vmsa_regime *regime,
               const struct vmsa_access *access,
               struct vmsa_answer *answer);

/* Makes the session the fresh one: no regime, every entry empty. */
void vmsa_session_empty(struct vmsa_session *session);

/* Sets the regime and empties every entry. Gives 0, or the refusal. */
uint8_t vmsa_session_set_regime(struct vmsa_session *session,
                                const uint8_t *memory, size_t length,
                                const struct vmsa_regime *regime);

/*
 * As vmsa_walk under the session's regime, but a page held in its entry is
 * answered from there with 0 reads, unless the access would mark it dirty.
 */
void vmsa_session_access(struct vmsa_session *session,
                         uint8_t *memory, size_t length,
                         const struct vmsa_access *access,
                         struct vmsa_answer *answer);

/*
 * Stores a descriptor at a physical address in the pool. The value is a number,
 * as a register of the guest holds it: its 8 bytes are written in the byte
 * order of the session's regime. Gives 0, or the refusal. The entries stay as
 * they are: call vmsa_session_invalidate_all before the next access that is to
 * see the store.
 */
uint8_t vmsa_session_store(struct vmsa_session *session,
                           uint8_t *memory, size_t length,
                           uint64_t address, uint64_t value);

/* Empties every entry, and changes nothing else. */
void vmsa_session_invalidate_all(struct vmsa_session *session);

/*
 * Harvests dirty pages: the map says which of count pages, from page number
 * first on, are marked dirty, and their leaves are made writable-clean again.
 * Gives 0, or the refusal. "Dirty pages" above says how no page is lost.
 *
 * A page's number is the guest's address divided by the granule, bits 63 down
 * to 12, 14 or 16 of it; so those of range 1 are large, with T1SZ 16 and 4 KiB
 * 0xFFFF000000000 and up. There are 1 to VMSA_HARVEST_LIMIT pages, all in the
 * range of the first. The map has (count + 7) / 8 bytes, or more; it may be
 * null where map_length is 0, which is refused.
 *
 * Bit n of the map (byte n / 8, place n % 8 from the lowest) becomes 1 exactly
 * where steps 1 to 5 of the walk (docs/RULES.md, 6) lead from page first + n,
 * over the pool as the call finds it, to a leaf with the Access flag and DBM
 * set and AP[2] clear. The bits past the last page in its byte become 0, and
 * later bytes of the map stay as they were.
 *
 * Then AP[2] is set in each such leaf whose whole span is among the pages, in
 * the byte order of ee; nothing else in the memory changes. A block that sticks
 * out of the pages is reported and left, and so reported again by each harvest
 * of a part of it. None sticks out of VMSA_HARVEST_LIMIT pages from a multiple
 * of that number on, but for a block of 1 GiB (4 KiB granule), which has more
 * pages than a harvest: store such a leaf with AP[2] set yourself.
 *
 * ha, hd and what tables take away have no say. (So with hd off, too, a page is
 * made clean, and its next write is a Permission fault.) No page of a disabled
 * range reaches a leaf; a harvest there is accepted, and its map all 0.
 */
uint8_t vmsa_harvest(uint8_t *memory, size_t length,
                     const struct vmsa_regime *regime,
                     uint64_t first, uint64_t count,
                     uint8_t *map, size_t map_length);

/*
 * As vmsa_harvest under the session's regime. Accepted, it also empties every
 * entry, so that the next write of a page marks it again and no call of
 * vmsa_session_invalidate_all is needed; nothing else of the session changes.
 */
uint8_t vmsa_session_harvest(struct vmsa_session *session,
                             uint8_t *memory, size_t length,
                             uint64_t first, uint64_t count,
                             uint8_t *map, size_t map_length);

/*
 * Starts a walk a descriptor at a time. The walk may have ended at once:
 * refused, or with a fault before any descriptor is read. It ends after at most
 * four offers, whatever is offered. An access goes as follows.
 *
 *     do {
 *         vmsa_stepwise_start(&regime, &access, &walk);
 *         while (!walk.ended) {
 *             if (read_descriptor(walk.address, &value))
 *                 vmsa_stepwise_value(&walk, value);
 *             else
 *                 vmsa_stepwise_unreachable(&walk);
 *         }
 *     } while (walk.update &&
 *              !exchange(walk.address, walk.expected, walk.value));
 *     use(&walk.answer);
 *
 * The update comes before the answer is used, and an access whose update cannot
 * be made must not be carried out: its page would not be marked. Where others
 * may write the tables, each descriptor is read by one load of 8 bytes, and
 * exchange is a compare-and-swap that says whether it found what was expected.
 *
 * The pool and ee of the regime have no say: a descriptor is a number here.
 * Where the guest's descriptors are big-endian (SCTLR_EL1.EE) the caller swaps
 * the bytes of each value that it offers, and of expected and value.
 *
 * Descriptors that are read one after another may be of different moments. When
 * the guest invalidates its TLB, or changes a register that the regime has, a
 * walk under way is thrown away, before the invalidation is said to be complete,
 * and started again: a table that it is about to read may be one no longer. The
 * answer is for this one access.
 *
 * Start a walk from a regime and an access of your own, not from those in the
 * walk: the pointers would overlap.
 */
void vmsa_stepwise_start(const struct vmsa_regime *regime,
                         const struct vmsa_access *access,
                         struct vmsa_stepwise *walk);

/*
 * Offers the value of the descriptor at walk->address. Gives 0, or 12 where
 * the walk has ended, which then stays as it was.
 */
uint8_t vmsa_stepwise_value(struct vmsa_stepwise *walk, uint64_t value);

/* The same, where no descriptor can be read there. */
uint8_t vmsa_stepwise_unreachable(struct vmsa_stepwise *walk);

/* What a number of enum vmsa_refusal says. */
static inline const char *vmsa_refusal_text(unsigned number)
{
    switch (number) {
    case VMSA_ACCEPTED:
        return "accepted";
    case VMSA_REFUSED_MEMORY_POOL:
        return "the memory or the pool's part of it is out of bounds";
    case VMSA_REFUSED_POOL_ADDRESS:
        return "the pool's physical address is out of bounds";
    case VMSA_REFUSED_SIZES:
        return "a size field of the regime is out of bounds";
    case VMSA_REFUSED_ROOT:
        return "a root is unaligned or not below 2^48";
    case VMSA_REFUSED_ATTRIBUTES:
        return "an attribute byte is neither Device nor Normal memory";
    case VMSA_REFUSED_ACCESS_SIZE:
        return "the size or alignment does not fit the kind of access";
    case VMSA_REFUSED_PAGE_CROSSING:
        return "the access crosses a page boundary";
    case VMSA_REFUSED_STORE_ADDRESS:
        return "the descriptor is unaligned or not in the pool";
    case VMSA_REFUSED_NO_REGIME:
        return "the session has no regime";
    case VMSA_REFUSED_PAGE_RANGE:
        return "the pages are none, too many, or not all in one range";
    case VMSA_REFUSED_MAP_LENGTH:
        return "the map has fewer bits than there are pages";
    case VMSA_REFUSED_WALK_ENDED:
        return "the walk has ended";
    case VMSA_REFUSED_DIRTY_STATE:
        return "HD is on and HA is off";
    default:
        return "unknown refusal";
    }
}

#define VMSA_LEVELS(name) \
    name ", level 0", name ", level 1", name ", level 2", name ", level 3"

/* What a fault status code says, with its level. */
static inline const char *vmsa_fault_text(unsigned code)
{
    static const char *const texts[] = {
        VMSA_LEVELS("Address size fault"),
        VMSA_LEVELS("Translation fault"),
        VMSA_LEVELS("Access flag fault"),
        VMSA_LEVELS("Permission fault"),
        0, 0, 0, 0,
        VMSA_LEVELS("Synchronous External abort on translation table walk")
    };

    if (code < sizeof texts / sizeof texts[0] && texts[code])
        return texts[code];
    return code == VMSA_ALIGNMENT_FAULT ? "Alignment fault" : "unknown fault";
}

#undef VMSA_LEVELS

/*
 * Where each field lies, and that there is no padding: next begins where field
 * ends, and a struct ends where its last field does. A wrong layout does not
 * compile: an array type of negative size.
 */
#define VMSA_ASSERT(name, condition) \
    typedef char vmsa_assert_##name[(condition) ? 1 : -1]
#define VMSA_END(type, field) \
    (offsetof(struct vmsa_##type, field) + \
     sizeof(((struct vmsa_##type *)0)->field))
#define VMSA_NEXT(type, field, next, offset) \
    VMSA_ASSERT(type##_##next, \
                VMSA_END(type, field) == (offset) && \
                    offsetof(struct vmsa_##type, next) == (offset))
#define VMSA_LAST(type, field, size) \
    VMSA_ASSERT(type, VMSA_END(type, field) == (size) && \
                          sizeof(struct vmsa_##type) == (size))

VMSA_ASSERT(pointer, sizeof(size_t) == 8 && sizeof(void *) == 8);

VMSA_NEXT(regime, start, length, 8);
VMSA_NEXT(regime, length, address, 16);
VMSA_NEXT(regime, address, root0, 24);
VMSA_NEXT(regime, root0, root1, 32);
VMSA_NEXT(regime, root1, attributes, 40);
VMSA_NEXT(regime, attributes, tsz0, 48);
VMSA_NEXT(regime, tsz0, tsz1, 49);
VMSA_NEXT(regime, tsz1, disabled0, 50);
VMSA_NEXT(regime, disabled0, disabled1, 51);
VMSA_NEXT(regime, disabled1, output, 52);
VMSA_NEXT(regime, output, ha, 53);
VMSA_NEXT(regime, ha, hd, 54);
VMSA_NEXT(regime, hd, wxn, 55);
VMSA_NEXT(regime, wxn, hpd0, 56);
VMSA_NEXT(regime, hpd0, hpd1, 57);
VMSA_NEXT(regime, hpd1, ee, 58);
VMSA_NEXT(regime, ee, granule, 59);
VMSA_NEXT(regime, granule, spare, 60);
VMSA_LAST(regime, spare, 64);

VMSA_NEXT(access, address, size, 8);
VMSA_NEXT(access, size, el0, 16);
VMSA_NEXT(access, el0, kind, 17);
VMSA_NEXT(access, kind, spare, 18);
VMSA_LAST(access, spare, 24);

VMSA_NEXT(answer, output, tag, 8);
VMSA_NEXT(answer, tag, refusal, 9);
VMSA_NEXT(answer, refusal, code, 10);
VMSA_NEXT(answer, code, level, 12);
VMSA_NEXT(answer, level, attribute, 13);
VMSA_NEXT(answer, attribute, shareability, 14);
VMSA_NEXT(answer, shareability, nonglobal, 15);
VMSA_NEXT(answer, nonglobal, accessed, 16);
VMSA_NEXT(answer, accessed, dirtied, 17);
VMSA_NEXT(answer, dirtied, cacheable, 18);
VMSA_NEXT(answer, cacheable, reads, 19);
VMSA_NEXT(answer, reads, spare, 20);
VMSA_LAST(answer, spare, 24);

VMSA_NEXT(entry, page, value, 8);
VMSA_NEXT(entry, value, left, 16);
VMSA_NEXT(entry, left, held, 17);
VMSA_NEXT(entry, held, tables, 18);
VMSA_NEXT(entry, tables, spare, 19);
VMSA_LAST(entry, spare, 24);

VMSA_NEXT(session, regime, entries, 64);
VMSA_NEXT(session, entries, set, 1600);
VMSA_NEXT(session, set, spare, 1601);
VMSA_LAST(session, spare, 1608);

VMSA_NEXT(stepwise, regime, access, 64);
VMSA_NEXT(stepwise, access, answer, 88);
VMSA_NEXT(stepwise, answer, address, 112);
VMSA_NEXT(stepwise, address, expected, 120);
VMSA_NEXT(stepwise, expected, value, 128);
VMSA_NEXT(stepwise, value, ended, 136);
VMSA_NEXT(stepwise, ended, update, 137);
VMSA_NEXT(stepwise, update, left, 138);
VMSA_NEXT(stepwise, left, tables, 139);
VMSA_NEXT(stepwise, tables, spare, 140);
VMSA_LAST(stepwise, spare, 144);

#undef VMSA_ASSERT
#undef VMSA_END
#undef VMSA_NEXT
#undef VMSA_LAST

#ifdef __cplusplus
}
#endif

#endif
