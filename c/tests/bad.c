/*
 * Bad input: each kind gets its answer, and changes nothing. The log is nowhere here: its requests
 * are taken, and not done.
 */
#include "wirtozhak.h"
#include "check.h"

#include <string.h>

enum { LOG_BYTES = 524800 };

static void forget_disk(wz *handle)
{
    wz_work work;
    int32_t answer;
    while ((answer = wz_disk(handle, &work)) == WZ_OK) continue;
    SAME(answer, WZ_NOTHING);
}

static void open_empty(wz *handle)
{
    SAME(wz_open(handle, (const uint8_t *)"", 0), WZ_OK);
    forget_disk(handle);
    SAME(wz_start(handle), WZ_OK);
    forget_disk(handle);
}

static uint64_t begin(wz *handle)
{
    uint64_t tx = 0;
    SAME(wz_begin(handle, 0, &tx), WZ_OK);
    return tx;
}

static uint32_t volatile_one(wz *handle, uint64_t tx)
{
    uint32_t enlistment = 0;
    SAME(wz_enlist_volatile(handle, tx, 0, &enlistment), WZ_OK);
    return enlistment;
}

static uint32_t durable_one(wz *handle, uint64_t tx, uint32_t rm)
{
    uint32_t enlistment = 0;
    SAME(wz_enlist_durable(handle, tx, rm, 0, &enlistment), WZ_OK);
    return enlistment;
}

/* The next event is this one. */
static void comes(wz *handle, uint64_t tx, uint32_t kind, uint32_t enlistment, uint32_t outcome)
{
    wz_event event;
    int32_t answer;
    while ((answer = wz_next(handle, tx, &event)) == WZ_DISK) forget_disk(handle);
    SAME(answer, WZ_OK);
    SAME(event.kind, kind);
    SAME(event.enlistment, enlistment);
    SAME(event.outcome, outcome);
}

/* Nothing more comes. */
static void nothing_comes(wz *handle, uint64_t tx)
{
    wz_event event;
    int32_t answer;
    while ((answer = wz_next(handle, tx, &event)) == WZ_DISK) forget_disk(handle);
    SAME(answer, WZ_NOTHING);
}

/* Rolls a transaction back and forgets it. */
static void drop(wz *handle, uint64_t tx)
{
    wz_event event;
    int32_t answer;
    SAME(wz_rollback(handle, tx), WZ_OK);
    while ((answer = wz_next(handle, tx, &event)) == WZ_OK) continue;
    SAME(answer, WZ_NOTHING);
    SAME(wz_end(handle, tx), WZ_OK);
}

/* ------------------------------------------------- the calls, each with the number of a test */

struct call {
    const char *name;
    int32_t (*call)(wz *handle, uint64_t tx);
};

static uint32_t word; /* what a call gives, where nobody looks at it */

static int32_t try_outcome(wz *handle, uint64_t tx) { return wz_outcome(handle, tx, 1, &word); }
static int32_t try_volatile(wz *handle, uint64_t tx)
{
    return wz_enlist_volatile(handle, tx, 0, &word);
}
static int32_t try_durable(wz *handle, uint64_t tx)
{
    return wz_enlist_durable(handle, tx, 1, 0, &word);
}
static int32_t try_promotable(wz *handle, uint64_t tx)
{
    return wz_enlist_promotable(handle, tx, 1, &word);
}
static int32_t try_clone(wz *handle, uint64_t tx) { return wz_clone(handle, tx, 0, &word); }
static int32_t try_complete(wz *handle, uint64_t tx) { return wz_complete(handle, tx, 1); }
static int32_t try_identifier(wz *handle, uint64_t tx)
{
    uint8_t sixteen[16];
    return wz_identifier(handle, tx, sixteen);
}
static int32_t try_commit(wz *handle, uint64_t tx) { return wz_commit(handle, tx); }
static int32_t try_rollback(wz *handle, uint64_t tx) { return wz_rollback(handle, tx); }
static int32_t try_tick(wz *handle, uint64_t tx) { return wz_tick(handle, tx, 1); }
static int32_t try_lost(wz *handle, uint64_t tx) { return wz_lost(handle, tx, 1); }
static int32_t try_next(wz *handle, uint64_t tx)
{
    wz_event event;
    return wz_next(handle, tx, &event);
}
static int32_t try_reply(wz *handle, uint64_t tx) { return wz_reply(handle, tx, 1, WZ_YES); }
static int32_t try_told(wz *handle, uint64_t tx) { return wz_told(handle, tx, &word); }
static int32_t try_end(wz *handle, uint64_t tx) { return wz_end(handle, tx); }

static const struct call of_a_transaction[] = {
    {"wz_enlist_volatile", try_volatile}, {"wz_enlist_durable", try_durable},
    {"wz_enlist_promotable", try_promotable}, {"wz_clone", try_clone},
    {"wz_complete", try_complete}, {"wz_identifier", try_identifier},
    {"wz_commit", try_commit}, {"wz_rollback", try_rollback}, {"wz_tick", try_tick},
    {"wz_lost", try_lost}, {"wz_next", try_next}, {"wz_reply", try_reply},
    {"wz_told", try_told}, {"wz_end", try_end},
};

/* Those that take no transaction that goes on. wz_open is apart: it wants a closed handle. */
static int32_t try_recovered(wz *handle, uint64_t tx)
{
    (void)tx;
    return wz_recovered(handle, 1);
}
static int32_t try_start(wz *handle, uint64_t tx)
{
    (void)tx;
    return wz_start(handle);
}
static int32_t try_begin(wz *handle, uint64_t tx) { return wz_begin(handle, 0, &tx); }
static int32_t try_disk(wz *handle, uint64_t tx)
{
    wz_work work;
    (void)tx;
    return wz_disk(handle, &work);
}
static int32_t try_bytes(wz *handle, uint64_t tx)
{
    uint8_t bytes[512];
    (void)tx;
    return wz_bytes(handle, bytes, sizeof bytes);
}
static int32_t try_close(wz *handle, uint64_t tx)
{
    (void)tx;
    return wz_close(handle);
}

static const struct call of_no_transaction[] = {
    {"wz_outcome", try_outcome}, {"wz_recovered", try_recovered}, {"wz_start", try_start},
    {"wz_begin", try_begin}, {"wz_disk", try_disk}, {"wz_bytes", try_bytes},
    {"wz_close", try_close},
};

#define COUNT(table) (sizeof(table) / sizeof *(table))

/* Each call of a table answers this. */
static void all_answer(wz *handle, uint64_t tx, const struct call *calls, size_t count,
                       int32_t wanted)
{
    for (size_t i = 0; i < count; i++) {
        int32_t answer = calls[i].call(handle, tx);
        if (answer == wanted) continue;
        printf("%s of %llu answers %d, and should %d\n", calls[i].name, (unsigned long long)tx,
               answer, wanted);
        exit(1);
    }
}

/* ------------------------------------------------------------------------------- the tests */

static void all_are_closed(wz *handle)
{
    all_answer(handle, 65537, of_a_transaction, COUNT(of_a_transaction), WZ_CLOSED);
    all_answer(handle, 65537, of_no_transaction, COUNT(of_no_transaction), WZ_CLOSED);
    SAME(wz_open(handle, (const uint8_t *)"x", 1), WZ_NO_LOG);
    CHECK(!handle->open);
}

/* One that was never open, one that was closed, and one that is open already. */
static void handles(void)
{
    wz handle = {0};
    all_are_closed(&handle);
    open_empty(&handle);
    SAME(wz_open(&handle, (const uint8_t *)"", 0), WZ_OPEN);
    SAME(wz_open(&handle, (const uint8_t *)"x", 1), WZ_OPEN);
    drop(&handle, begin(&handle));
    SAME(wz_close(&handle), WZ_OK);
    SAME(wz_close(&handle), WZ_CLOSED);
    all_are_closed(&handle);
    open_empty(&handle);
    SAME(wz_close(&handle), WZ_OK);
}

/* One handle that moves in memory goes on. */
static void a_move(void)
{
    wz one = {0}, other;
    uint64_t tx;
    open_empty(&one);
    tx = begin(&one);
    other = one;
    memset(&one, 0, sizeof one);
    SAME(wz_commit(&one, tx), WZ_CLOSED);
    drop(&other, tx);
    SAME(wz_close(&other), WZ_OK);
}

static void logs(void)
{
    static const size_t lengths[] = {1, 511, 512, LOG_BYTES - 1, LOG_BYTES, LOG_BYTES + 1};
    static const uint8_t fillings[] = {0, 'x', 0xff};
    uint8_t *bytes = malloc(LOG_BYTES + 1);
    wz handle = {0};
    CHECK(bytes);
    for (size_t f = 0; f < COUNT(fillings); f++) {
        memset(bytes, fillings[f], LOG_BYTES + 1);
        for (size_t i = 0; i < COUNT(lengths); i++) {
            SAME(wz_open(&handle, bytes, lengths[i]), WZ_NO_LOG);
            CHECK(!handle.open);
        }
    }
    for (size_t i = 0; i < LOG_BYTES; i++) bytes[i] = (uint8_t)(i * 2654435761u >> 24);
    SAME(wz_open(&handle, bytes, LOG_BYTES), WZ_NO_LOG);
    free(bytes);
}

/* A number that no transaction has: of none, of one that is over, of one that is yet to come. */
static void transactions(wz *handle)
{
    uint64_t over = begin(handle), live = begin(handle);
    const uint64_t numbers[] = {0, 1, 65536, UINT32_MAX, UINT64_MAX, UINT64_MAX - 65535,
                                over, live + 1, live + 65536, live + ((uint64_t)1 << 48)};
    drop(handle, over);
    for (size_t i = 0; i < COUNT(numbers); i++) {
        all_answer(handle, numbers[i], of_a_transaction, COUNT(of_a_transaction), WZ_NO_SUCH);
    }
    drop(handle, live);
}

/* An enlistment may have this number, from 1 to 9999. */
static bool in_range(uint32_t number) { return 1 <= number && number <= 9999; }

/*
 * A number that no enlistment, clone or resource manager has. Of an enlistment that there isn't no
 * reply is due.
 */
static void others(wz *handle)
{
    static const uint32_t numbers[] = {0, 2, 255, 65536, UINT32_MAX};
    uint64_t tx = begin(handle);
    uint32_t one = volatile_one(handle, tx);
    SAME(one, 1);
    for (size_t i = 0; i < COUNT(numbers); i++) {
        SAME(wz_reply(handle, tx, numbers[i], WZ_YES),
             in_range(numbers[i]) ? WZ_UNASKED : WZ_NO_SUCH);
        SAME(wz_lost(handle, tx, numbers[i]), WZ_NO_SUCH);
        SAME(wz_complete(handle, tx, numbers[i]), WZ_NO_SUCH);
    }
    SAME(wz_enlist_durable(handle, tx, 0, 0, &word), WZ_NO_SUCH);
    SAME(wz_enlist_promotable(handle, tx, 0, &word), WZ_NO_SUCH);
    SAME(wz_recovered(handle, 0), WZ_NO_SUCH);
    drop(handle, tx);
}

/* What no earlier life had: no record means abort, whatever the number is. */
static void outcomes(wz *handle)
{
    static const uint64_t numbers[] = {0, UINT32_MAX, UINT64_MAX};
    uint32_t outcome = 0;
    for (size_t i = 0; i < COUNT(numbers); i++) {
        SAME(wz_outcome(handle, numbers[i], 1, &outcome), WZ_OK);
        SAME(outcome, WZ_ABORTED);
    }
    SAME(wz_outcome(handle, 65537, 0, &outcome), WZ_NO_SUCH);
    SAME(wz_outcome(handle, 65537, UINT32_MAX, &outcome), WZ_NO_SUCH);
    SAME(wz_outcome(handle, 65537, 1, &outcome), WZ_OK);
    SAME(outcome, WZ_ABORTED);
}

/* Words that aren't known. */
static void words(wz *handle)
{
    static const uint32_t flags[] = {2, 255, 256, UINT32_MAX};
    static const uint32_t replies[] = {0, 10, 256, UINT32_MAX};
    uint64_t tx = begin(handle);
    uint32_t one = volatile_one(handle, tx);
    for (size_t i = 0; i < COUNT(flags); i++) {
        SAME(wz_enlist_volatile(handle, tx, flags[i], &word), WZ_UNKNOWN);
        SAME(wz_enlist_durable(handle, tx, 1, flags[i], &word), WZ_UNKNOWN);
        SAME(wz_clone(handle, tx, flags[i], &word), WZ_UNKNOWN);
    }
    for (size_t i = 0; i < COUNT(replies); i++) {
        SAME(wz_reply(handle, tx, one, replies[i]), WZ_UNKNOWN);
    }
    drop(handle, tx);
}

/* None of these replies is due of an enlistment. */
static void unasked(wz *handle, uint64_t tx, uint32_t enlistment, uint32_t first, uint32_t last)
{
    for (uint32_t reply = first; reply <= last; reply++) {
        SAME(wz_reply(handle, tx, enlistment, reply), WZ_UNASKED);
    }
}

/* Replies that aren't due: too early, of another kind, a second time, too late. */
static void replies(wz *handle)
{
    uint64_t tx = begin(handle);
    uint32_t one = durable_one(handle, tx, 1), two = durable_one(handle, tx, 2);
    unasked(handle, tx, one, WZ_YES, WZ_NOT_PROMOTED);
    SAME(wz_commit(handle, tx), WZ_OK);
    comes(handle, tx, WZ_PREPARE, one, 0);
    unasked(handle, tx, one, WZ_ACK, WZ_NOT_PROMOTED);
    SAME(wz_reply(handle, tx, one, WZ_YES), WZ_OK);
    unasked(handle, tx, one, WZ_YES, WZ_NOT_PROMOTED);
    comes(handle, tx, WZ_PREPARE, two, 0);
    SAME(wz_reply(handle, tx, two, WZ_YES), WZ_OK);
    unasked(handle, tx, two, WZ_YES, WZ_NOT_PROMOTED);
    comes(handle, tx, WZ_TOLD, 0, WZ_COMMITTED);
    comes(handle, tx, WZ_TOLD, one, WZ_COMMITTED);
    comes(handle, tx, WZ_TOLD, two, WZ_COMMITTED);
    unasked(handle, tx, one, WZ_YES, WZ_DONE);
    unasked(handle, tx, one, WZ_OWN_COMMITTED, WZ_NOT_PROMOTED);
    SAME(wz_end(handle, tx), WZ_LIVE);
    SAME(wz_reply(handle, tx, one, WZ_ACK), WZ_OK);
    SAME(wz_end(handle, tx), WZ_LIVE);
    SAME(wz_reply(handle, tx, two, WZ_ACK), WZ_OK);
    unasked(handle, tx, one, WZ_YES, WZ_NOT_PROMOTED);
    nothing_comes(handle, tx);
    SAME(wz_end(handle, tx), WZ_OK);
}

/* Calls that a transaction refuses. */
static void refusals(wz *handle)
{
    uint64_t tx = begin(handle);
    uint32_t cache = volatile_one(handle, tx), clone = 0;
    SAME(wz_clone(handle, tx, 0, &clone), WZ_OK);
    SAME(wz_complete(handle, tx, clone), WZ_OK);
    SAME(wz_complete(handle, tx, clone), WZ_REFUSED_ALREADY);
    SAME(wz_commit(handle, tx), WZ_OK);
    SAME(wz_commit(handle, tx), WZ_REFUSED_TOO_LATE);
    SAME(wz_end(handle, tx), WZ_LIVE);
    comes(handle, tx, WZ_PREPARE, cache, 0);
    SAME(wz_enlist_volatile(handle, tx, 0, &word), WZ_REFUSED_TOO_LATE);
    SAME(wz_enlist_durable(handle, tx, 1, 0, &word), WZ_REFUSED_TOO_LATE);
    SAME(wz_clone(handle, tx, 0, &word), WZ_REFUSED_TOO_LATE);
    SAME(wz_reply(handle, tx, cache, WZ_YES), WZ_OK);
    comes(handle, tx, WZ_TOLD, cache, WZ_COMMITTED);
    comes(handle, tx, WZ_TOLD, 0, WZ_COMMITTED);
    nothing_comes(handle, tx);
    SAME(wz_rollback(handle, tx), WZ_REFUSED_ENDED);
    SAME(wz_commit(handle, tx), WZ_REFUSED_ENDED);
    SAME(wz_end(handle, tx), WZ_OK);
}

/* While a request isn't done nothing is told: these calls do nothing. tx 0: of no transaction. */
static void waits_for_disk(wz *handle, uint64_t tx)
{
    static const struct call waiting[] = {
        {"wz_outcome", try_outcome}, {"wz_recovered", try_recovered}, {"wz_start", try_start},
        {"wz_begin", try_begin},
    };
    all_answer(handle, 65537, waiting, COUNT(waiting), WZ_DISK);
    if (tx == 0) return;
    SAME(try_told(handle, tx), WZ_DISK);
    SAME(try_next(handle, tx), WZ_DISK);
}

/* Takes each request in turn, and asks for bytes that it doesn't have. */
static void requests(wz *handle, uint64_t tx)
{
    uint8_t *bytes = malloc(LOG_BYTES + 1);
    wz_work work;
    int32_t answer;
    CHECK(bytes);
    SAME(wz_bytes(handle, bytes, 512), WZ_UNASKED);
    SAME(wz_bytes(handle, bytes, 0), WZ_UNASKED);
    waits_for_disk(handle, tx);
    while ((answer = wz_disk(handle, &work)) == WZ_OK) {
        bool has_bytes = work.kind == WZ_WRITE;
        CHECK(work.kind >= WZ_WRITE && work.kind <= WZ_SYNC);
        if (work.kind != WZ_SYNC) CHECK(work.at + work.length <= LOG_BYTES);
        SAME(wz_bytes(handle, bytes, (size_t)work.length + 1), WZ_UNASKED);
        if (has_bytes) SAME(wz_bytes(handle, bytes, (size_t)work.length - 1), WZ_UNASKED);
        SAME(wz_bytes(handle, bytes, (size_t)work.length), has_bytes ? WZ_OK : WZ_UNASKED);
        waits_for_disk(handle, tx);
    }
    SAME(answer, WZ_NOTHING);
    SAME(wz_bytes(handle, bytes, 512), WZ_UNASKED);
    SAME(wz_disk(handle, &work), WZ_NOTHING);
    free(bytes);
}

/* The requests of an opening, of an epoch and of a record. */
static void disk(void)
{
    wz handle = {0};
    uint64_t tx;
    uint32_t one, two;
    SAME(wz_open(&handle, (const uint8_t *)"", 0), WZ_OK);
    requests(&handle, 0);
    SAME(wz_start(&handle), WZ_OK);
    requests(&handle, 0);
    tx = begin(&handle);
    one = durable_one(&handle, tx, 1);
    two = durable_one(&handle, tx, 2);
    SAME(wz_commit(&handle, tx), WZ_OK);
    comes(&handle, tx, WZ_PREPARE, one, 0);
    SAME(wz_reply(&handle, tx, one, WZ_YES), WZ_OK);
    comes(&handle, tx, WZ_PREPARE, two, 0);
    SAME(wz_reply(&handle, tx, two, WZ_YES), WZ_OK);
    SAME(try_next(&handle, tx), WZ_DISK);
    requests(&handle, tx);
    comes(&handle, tx, WZ_TOLD, 0, WZ_COMMITTED);
    SAME(wz_close(&handle), WZ_OK);
}

/* More transactions at once than there is place for. */
static void too_many(void)
{
    wz handle = {0};
    uint64_t numbers[256], tx;
    open_empty(&handle);
    for (size_t i = 0; i < COUNT(numbers); i++) numbers[i] = begin(&handle);
    SAME(wz_begin(&handle, 0, &tx), WZ_MANY);
    drop(&handle, numbers[0]);
    while (wz_begin(&handle, 0, &tx) == WZ_DISK) forget_disk(&handle);
    CHECK(tx > numbers[255]);
    SAME(wz_begin(&handle, 0, &tx), WZ_MANY);
    for (size_t i = 1; i < COUNT(numbers); i++) drop(&handle, numbers[i]);
    SAME(wz_close(&handle), WZ_OK);
}

/* What bad input is tried on has to go on as though there had been none. */
static void still_commits(wz *handle, uint64_t tx, uint32_t cache)
{
    SAME(wz_commit(handle, tx), WZ_OK);
    comes(handle, tx, WZ_PREPARE, cache, 0);
    SAME(wz_reply(handle, tx, cache, WZ_YES), WZ_OK);
    comes(handle, tx, WZ_TOLD, cache, WZ_COMMITTED);
    comes(handle, tx, WZ_TOLD, 0, WZ_COMMITTED);
    nothing_comes(handle, tx);
    SAME(wz_end(handle, tx), WZ_OK);
}

int main(void)
{
    wz handle = {0};
    uint64_t tx;
    uint32_t cache;
    SAME(sizeof(wz), 2 * sizeof(void *));
    handles();
    a_move();
    logs();
    disk();
    too_many();
    open_empty(&handle);
    tx = begin(&handle);
    cache = volatile_one(&handle, tx);
    transactions(&handle);
    others(&handle);
    outcomes(&handle);
    words(&handle);
    replies(&handle);
    refusals(&handle);
    still_commits(&handle, tx, cache);
    SAME(wz_close(&handle), WZ_OK);
    return 0;
}
