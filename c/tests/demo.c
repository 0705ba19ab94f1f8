/*
 * A walk through the library over one log file: demo FILE.
 * Each event is printed and compared with what is expected; the first difference ends the program
 * with status 1.
 */
#define WZ_POSIX
#include "wirtozhak.h"
#include "check.h"

#include <fcntl.h>
#include <string.h>
#include <sys/stat.h>

/* Work for the disk that has to come between two events. */
enum { DISK = 100 };

/* What is to come next of a transaction, and what is replied; 0: nothing. Kind 0 is the end. */
struct step {
    uint32_t kind, enlistment, outcome, reply;
};

static int log_file;
static bool quiet; /* prints no events */

static void do_disk(wz *handle)
{
    SAME(wz_do_disk(handle, log_file), 0);
}

static void print_event(const wz_event *event)
{
    static const char *const kinds[] = {"", "init", "prepare", "promote", "hand", "single", "told"};
    static const char *const outcomes[] = {"", " committed", " aborted", " in doubt"};
    CHECK(event->kind >= WZ_INIT && event->kind <= WZ_TOLD);
    CHECK(event->outcome <= WZ_IN_DOUBT);
    if (quiet) return;
    printf("  enlistment %u: %s%s\n", event->enlistment, kinds[event->kind],
           outcomes[event->outcome]);
}

/* Compares what came with what was to come, and replies. */
static void take(wz *handle, uint64_t tx, const wz_event *event, const struct step *step)
{
    SAME(event->kind, step->kind);
    SAME(event->enlistment, step->enlistment);
    SAME(event->outcome, step->outcome);
    if (step->reply != 0) SAME(wz_reply(handle, tx, event->enlistment, step->reply), WZ_OK);
}

/* Takes all that comes of a transaction, until nothing is pending: these steps and no more. */
static void walk(wz *handle, uint64_t tx, const struct step *step)
{
    wz_event event;
    int32_t answer;
    while ((answer = wz_next(handle, tx, &event)) != WZ_NOTHING) {
        if (answer == WZ_DISK) {
            do_disk(handle);
            if (step->kind == DISK) step++;
            continue;
        }
        SAME(answer, WZ_OK);
        print_event(&event);
        take(handle, tx, &event, step);
        step++;
    }
    SAME(step->kind, 0);
}

static void nothing_comes(wz *handle, uint64_t tx)
{
    walk(handle, tx, (const struct step[]){{0}});
}

/* Begins a transaction; an epoch may have to begin first. */
static uint64_t begin(wz *handle, uint32_t milliseconds)
{
    uint64_t tx = 0;
    int32_t answer;
    while ((answer = wz_begin(handle, milliseconds, &tx)) == WZ_DISK) do_disk(handle);
    SAME(answer, WZ_OK);
    return tx;
}

static uint32_t volatile_one(wz *handle, uint64_t tx)
{
    uint32_t enlistment = 0;
    SAME(wz_enlist_volatile(handle, tx, 0, &enlistment), WZ_OK);
    return enlistment;
}

static uint32_t durable_one(wz *handle, uint64_t tx, uint32_t rm)
{
    uint32_t enlistment = 0;
    SAME(wz_enlist_durable(handle, tx, rm, 0, &enlistment), WZ_OK);
    return enlistment;
}

/* The client was told this, and the transaction is over. */
static void over(wz *handle, uint64_t tx, uint32_t outcome)
{
    uint32_t told = 0;
    SAME(wz_told(handle, tx, &told), WZ_OK);
    SAME(told, outcome);
    SAME(wz_end(handle, tx), WZ_OK);
    SAME(wz_told(handle, tx, &told), WZ_NO_SUCH);
}

static void all_commit(wz *handle)
{
    uint64_t tx = begin(handle, 0);
    uint32_t cache = volatile_one(handle, tx);
    uint32_t queue = durable_one(handle, tx, 1);
    uint32_t database = durable_one(handle, tx, 2);
    printf("a volatile and two durables commit\n");
    SAME(wz_commit(handle, tx), WZ_OK);
    walk(handle, tx, (const struct step[]){
        {WZ_PREPARE, cache, 0, WZ_YES},
        {WZ_PREPARE, queue, 0, WZ_YES},
        {WZ_PREPARE, database, 0, WZ_YES},
        {DISK, 0, 0, 0},
        {WZ_TOLD, cache, WZ_COMMITTED, 0},
        {WZ_TOLD, 0, WZ_COMMITTED, 0},
        {WZ_TOLD, queue, WZ_COMMITTED, 0},
        {WZ_TOLD, database, WZ_COMMITTED, 0},
        {0}});
    SAME(wz_end(handle, tx), WZ_LIVE);
    SAME(wz_reply(handle, tx, queue, WZ_ACK), WZ_OK);
    SAME(wz_reply(handle, tx, database, WZ_ACK), WZ_OK);
    nothing_comes(handle, tx);
    over(handle, tx, WZ_COMMITTED);
}

static void one_refuses(wz *handle)
{
    uint64_t tx = begin(handle, 0);
    uint32_t queue = durable_one(handle, tx, 1);
    uint32_t database = durable_one(handle, tx, 2);
    printf("a veto\n");
    SAME(wz_commit(handle, tx), WZ_OK);
    walk(handle, tx, (const struct step[]){
        {WZ_PREPARE, queue, 0, WZ_YES},
        {WZ_PREPARE, database, 0, WZ_NO},
        {WZ_TOLD, 0, WZ_ABORTED, 0},
        {WZ_TOLD, queue, WZ_ABORTED, 0},
        {0}});
    over(handle, tx, WZ_ABORTED);
}

static void time_runs_out(wz *handle)
{
    uint64_t tx = begin(handle, 30000);
    uint32_t cache = volatile_one(handle, tx);
    printf("a timeout\n");
    SAME(wz_tick(handle, tx, 29999), WZ_OK);
    nothing_comes(handle, tx);
    SAME(wz_tick(handle, tx, 1), WZ_OK);
    walk(handle, tx, (const struct step[]){
        {WZ_TOLD, cache, WZ_ABORTED, 0},
        {WZ_TOLD, 0, WZ_ABORTED, 0},
        {0}});
    over(handle, tx, WZ_ABORTED);
}

/* The decision is handed to a promotable that is alone. */
static void promotable_alone(wz *handle)
{
    uint64_t tx = begin(handle, 0);
    uint32_t database = 0;
    printf("a promotable alone\n");
    SAME(wz_enlist_promotable(handle, tx, 1, &database), WZ_OK);
    CHECK(database != 0);
    walk(handle, tx, (const struct step[]){
        {WZ_INIT, database, 0, 0},
        {0}});
    SAME(wz_commit(handle, tx), WZ_OK);
    walk(handle, tx, (const struct step[]){
        {WZ_HAND, database, 0, WZ_OWN_COMMITTED},
        {WZ_TOLD, 0, WZ_COMMITTED, 0},
        {0}});
    over(handle, tx, WZ_COMMITTED);
}

/*
 * A durable beside a promotable makes it promote. At the commit it is asked first whether the
 * transaction commits, and then prepares as the others do.
 */
static void promotable_promotes(wz *handle)
{
    uint64_t tx = begin(handle, 0);
    uint32_t database = 0, queue, other = 7;
    printf("a promotable is promoted\n");
    SAME(wz_enlist_promotable(handle, tx, 1, &database), WZ_OK);
    walk(handle, tx, (const struct step[]){
        {WZ_INIT, database, 0, 0},
        {0}});
    queue = durable_one(handle, tx, 2);
    walk(handle, tx, (const struct step[]){
        {WZ_PROMOTE, database, 0, WZ_PROMOTED},
        {0}});
    SAME(wz_enlist_promotable(handle, tx, 3, &other), WZ_OK);
    SAME(other, 0);
    SAME(wz_commit(handle, tx), WZ_OK);
    walk(handle, tx, (const struct step[]){
        {WZ_SINGLE, database, 0, WZ_OWN_COMMITTED},
        {WZ_PREPARE, database, 0, WZ_YES},
        {WZ_PREPARE, queue, 0, WZ_YES},
        {DISK, 0, 0, 0},
        {WZ_TOLD, 0, WZ_COMMITTED, 0},
        {WZ_TOLD, database, WZ_COMMITTED, WZ_ACK},
        {WZ_TOLD, queue, WZ_COMMITTED, WZ_ACK},
        {0}});
    over(handle, tx, WZ_COMMITTED);
}

/* A commit waits for a clone of the one kind; one of the other kind rolls it back. */
static void clones(wz *handle)
{
    uint64_t tx = begin(handle, 0);
    uint32_t cache = volatile_one(handle, tx), clone = 0;
    printf("a clone that the commit waits for\n");
    SAME(wz_clone(handle, tx, 0, &clone), WZ_OK);
    SAME(wz_commit(handle, tx), WZ_OK);
    nothing_comes(handle, tx);
    SAME(wz_complete(handle, tx, clone), WZ_OK);
    walk(handle, tx, (const struct step[]){
        {WZ_PREPARE, cache, 0, WZ_YES},
        {WZ_TOLD, cache, WZ_COMMITTED, 0},
        {WZ_TOLD, 0, WZ_COMMITTED, 0},
        {0}});
    over(handle, tx, WZ_COMMITTED);

    tx = begin(handle, 0);
    cache = volatile_one(handle, tx);
    printf("a clone that wasn't complete at the commit\n");
    SAME(wz_clone(handle, tx, 1, &clone), WZ_OK);
    SAME(wz_commit(handle, tx), WZ_OK);
    walk(handle, tx, (const struct step[]){
        {WZ_TOLD, cache, WZ_ABORTED, 0},
        {WZ_TOLD, 0, WZ_ABORTED, 0},
        {0}});
    over(handle, tx, WZ_ABORTED);
}

/* Asks for the identifier; the promotion may go on first. */
static void take_identifier(wz *handle, uint64_t tx, uint8_t *sixteen)
{
    int32_t answer = wz_identifier(handle, tx, sixteen);
    if (answer == WZ_NOTHING) {
        nothing_comes(handle, tx);
        answer = wz_identifier(handle, tx, sixteen);
    }
    SAME(answer, WZ_OK);
}

static void identifiers(wz *handle)
{
    uint8_t one[16], again[16], other[16];
    uint64_t tx = begin(handle, 0), second = begin(handle, 0);
    printf("identifiers\n");
    take_identifier(handle, tx, one);
    take_identifier(handle, tx, again);
    take_identifier(handle, second, other);
    CHECK(memcmp(one, again, sizeof one) == 0);
    CHECK(memcmp(one, other, sizeof one) != 0);
    SAME(wz_rollback(handle, tx), WZ_OK);
    walk(handle, tx, (const struct step[]){
        {WZ_TOLD, 0, WZ_ABORTED, 0},
        {0}});
    over(handle, tx, WZ_ABORTED);
    SAME(wz_rollback(handle, second), WZ_OK);
    walk(handle, second, (const struct step[]){
        {WZ_TOLD, 0, WZ_ABORTED, 0},
        {0}});
    over(handle, second, WZ_ABORTED);
}

static void roll_back(wz *handle)
{
    uint64_t tx = begin(handle, 0);
    uint32_t cache = volatile_one(handle, tx);
    uint32_t queue = durable_one(handle, tx, 1);
    printf("a rollback\n");
    nothing_comes(handle, tx); /* the durable is enlisted once the transaction is promoted */
    SAME(wz_rollback(handle, tx), WZ_OK);
    walk(handle, tx, (const struct step[]){
        {WZ_TOLD, cache, WZ_ABORTED, 0},
        {WZ_TOLD, 0, WZ_ABORTED, 0},
        {WZ_TOLD, queue, WZ_ABORTED, 0},
        {0}});
    over(handle, tx, WZ_ABORTED);
}

/* One that is asked replies late; another transaction goes on meanwhile. */
static void late_reply(wz *handle)
{
    uint64_t slow = begin(handle, 0), quick = begin(handle, 0);
    uint32_t cache = volatile_one(handle, slow), other = volatile_one(handle, quick);
    printf("a late reply\n");
    SAME(wz_commit(handle, slow), WZ_OK);
    walk(handle, slow, (const struct step[]){
        {WZ_PREPARE, cache, 0, 0},
        {0}});
    SAME(wz_commit(handle, quick), WZ_OK);
    walk(handle, quick, (const struct step[]){
        {WZ_PREPARE, other, 0, WZ_YES},
        {WZ_TOLD, other, WZ_COMMITTED, 0},
        {WZ_TOLD, 0, WZ_COMMITTED, 0},
        {0}});
    over(handle, quick, WZ_COMMITTED);
    SAME(wz_reply(handle, slow, cache, WZ_YES), WZ_OK);
    walk(handle, slow, (const struct step[]){
        {WZ_TOLD, cache, WZ_COMMITTED, 0},
        {WZ_TOLD, 0, WZ_COMMITTED, 0},
        {0}});
    over(handle, slow, WZ_COMMITTED);
}

/* A thousand transactions: more than an epoch has numbers for. Gives the last number. */
static uint64_t a_thousand(wz *handle, uint64_t last)
{
    printf("a thousand transactions\n");
    quiet = true;
    for (int n = 0; n < 1000; n++) {
        uint64_t tx = begin(handle, 0);
        CHECK(tx > last);
        last = tx;
        SAME(wz_commit(handle, tx), WZ_OK);
        walk(handle, tx, (const struct step[]){
        {WZ_TOLD, 0, WZ_COMMITTED, 0},
        {0}});
        over(handle, tx, WZ_COMMITTED);
    }
    quiet = false;
    return last;
}

/* Opens a handle over what the file has. */
static void open_over_file(wz *handle)
{
    struct stat status;
    uint8_t *bytes;
    size_t length;
    SAME(fstat(log_file, &status), 0);
    length = (size_t)status.st_size;
    bytes = malloc(length + 1);
    CHECK(bytes);
    SAME(pread(log_file, bytes, length, 0), (ssize_t)length);
    SAME(wz_open(handle, bytes, length), WZ_OK);
    free(bytes);
    do_disk(handle);
}

/* A life of the host: gives the last number of its transactions, all above `last`. */
static uint64_t life(uint64_t last)
{
    wz handle = {0};
    open_over_file(&handle);
    for (uint32_t rm = 1; rm <= 3; rm++) {
        SAME(wz_recovered(&handle, rm), WZ_OK);
        do_disk(&handle);
    }
    SAME(wz_start(&handle), WZ_OK);
    do_disk(&handle);
    all_commit(&handle);
    one_refuses(&handle);
    time_runs_out(&handle);
    promotable_alone(&handle);
    promotable_promotes(&handle);
    clones(&handle);
    identifiers(&handle);
    roll_back(&handle);
    late_reply(&handle);
    last = a_thousand(&handle, last);
    SAME(wz_close(&handle), WZ_OK);
    return last;
}

int main(int argc, char **argv)
{
    uint64_t last;
    CHECK(argc == 2);
    log_file = open(argv[1], O_RDWR | O_CREAT, 0600);
    CHECK(log_file >= 0);
    last = life(0);
    printf("another life over the same log\n");
    life(last);
    close(log_file);
    return 0;
}
