/*
 * How long the calls take: bench [ARCHIVE]. Nothing fails by the time; the log is nowhere, so its
 * disk costs nothing here.
 */
#define _POSIX_C_SOURCE 200809L
#include "wirtozhak.h"
#include "check.h"

#include <sys/stat.h>
#include <time.h>

static long calls; /* to the library */

static double now(void)
{
    struct timespec time;
    clock_gettime(CLOCK_MONOTONIC, &time);
    return (double)time.tv_sec * 1e9 + (double)time.tv_nsec;
}

static void forget_disk(wz *handle)
{
    wz_work work;
    while (wz_disk(handle, &work) == WZ_OK) continue;
}

static uint64_t begin(wz *handle)
{
    uint64_t tx = 0;
    int32_t answer;
    calls++;
    while ((answer = wz_begin(handle, 0, &tx)) == WZ_DISK) forget_disk(handle);
    SAME(answer, WZ_OK);
    return tx;
}

/* Says yes to all that is asked, until nothing is pending. Gives what the client was told. */
static uint32_t drive(wz *handle, uint64_t tx)
{
    wz_event event;
    uint32_t told = 0;
    calls++;
    while (wz_next(handle, tx, &event) == WZ_OK) {
        calls++;
        if (event.kind == WZ_PREPARE) {
            calls++;
            SAME(wz_reply(handle, tx, event.enlistment, WZ_YES), WZ_OK);
        } else if (event.kind == WZ_TOLD && event.enlistment == 0) {
            told = event.outcome;
        }
    }
    return told;
}

static void local_commit(wz *handle)
{
    uint64_t tx = begin(handle);
    uint32_t one, two;
    calls += 4;
    SAME(wz_enlist_volatile(handle, tx, 0, &one), WZ_OK);
    SAME(wz_enlist_volatile(handle, tx, 0, &two), WZ_OK);
    SAME(wz_commit(handle, tx), WZ_OK);
    SAME(drive(handle, tx), WZ_COMMITTED);
    SAME(wz_end(handle, tx), WZ_OK);
}

/* The least of some rounds: the machine has other work too. Gives nanoseconds. */
static double least(void (*work)(wz *handle), wz *handle, int times)
{
    double best = 0;
    for (int round = 0; round < 10; round++) {
        double before = now(), took;
        for (int n = 0; n < times; n++) work(handle);
        took = (now() - before) / times;
        if (round == 0 || took < best) best = took;
    }
    return best;
}

static void local_commits(wz *handle)
{
    enum { TIMES = 5000 };
    double took;
    calls = 0;
    took = least(local_commit, handle, TIMES);
    printf("a local commit of two volatiles: %.2f us, %.1f calls\n", took / 1e3,
           (double)calls / (10 * TIMES));
}

static void empty_call(wz *handle)
{
    uint32_t outcome;
    if (wz_told(handle, 0, &outcome) != WZ_NO_SUCH) exit(1);
}

static void empty_calls(wz *handle)
{
    printf("an empty call: %.1f ns\n", least(empty_call, handle, 1000000));
}

static void size_of(const char *archive)
{
    struct stat status;
    SAME(stat(archive, &status), 0);
    printf("the archive: %lld bytes\n", (long long)status.st_size);
}

int main(int argc, char **argv)
{
    wz handle = {0};
    SAME(wz_open(&handle, (const uint8_t *)"", 0), WZ_OK);
    forget_disk(&handle);
    SAME(wz_start(&handle), WZ_OK);
    forget_disk(&handle);
    local_commits(&handle);
    empty_calls(&handle);
    if (argc > 1) size_of(argv[1]);
    SAME(wz_close(&handle), WZ_OK);
    return 0;
}
