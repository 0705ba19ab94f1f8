/*
 * Wirtozhak: a transaction manager as a library, in the shape of System.Transactions.
 *
 * A host begins transactions and enlists in them what it has: databases, queues, caches. The
 * library decides what comes of each transaction, and keeps the log by which a later life of the
 * host learns it again. Nothing calls back: the host asks what comes next (wz_next), does it with
 * its own resource managers, and replies (wz_reply).
 *
 *
 * A life of a host
 *
 *   1. It opens and locks the file of the log, and reads the whole of it.
 *   2. wz_open with these bytes (a file that is missing or empty: length 0); then the disk, below.
 *   3. For each resource manager: wz_outcome for each enlistment that it had prepared and whose
 *      outcome it hasn't heard. It applies what it learns, and then wz_recovered and the disk.
 *   4. wz_start, and the disk.
 *   5. Transactions: wz_begin, wz_enlist_..., wz_commit or wz_rollback, then the loop below until
 *      nothing is pending, and wz_end.
 *   6. wz_close, after which the file may be unlocked.
 *
 *     while ((r = wz_next(&h, tx, &e)) != WZ_NOTHING) {
 *         if (r < 0) return r;
 *         if (r == WZ_DISK) { if (wz_do_disk(&h, fd)) return give_up(); }
 *         else if (e.kind == WZ_INIT) begin_own_work(e.enlistment);
 *         else if (e.kind == WZ_TOLD) hear(e.enlistment, e.outcome);
 *         else wz_reply(&h, tx, e.enlistment, ask(e.enlistment, e.kind));
 *     }
 *
 * A durable enlistment that hears that the transaction committed acknowledges it, with WZ_ACK, once
 * its work lasts. The host runs this loop also before wz_commit, where an enlistment or an
 * identifier makes the transaction promoted.
 *
 *
 * The disk
 *
 * No call touches a file. What the log wants of its file are requests, which the host takes with
 * wz_disk, one by one, and does in this order: by asking for the next one it says that the one
 * before is done. While a request isn't done, what could tell somebody something answers WZ_DISK
 * and does nothing: so nobody hears what a crash could undo. wz_do_disk, at the end of this file,
 * does all of it on a POSIX system.
 *
 * Where a request fails, the host asks for no further one: it closes the handle, and a new life
 * recovers. The host has the lock of the file for as long as the handle is open. Where it made the
 * file, it syncs the file's folder too.
 *
 *
 * Ownership and threads
 *
 *   - The memory of a handle (wz) is the host's, and is all zero before its first wz_open. Only the
 *     library writes it. It may be moved, but never copied: of two copies each would free what both
 *     have.
 *   - A handle that is open owns memory, which wz_close frees. After wz_close it is closed, and may
 *     be opened again.
 *   - One call at a time on a handle, and all of them on the thread that opened it. Two handles
 *     share nothing.
 *   - No call waits, or touches a file, a clock or a signal. Time goes on only by wz_tick.
 *   - A call reads and writes what a pointer points to only until it returns.
 *   - Who is asked something may reply later. wz_next answers WZ_NOTHING meanwhile, and other
 *     transactions go on.
 *
 *
 * Bad input
 *
 * A handle that is closed, a number that nobody has, a word that isn't known, a reply that isn't
 * due, bytes that are no log: each gets its answer, and changes nothing. What a pointer receives
 * counts only where the answer is WZ_OK.
 *
 * These are undefined: a null pointer (also for the log where its length is 0), a pointer to less
 * than the call reads or writes, a handle that was copied, forged, or not all zero at first, and
 * two calls at once on one handle.
 */
#ifndef WIRTOZHAK_H
#define WIRTOZHAK_H

#include <stdbool.h>
#include <stddef.h>
#include <stdint.h>

#ifdef __cplusplus
extern "C" {
#endif

/* A handle of a transaction manager. wz h = {0}; is closed. */
typedef struct wz {
    bool open;
    void *at;
} wz;

/* Something for an enlistment to do or to hear. Enlistment 0 is the client: who began it. */
typedef struct wz_event {
    uint32_t kind;       /* enum wz_kinds */
    uint32_t enlistment;
    uint32_t outcome;    /* enum wz_outcomes; of WZ_TOLD alone, else 0 */
} wz_event;

/* A request to the file of the log. */
typedef struct wz_work {
    uint32_t kind;       /* enum wz_works */
    uint64_t at;         /* of a write: where it begins in the file */
    uint64_t length;     /* of a write: how many bytes it has */
} wz_work;

/*
 * What a call answers. All calls on a handle that isn't open but wz_open answer WZ_CLOSED, and each
 * call may answer WZ_MEMORY; so the comments of the functions don't repeat these two.
 */
enum wz_answers {
    WZ_OK = 0,
    WZ_NOTHING = 1,      /* nothing is pending */
    WZ_DISK = 2,         /* nothing was done: first wz_disk until WZ_NOTHING */
    WZ_CLOSED = -1,      /* the handle isn't open */
    WZ_MEMORY = -2,      /* out of memory */
    WZ_NO_LOG = -3,      /* these bytes are no log */
    WZ_MANY = -4,        /* no number is left */
    WZ_NO_SUCH = -5,     /* no transaction, enlistment, clone or manager has this number */
    WZ_UNASKED = -6,     /* no such reply is due, or these aren't the bytes that were asked for */
    WZ_LIVE = -7,        /* the transaction goes on */
    WZ_LOG_FULL = -8,    /* the log has no room for the record of an epoch */
    WZ_UNKNOWN = -9,     /* no such word: neither 0 nor 1, or no reply of the list */
    WZ_OPEN = -10,       /* the handle is open already */
    WZ_LOG_STOPPED = -11, /* the log's disk failed: close, and recover */

    /* The transaction refused the call. WZ_REFUSED itself is no answer; WZ_REFUSED - n are. */
    WZ_REFUSED = -20,
    WZ_REFUSED_FALSE = -22,      /* no */
    WZ_REFUSED_NOT_BEGUN = -29,  /* it hasn't begun */
    WZ_REFUSED_ENDED = -30,      /* it has ended */
    WZ_REFUSED_TOO_LATE = -31,   /* it is too late for this: the commit has gone on */
    WZ_REFUSED_MANY = -32,       /* it has as many enlistments or clones as there may be */
    WZ_REFUSED_ALREADY = -34,    /* that was done already */
    WZ_REFUSED_FINISHED = -35,   /* that is finished */
    WZ_REFUSED_OVER = -36,       /* that is over */
    WZ_REFUSED_CONNECTED = -37,  /* it is connected */
    WZ_REFUSED_STOPPED = -38     /* it is stopped */
};

/* What an event is. Each says which replies are due. */
enum wz_kinds {
    WZ_INIT = 1,         /* to a promotable that was taken: its own transaction begins. None. */
    WZ_PREPARE = 2,      /* make the work ready to commit. WZ_YES, WZ_NO or WZ_DONE */
    WZ_PROMOTE = 3,      /* to a promotable: promote. WZ_PROMOTED or WZ_NOT_PROMOTED */
    WZ_HAND = 4,         /* the decision is handed to you: decide it. WZ_OWN_... */
    WZ_SINGLE = 5,       /* to a promotable that was promoted: is it to commit? WZ_OWN_... */
    WZ_TOLD = 6          /* this is the outcome. WZ_ACK, of a durable that is told committed */
};

/* What came of a transaction. */
enum wz_outcomes {
    WZ_COMMITTED = 1,
    WZ_ABORTED = 2,
    WZ_IN_DOUBT = 3      /* who was to decide hasn't said */
};

/* Replies. */
enum wz_replies {
    WZ_YES = 1,          /* to WZ_PREPARE: it can commit, and can roll back, also after a crash */
    WZ_NO = 2,           /* to WZ_PREPARE: it rolls back */
    WZ_DONE = 3,         /* to WZ_PREPARE: it has nothing to commit, and wants to hear no more */
    WZ_ACK = 4,          /* of a durable enlistment that was told committed: its work lasts */
    WZ_OWN_COMMITTED = 5,
    WZ_OWN_ABORTED = 6,
    WZ_OWN_IN_DOUBT = 7,
    WZ_PROMOTED = 8,
    WZ_NOT_PROMOTED = 9
};

/* What a request is. */
enum wz_works {
    WZ_WRITE = 1,        /* write the bytes that wz_bytes gives */
    WZ_ZEROS = 2,        /* write length zeros; wz_bytes has none of them */
    WZ_SYNC = 3          /* make lasting what was written; at and length mean nothing */
};

/* ------------------------------------------------------------------ the log, and recovery */

/*
 * Opens a handle over the log of an earlier life, whose bytes are only read, or with length 0 over
 * an empty log. The disk has work then in any case. A log that was being formatted at a crash is
 * WZ_NO_LOG: the host may go on with length 0 only where no resource manager has prepared work.
 * WZ_OK, WZ_OPEN, WZ_NO_LOG.
 */
int32_t wz_open(wz *handle, const uint8_t *log, size_t length);

/*
 * What the log says of an enlistment of an earlier life: committed exactly where a record names it,
 * and else aborted, since to who had prepared no record means abort. Who was handed the commit
 * (WZ_HAND) hadn't, and doesn't ask: it knows what it decided. To be asked before wz_recovered of
 * its resource manager. Of a transaction that goes on it says nothing: its record may be to come.
 * WZ_OK, WZ_DISK, WZ_NO_SUCH (no enlistment can have this number).
 */
int32_t wz_outcome(wz *handle, uint64_t tx, uint32_t enlistment, uint32_t *outcome);

/*
 * The resource manager, from 1 to 16, has asked for all that it had prepared in earlier lives, and
 * its work lasts. A record is freed once each resource manager that it names has recovered; the
 * disk may have work.
 * WZ_OK, WZ_DISK, WZ_NO_SUCH, WZ_LOG_STOPPED.
 */
int32_t wz_recovered(wz *handle, uint32_t rm);

/*
 * Begins an epoch, which the numbers of transactions belong to; the disk has work then. So no
 * number comes twice in the life of a log. Records of earlier epochs stay.
 * WZ_OK, WZ_DISK, WZ_MANY (no epoch is left), WZ_LOG_FULL, WZ_LOG_STOPPED.
 */
int32_t wz_start(wz *handle);

/*
 * The next request to the file. The one before is done then: asked again, this is the one after.
 * WZ_OK, WZ_NOTHING (all were done).
 */
int32_t wz_disk(wz *handle, wz_work *work);

/*
 * The bytes of the request that wz_disk gave last, a WZ_WRITE; length is that of the request. Most
 * writes have 512 bytes, but a host takes any length.
 * WZ_OK, WZ_UNASKED.
 */
int32_t wz_bytes(wz *handle, uint8_t *into, size_t length);

/*
 * Closes the handle and frees its memory. A transaction that goes on is forgotten, as by a crash;
 * and so is a request that wasn't done.
 * WZ_OK.
 */
int32_t wz_close(wz *handle);

/* --------------------------------------------------------------------------- transactions */

/*
 * Begins a transaction, with a timeout in milliseconds; 0 is ten minutes. The number never comes
 * again in the life of the log. At most 256 go on at once. Where an epoch has to begin first, the
 * answer is WZ_DISK: it has begun then, so do the disk and call again.
 * WZ_OK, WZ_DISK, WZ_MANY, WZ_LOG_FULL, WZ_LOG_STOPPED.
 */
int32_t wz_begin(wz *handle, uint32_t milliseconds, uint64_t *tx);

/*
 * Enlists what lives only as long as the process, such as a cache. during_prepare 1: it is asked to
 * prepare ahead of the others, and may enlist more while it does; 0: along with them.
 * WZ_OK, WZ_NO_SUCH, WZ_UNKNOWN, WZ_REFUSED - n.
 */
int32_t wz_enlist_volatile(wz *handle, uint64_t tx, uint32_t during_prepare,
                           uint32_t *enlistment);

/*
 * Enlists what outlives the process. rm is the number of its resource manager, from 1 to 16, the
 * same in each life: the log's records name it. Where the transaction is to be promoted first, as
 * by a second durable, the enlistment is made once that is done, in wz_next. single 1: it can
 * commit in a single phase, where it is the only durable one; 0: it can't.
 * WZ_OK, WZ_NO_SUCH, WZ_UNKNOWN, WZ_REFUSED - n.
 */
int32_t wz_enlist_durable(wz *handle, uint64_t tx, uint32_t rm, uint32_t single,
                          uint32_t *enlistment);

/*
 * Enlists a resource manager that has the transaction as its own one, until a second durable
 * enlistment or an identifier makes it promote it. It is asked to WZ_INIT first. WZ_OK with
 * enlistment 0: it wasn't taken, since another resource is enlisted.
 * WZ_OK, WZ_NO_SUCH, WZ_REFUSED - n.
 */
int32_t wz_enlist_promotable(wz *handle, uint64_t tx, uint32_t rm, uint32_t *enlistment);

/*
 * Makes a dependent clone, for a part of the work that somebody else does. rollback 0: the commit
 * waits until the clone is complete; 1: the transaction rolls back where it isn't by then.
 * WZ_OK, WZ_NO_SUCH, WZ_UNKNOWN, WZ_REFUSED - n.
 */
int32_t wz_clone(wz *handle, uint64_t tx, uint32_t rollback, uint32_t *clone);

/* The part of the work that the clone is for is done. WZ_OK, WZ_NO_SUCH, WZ_REFUSED - n. */
int32_t wz_complete(wz *handle, uint64_t tx, uint32_t clone);

/*
 * The identifier for other processes, 16 bytes, the most significant first. It promotes the
 * transaction: while that goes on the answer is WZ_NOTHING; call again once wz_next says
 * WZ_NOTHING.
 * WZ_OK, WZ_NOTHING, WZ_NO_SUCH, WZ_REFUSED - n.
 */
int32_t wz_identifier(wz *handle, uint64_t tx, uint8_t *sixteen);

/*
 * Asks for the commit. WZ_OK says only that it was asked for: what comes of it is in wz_next, as
 * WZ_TOLD to enlistment 0, or in wz_told.
 * WZ_OK, WZ_NO_SUCH, WZ_REFUSED - n.
 */
int32_t wz_commit(wz *handle, uint64_t tx);

/* Rolls back. WZ_OK, WZ_NO_SUCH, WZ_REFUSED - n (it is too late for it). */
int32_t wz_rollback(wz *handle, uint64_t tx);

/*
 * So many milliseconds went by. Where the transaction's time is over and its outcome isn't decided,
 * it rolls back: wz_next has what comes of it.
 * WZ_OK, WZ_NO_SUCH, WZ_REFUSED - n.
 */
int32_t wz_tick(wz *handle, uint64_t tx, uint32_t milliseconds);

/*
 * The connection to an enlistment broke: what it was asked gets no reply any more.
 * WZ_OK, WZ_NO_SUCH, WZ_REFUSED - n.
 */
int32_t wz_lost(wz *handle, uint64_t tx, uint32_t enlistment);

/*
 * The next event of a transaction: none comes twice, and none is left out.
 * WZ_OK, WZ_NOTHING (but a reply may be awaited), WZ_DISK, WZ_NO_SUCH.
 */
int32_t wz_next(wz *handle, uint64_t tx, wz_event *event);

/*
 * The reply of an enlistment, now or later. Nothing comes back for a WZ_ACK. Of an enlistment that
 * there isn't no reply is due.
 * WZ_OK, WZ_NO_SUCH (no enlistment can have this number), WZ_UNKNOWN, WZ_UNASKED.
 */
int32_t wz_reply(wz *handle, uint64_t tx, uint32_t enlistment, uint32_t reply);

/*
 * What the client was told, or 0 where it wasn't told yet.
 * WZ_OK, WZ_DISK, WZ_NO_SUCH.
 */
int32_t wz_told(wz *handle, uint64_t tx, uint32_t *outcome);

/*
 * Forgets a transaction that is over: the client was told, nothing is pending, and each durable
 * enlistment that was told committed has acknowledged it. Its place is free for another one.
 * WZ_OK, WZ_NO_SUCH, WZ_LIVE.
 */
int32_t wz_end(wz *handle, uint64_t tx);

#ifdef __cplusplus
}
#endif

/* ------------------------------------------- the log's file on a POSIX system: define WZ_POSIX */

#ifdef WZ_POSIX
#include <errno.h>
#include <stdlib.h>
#include <unistd.h>

/* Writes all of it, also where the system writes it in pieces. 0, or -1 with errno. */
static inline int wz_posix_write(int fd, const uint8_t *from, uint64_t length, uint64_t at)
{
    uint64_t done = 0;
    while (done < length) {
        ssize_t n = pwrite(fd, from + done, (size_t)(length - done), (off_t)(at + done));
        if (n > 0) {
            done += (uint64_t)n;
        } else if (n == 0) {
            errno = EIO;
            return -1;
        } else if (errno != EINTR) {
            return -1;
        }
    }
    return 0;
}

/* Writes zeros. 0, or -1 with errno. */
static inline int wz_posix_zeros(int fd, uint64_t length, uint64_t at)
{
    static const uint8_t zeros[4096] = {0};
    uint64_t done = 0;
    while (done < length) {
        uint64_t piece = length - done < sizeof zeros ? length - done : sizeof zeros;
        if (wz_posix_write(fd, zeros, piece, at + done)) return -1;
        done += piece;
    }
    return 0;
}

/* Takes the bytes of a write and writes them. 0, -1 with errno, or what the library answers. */
static inline int wz_posix_bytes(wz *handle, int fd, uint64_t length, uint64_t at)
{
    uint8_t few[512];
    uint8_t *bytes = length <= sizeof few ? few : (uint8_t *)malloc((size_t)length);
    int result;
    if (!bytes) return -1;
    result = (int)wz_bytes(handle, bytes, (size_t)length);
    if (result == WZ_OK) result = wz_posix_write(fd, bytes, length, at);
    if (bytes != few) free(bytes);
    return result;
}

/*
 * Does all that the log asks of its disk, with pwrite and fsync. 0: done. -1: a call of the system
 * failed, and errno has why (EBADF also where the handle is closed); the host then closes the
 * handle and recovers, and asks for no further request. Else what the library answers.
 */
static inline int wz_do_disk(wz *handle, int fd)
{
    wz_work work;
    int32_t answer;
    while ((answer = wz_disk(handle, &work)) == WZ_OK) {
        int result = 0;
        if (work.kind == WZ_SYNC) result = fsync(fd);
        else if (work.kind == WZ_ZEROS) result = wz_posix_zeros(fd, work.length, work.at);
        else result = wz_posix_bytes(handle, fd, work.length, work.at);
        if (result) return result;
    }
    if (answer == WZ_CLOSED) errno = EBADF;
    return answer == WZ_NOTHING ? 0 : (int)answer;
}
#endif /* WZ_POSIX */

#endif /* WIRTOZHAK_H */
