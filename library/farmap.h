/* farmap: a concurrent map of byte strings that may be larger than its memory.
 *
 * What is in use stays in memory, and everything else goes to scratch files in folders that you name. The
 * map exists as long as it is open, and is gone afterwards. It is no database.
 *
 *     farmap *map;
 *     char reason[FARMAP_REASON];
 *     farmap_options options = { .memory = 256 << 20 };
 *     if (farmap_open(&options, &map, reason, sizeof reason) != FARMAP_OK) {
 *         fprintf(stderr, "%s\n", reason);
 *         exit(1);
 *     }
 *     farmap_session *session;
 *     farmap_session_open(map, &session);
 *     farmap_put(session, farmap_string("planet"), farmap_string("Saturn"), NULL);
 *     farmap_bytes value;
 *     if (farmap_get(session, farmap_string("planet"), &value) == FARMAP_OK)
 *         printf("%.*s\n", (int)value.length, (const char *)value.data);
 *     farmap_session_close(session);
 *     farmap_close(map);
 *
 * # Keys and values
 *
 * A key has at most 65,535 bytes, and a value at most 16 MiB less the bytes of its key and 10 more. Both may
 * have any bytes, and may be empty. Keys with the same hash share a bucket, and all pairs of a bucket have at
 * most 16 MiB together. The hash has no secret: do not let strangers choose the keys of a large map freely.
 *
 * # Threads
 *
 * - A map may be used by all threads. Each thread that makes calls needs a session of its own.
 * - A session is one thread's at a time. A call that meets another call of the same session returns
 *   FARMAP_BUSY. It did nothing then.
 * - A signal handler may run during a call, but must make none: calls allocate memory. One on the session
 *   that it has interrupted returns FARMAP_BUSY.
 * - A session may be handed from one thread to another between two calls.
 * - farmap_close returns FARMAP_BUSY while a session is in a call, and closes nothing then. A call that
 *   meets it returns FARMAP_CLOSED. After FARMAP_OK the map and its sessions must not be used any more.
 * - In the child of a fork each call returns FARMAP_FORKED. The parent goes on. A child that calls exec is
 *   not affected.
 * - Do not leave a call by longjmp, by a C++ exception of a signal handler, or by the end of the thread: its
 *   session would stay busy. A cancelled thread is ended after the call.
 *
 * # Answers
 *
 * The bytes that a call returns belong to the session. They stay as they are until its next call, also if the
 * key is changed meanwhile. farmap_reason is about the last call, too.
 *
 * # What the library leaves alone
 *
 * It installs no signal handlers, and its own threads block all signals. It never ends the process, and does
 * not read the program's arguments or standard input. It writes nothing to standard output and standard error.
 */
#ifndef FARMAP_H
#define FARMAP_H

#include <stddef.h>
#include <stdint.h>
#include <string.h>

#ifdef __cplusplus
extern "C" {
#endif

#if defined(__GNUC__)
#define FARMAP_API __attribute__((visibility("default")))
#else
#define FARMAP_API
#endif

#define FARMAP_VERSION "0.4.0"

/* The longest key. */
#define FARMAP_LONGEST_KEY 65535

/* Room for the text that farmap_open writes. */
#define FARMAP_REASON 512

typedef struct farmap farmap;
typedef struct farmap_session farmap_session;

/* What a call returns. farmap_text has each in words. */
typedef enum farmap_status {
    /* It was done. */
    FARMAP_OK = 0,
    /* The key has no value, or there is nothing to do or to visit any more. Nothing was changed. */
    FARMAP_NONE = 1,
    /* The key has another value than the expected one. Nothing was changed. */
    FARMAP_OTHER = 2,

    /* Errors. The map is as it was, except after FARMAP_LOST. */

    /* The key is longer than FARMAP_LONGEST_KEY. */
    FARMAP_KEY_TOO_LONG = 16,
    /* The value is longer than 16 MiB. */
    FARMAP_VALUE_TOO_LONG = 17,
    /* The pairs of the key's bucket would be longer than 16 MiB. */
    FARMAP_BUCKET_TOO_LONG = 18,
    /* farmap_get_many: the values have more than 64 MiB, or there are more than 65,535 keys. */
    FARMAP_ANSWER_TOO_LONG = 19,
    /* The memory is full, and nothing can be moved out of it. */
    FARMAP_FULL = 20,
    /* A device failed, for example because its disk is full. farmap_reason has the device's reason. */
    FARMAP_DEVICE = 21,
    /* A device gave back other bytes than were written. */
    FARMAP_DAMAGED = 22,
    /* The system refused memory. */
    FARMAP_MEMORY = 23,
    /* The change was made, but the system refused memory for the answer. */
    FARMAP_LOST = 24,
    /* The map is being renewed again and again. Try again. */
    FARMAP_RENEWING = 25,
    /* Another call of the session is not over; or the map has a session in a call. */
    FARMAP_BUSY = 26,
    /* All sessions of the map are taken. */
    FARMAP_NO_SESSION = 27,
    /* The process is the child of a fork. */
    FARMAP_FORKED = 28,
    /* The map is being closed. */
    FARMAP_CLOSED = 29,
    /* The map or this session has ended by a fault. farmap_reason says which. */
    FARMAP_ENDED = 30,
    /* An argument is wrong, for example NULL. */
    FARMAP_ARGUMENT = 31,
    /* The system refused something else, for example a thread. */
    FARMAP_SYSTEM = 32,
    /* The map could not be opened as the options say. The reason says why. */
    FARMAP_OPTIONS = 33
} farmap_status;

/* Bytes that are lent. If there are none, as for a key without a value, data is NULL. */
typedef struct farmap_bytes {
    const void *data;
    size_t length;
} farmap_bytes;

typedef struct farmap_pair {
    farmap_bytes key;
    farmap_bytes value;
} farmap_pair;

/* Set what you need, and leave the rest 0. */
typedef struct farmap_options {
    /* Bytes of memory that the map may take; 0 for 256 MiB. Answers and values in calls come in addition. */
    uint64_t memory;
    /* How many pairs are expected; 0 if you don't know. More may be put. */
    uint64_t pairs;
    /* Folders for scratch files with what has no room in memory, the last one followed by NULL. NULL for none:
     * then calls that need more memory return FARMAP_FULL. Take folders on a local disk. */
    const char *const *folders;
    /* How many sessions there are, that is how many threads may use the map at once: 1 to 256. 0 for one for
     * each processor. Each takes about 512 KiB of the memory, and a thread that mostly sleeps. */
    uint32_t sessions;
    /* FARMAP_HANDSHAKE, or 0. */
    uint32_t flags;
    /* After how many changes and moves the map is renewed; 0 for 2^40 - 1, which is right for everything but
     * trials. */
    uint64_t names;
    uint64_t reserved[3];
} farmap_options;

/* Has calls made by the map's own threads, which a call wakes and waits for. It is slower. A build without the
 * switch of stacks always does so, and so does a process with a shadow stack. */
#define FARMAP_HANDSHAKE 1u

/* What a session has counted, and what is known of the map. No number is exact while other calls are made. */
typedef struct farmap_stats {
    /* Calls of this session that were finished. */
    uint64_t gets, puts, removes, put_ifs;
    /* Calls of this session that were refused. */
    uint64_t too_long, full, names_spent, device, damaged, memory;
    /* What calls of this session read in memory and on devices, and moved. */
    uint64_t local_reads, far_reads, swap_ins, swap_outs, device_failures;
    /* The map: pairs, bytes of objects in memory and the bound of these, and the number of buckets. */
    uint64_t pairs, bytes_in_memory, most_bytes_in_memory, buckets;
    /* Changes and moves until the next renewal, how many renewals there were, and what was lost by them. */
    uint64_t names_left, renewals, lost_pairs, lost_buckets;
} farmap_stats;

/* The bytes of a string, without its NUL. */
static inline farmap_bytes farmap_string(const char *text) {
    farmap_bytes bytes = { text, strlen(text) };
    return bytes;
}

/* Opens a map. If it returns no FARMAP_OK, *map is NULL, and reason has a text if it has room for one
 * (FARMAP_REASON bytes are enough). reason may be NULL. */
FARMAP_API farmap_status farmap_open(const farmap_options *options, farmap **map, char *reason, size_t reason_size);

/* Closes a map, and frees its memory. Its scratch files are gone, too. */
FARMAP_API farmap_status farmap_close(farmap *map);

/* How many sessions the map has. */
FARMAP_API uint32_t farmap_sessions(const farmap *map);

/* Takes a session that is free. FARMAP_NO_SESSION if all are taken. */
FARMAP_API farmap_status farmap_session_open(farmap *map, farmap_session **session);

/* Gives a session back. FARMAP_BUSY if it is in a call. */
FARMAP_API farmap_status farmap_session_close(farmap_session *session);

/* The value of a key, or FARMAP_NONE. */
FARMAP_API farmap_status farmap_get(farmap_session *session, farmap_bytes key, farmap_bytes *value);

/* The values of several keys: values[i] is that of keys[i]. Each is a get, so the whole is not one moment. */
FARMAP_API farmap_status farmap_get_many(farmap_session *session, const farmap_bytes *keys, size_t count,
                                         farmap_bytes *values);

/* FARMAP_OK if the key has a value, otherwise FARMAP_NONE. */
FARMAP_API farmap_status farmap_contains(farmap_session *session, farmap_bytes key);

/* Sets a key. *before becomes the value before, with data NULL if there was none. before may be NULL, which is
 * faster. */
FARMAP_API farmap_status farmap_put(farmap_session *session, farmap_bytes key, farmap_bytes value, farmap_bytes *before);

/* Sets a key if it has no value. Otherwise FARMAP_OTHER, and *found is its value. found may be NULL. */
FARMAP_API farmap_status farmap_put_new(farmap_session *session, farmap_bytes key, farmap_bytes value,
                                        farmap_bytes *found);

/* Sets a key if it has the expected value. Otherwise FARMAP_OTHER, and *found is its value; or FARMAP_NONE if it has
 * no value. found may be NULL. */
FARMAP_API farmap_status farmap_put_if(farmap_session *session, farmap_bytes key, farmap_bytes expected,
                                       farmap_bytes value, farmap_bytes *found);

/* Removes a key. FARMAP_NONE if it had no value. */
FARMAP_API farmap_status farmap_remove(farmap_session *session, farmap_bytes key);

/* Removes a key, and returns its value. FARMAP_NONE if it had none. */
FARMAP_API farmap_status farmap_take(farmap_session *session, farmap_bytes key, farmap_bytes *value);

/* Removes a key if it has the expected value. Otherwise as farmap_put_if. */
FARMAP_API farmap_status farmap_remove_if(farmap_session *session, farmap_bytes key, farmap_bytes expected,
                                          farmap_bytes *found);

/* Visits all pairs, those of one bucket at a time. Set *cursor to 0 first. The pairs of one bucket are of one
 * moment, and other calls may change later buckets meanwhile. FARMAP_NONE after the last one. A renewal between
 * two of these calls does not disturb a visit: buckets keep their numbers. */
FARMAP_API farmap_status farmap_visit(farmap_session *session, uint64_t *cursor, const farmap_pair **pairs,
                                      size_t *count);

/* How many pairs there are. It is exact while no other call is made. */
FARMAP_API farmap_status farmap_length(farmap_session *session, uint64_t *length);

FARMAP_API farmap_status farmap_count(farmap_session *session, farmap_stats *stats);

/* Moves one object to a device. FARMAP_NONE if there is none to move. The map does so by itself. */
FARMAP_API farmap_status farmap_evict(farmap_session *session);

/* A status in words. */
FARMAP_API const char *farmap_text(farmap_status status);

/* Why the session's last call returned an error, in words. It has the device's reason if that is known. "" after
 * a call that returned none. */
FARMAP_API const char *farmap_reason(const farmap_session *session);

/* Whether the library was made from a proved program: 1 or 0. */
FARMAP_API int farmap_is_proved(void);

#ifdef __cplusplus
}
#endif

#endif
