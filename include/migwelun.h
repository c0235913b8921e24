/*
 * Migwelun: a coordinator of Kafka consumer groups (KIP-848) inside another program.
 *
 * Frames come in as bytes, with a stamp and a moment, and the bytes of replies go out. The library opens no socket, starts no
 * thread, takes no lock and reads no clock. docs/EMBEDDING.md has examples, and what is proved of each function.
 *
 * A slot has a coordinator, whose groups end with it, or a replica: a coordinator that applies the entries of a log that the caller
 * keeps, so that its groups are there wherever the log is.
 *
 * The caller has to keep these rules. Nothing checks them, and the proofs rest on them:
 *
 *   - A slot is zeros before its first call. Afterwards the caller neither writes to it, nor copies it and uses the copy.
 *   - A slot is given to one call at a time. It may go from thread to thread if the program orders that, by a lock for instance.
 *   - No pointer is null, even if a length is 0, and the memory of two pointers of one call does not overlap.
 *   - No call comes from a signal handler, or from the forked child of a program with threads.
 *   - Text is bytes without a zero at the end.
 *
 * A call that returns MIGWELUN_NO_MEMORY has changed nothing, and may be repeated. Below, results are named without their prefix.
 */
#ifndef MIGWELUN_H
#define MIGWELUN_H

#include <stddef.h>
#include <stdint.h>

#ifdef __cplusplus
extern "C" {
#endif

enum {
    MIGWELUN_DONE = 0,
    MIGWELUN_CLOSES = 1, /* nothing is replied, and the connection is to be closed */

    MIGWELUN_NO = 0,  /* migwelun_remembers */
    MIGWELUN_YES = 1, /* migwelun_remembers */

    MIGWELUN_DUPLICATE_NAME = 1, /* migwelun_set_topics: two topics have the same name */
    MIGWELUN_DUPLICATE_ID = 2,   /* .. the same id */
    MIGWELUN_TOO_MANY = 3,       /* .. more than 10,000 topics, or more than 1,000,000 partitions */
    MIGWELUN_BAD_COUNT = 4,      /* .. a topic has fewer than 1 partition, or more than 100,000 */

    /* why a replica passes an entry over, or applies or proposes none */
    MIGWELUN_OUT_OF_PLACE = 2,     /* the place is not the next one of the log */
    MIGWELUN_OTHER_LEADERSHIP = 3, /* it is not of the present leadership, or begins another one than the next */
    MIGWELUN_EARLIER_MOMENT = 4,   /* its moment is before the greatest of the log */
    MIGWELUN_NOT_LEADING = 5,      /* this replica does not lead */
    MIGWELUN_BAD_FIELD = 11,       /* a field is no value of its type, or a name is too long */
    MIGWELUN_UNKNOWN_VERSION = 12, /* a later library knows it */
    MIGWELUN_UNKNOWN_KIND = 13,
    MIGWELUN_BAD_NUMBER = 14, /* a number is negative, or too great for its field */
    MIGWELUN_BAD_BODY = 15,   /* the body has a length that no frame has */
    MIGWELUN_LEFT_OVER = 16,  /* bytes are left after the last field */
    MIGWELUN_BAD_TOPICS = 20, /* and one of the four of migwelun_set_topics: 21 to 24 */

    /* why bytes are no snapshot */
    MIGWELUN_BAD_SNAPSHOT_FIELD = 31, /* a field is cut, or no value of its type */
    MIGWELUN_BAD_VALUE = 32,          /* a field has a value that it can't have */
    MIGWELUN_UNSOUND = 33,            /* no log leads to this state */
    MIGWELUN_RESPELLED = 34,          /* it is another encoding of a state, or bytes are left after it */
    MIGWELUN_TOO_LONG = 35,           /* migwelun_snapshot: a number or a length is too great for its field */

    MIGWELUN_EMPTY = -1,     /* the slot is empty, or of the other kind */
    MIGWELUN_NO_MEMORY = -2, /* malloc or realloc gave none */
    MIGWELUN_FULL = -3,      /* the slot has a coordinator or a replica already */
    MIGWELUN_SHORT = -4,     /* the buffer is too short */
    MIGWELUN_NOT_TEXT = -5,  /* a name is not UTF-8 */
    MIGWELUN_NO_MEMBER = -6, /* there is no such group, or no such member in it */
    MIGWELUN_NO_OFFSET = -7  /* nothing was committed there */
};

/* A place for a coordinator or a replica. The caller owns these 16 bytes; the coordinator itself is on the heap. */
typedef struct {
    void *at;
    unsigned char full;
} migwelun_slot;

/*
 * Makes a coordinator without groups and topics in an empty slot. The salt is the first half of the member ids that it makes: take
 * one that was not used before, such as a random number. The 16 bytes of `keys` are random and unknown to clients; they key the hash
 * tables. They are read during the call only.
 *
 * Returns DONE; FULL, and the slot is as it was; or NO_MEMORY, and the slot is empty. migwelun_drop frees it.
 */
int32_t migwelun_make(migwelun_slot *slot, uint64_t salt, const uint8_t keys[16]);

/*
 * Frees the coordinator or the replica, with the replies that were not taken, the topics that were not set and the entry that was not
 * taken. The slot is empty then, and may be used again. Does nothing in an empty slot.
 */
void migwelun_drop(migwelun_slot *slot);

/*
 * Answers the body of one frame: `length` bytes, without the four bytes of its size. They are read during the call only. A body is a
 * ConsumerGroupHeartbeat of version 0 or an OffsetCommit of version 9; any other body closes the connection.
 *
 * `connection` and `frame` are the frame's stamp: the number of its connection, in the order in which connections were accepted, and
 * the number of the frame on it, in the order in which they came. `moment` is the time at which it came, in milliseconds since any fixed
 * time, by a clock that doesn't go back.
 *
 * Returns DONE, and one frame with its size was appended to the replies that wait for migwelun_take; CLOSES, and nothing was appended or
 * has changed; NO_MEMORY; or EMPTY, also of a replica.
 */
int32_t migwelun_answer(migwelun_slot *slot, const uint8_t *body, size_t length, uint64_t connection, uint64_t frame,
                        uint64_t moment);

/*
 * Moves the replies that wait into a buffer of `room` bytes: the frames of all migwelun_answer or migwelun_apply since the last take,
 * in their order, or nothing if none waits. Writes their number of bytes to `size`.
 *
 * Returns DONE; SHORT, and neither the buffer nor the waiting replies have changed: take again with room for `size` bytes; or EMPTY, and
 * `size` is as it was.
 */
int32_t migwelun_take(migwelun_slot *slot, uint8_t *to, size_t room, size_t *size);

/*
 * Tells the time: removes the members whose session or rebalance timeout is over. Call it about twice a second. Writes the number of
 * removed members to `removed`.
 *
 * Returns DONE; or EMPTY, also of a replica, and `removed` is as it was. It takes no memory.
 */
int32_t migwelun_tick(migwelun_slot *slot, uint64_t moment, size_t *removed);

/*
 * Adds a topic to those that migwelun_set_topics will set, or migwelun_propose_topics propose: its name, a text of `length` bytes; its
 * id; and its number of partitions. Name and id are copied. migwelun_set_topics tells the faults of topics.
 *
 * Returns DONE, NOT_TEXT, NO_MEMORY or EMPTY. Unless it is DONE, the topic was not added.
 */
int32_t migwelun_add_topic(migwelun_slot *slot, const uint8_t *name, size_t length, const uint8_t id[16], int32_t partitions);

/*
 * Sets the topics of the cluster: those that were added since the last call of this, and no others, so add all of them each time.
 * A group takes them over at its members' next heartbeats.
 *
 * Returns DONE; a fault of 1 to 4, and the topics of the cluster are as they were; NO_MEMORY, and they are, too; or EMPTY, also of a
 * replica. The topics that were added are gone then, but after NO_MEMORY they stay, and the call may be repeated.
 */
int32_t migwelun_set_topics(migwelun_slot *slot);

/*
 * Whether a group has a member, or remembers it as one that left or was removed. Changes nothing, and takes no memory.
 *
 * Returns YES, NO, NOT_TEXT or EMPTY.
 */
int32_t migwelun_remembers(migwelun_slot *slot, const uint8_t *group, size_t group_length, const uint8_t *member,
                           size_t member_length);

/*
 * Writes a member's epoch to `epoch`, and the epoch before it to `previous`. A static member that is away has the epoch -2. Changes
 * nothing else, and takes no memory.
 *
 * Returns DONE, NO_MEMBER, NOT_TEXT or EMPTY. Unless it is DONE, `epoch` and `previous` are as they were.
 */
int32_t migwelun_epochs(migwelun_slot *slot, const uint8_t *group, size_t group_length, const uint8_t *member,
                        size_t member_length, int32_t *epoch, int32_t *previous);

/*
 * Writes the last offset that a group committed for a partition of a topic, the epoch of the partition's leader (-1 if the client didn't
 * know it), and the client's metadata into a buffer of `room` bytes, with its length in `size`. If there is no metadata, `size` is
 * SIZE_MAX. Changes nothing else, and takes no memory.
 *
 * Returns DONE; NO_OFFSET; SHORT, and only `size` is written: 4,096 bytes are always enough; NOT_TEXT; or EMPTY.
 */
int32_t migwelun_committed(migwelun_slot *slot, const uint8_t *group, size_t group_length, const uint8_t *topic, size_t topic_length,
                           int32_t index, int64_t *offset, int32_t *leader_epoch, uint8_t *metadata, size_t room, size_t *size);

/*
 * Replicas. The caller keeps one log of entries, which only grows at its end: a file on one machine, or an engine such as etcd that
 * replicates it over several. Each replica of the log applies its entries in their order, from the first one on. The leading replica makes
 * entries of the frames that come to it, appends them to the log, and answers a frame only once its entry was applied. Then no machine
 * that has the log ever gives another reply for an entry, and a leader that was replaced can't answer.
 *
 * To lead, a replica applies the log to its end, appends the entry of migwelun_lead, applies it, and calls migwelun_begin.
 */

/*
 * Makes a replica that has applied no entry in an empty slot. The salt is the same in all replicas of a log; the keys are as in
 * migwelun_make, and needn't be the same.
 *
 * Returns DONE; FULL, and the slot is as it was; or NO_MEMORY, and the slot is empty. migwelun_drop frees it.
 */
int32_t migwelun_make_replica(migwelun_slot *slot, uint64_t salt, const uint8_t keys[16]);

/*
 * Makes a replica of a snapshot in an empty slot: `length` bytes, all parts of migwelun_snapshot one after the other. It has applied
 * exactly what the replica had that wrote the snapshot, and doesn't lead; its own snapshot has the same bytes. Apply the log after its
 * place. The keys are as in migwelun_make. Whatever the bytes are, the replica is sound, or there is none. But give it only bytes that a
 * replica wrote: a few others can ask for much memory.
 *
 * Returns DONE; FULL, and the slot is as it was; 31 to 34, and the number of the wrong byte is in `at`; or NO_MEMORY. Unless it is
 * DONE or FULL, the slot is empty. migwelun_drop frees it.
 */
int32_t migwelun_restore(migwelun_slot *slot, const uint8_t *snapshot, size_t length, const uint8_t keys[16], size_t *at);

/*
 * Writes a part of the replica's snapshot: sections from number `from` on, until there are `size` bytes of them or none is left. Section
 * 0 is the head, and each further one a group. The part waits for migwelun_take_entry, in place of an entry that was not taken. Writes the
 * number of the next section to `next`. Begin with 0, go on with `next`, and end when the part has no byte: so a snapshot needs no more
 * memory than its largest part. `place` is that of migwelun_place at the beginning: between the parts the replica applies nothing.
 *
 * Returns DONE; OUT_OF_PLACE if the replica has applied an entry meanwhile: begin again; TOO_LONG if a text has over 32,767 bytes, if a
 * count is too great for its field, if a partition's index is outside 0 to 99,999, or if metadata has over 4,096 bytes; NO_MEMORY; or
 * EMPTY. Unless it is DONE, `next` is as it was.
 */
int32_t migwelun_snapshot(migwelun_slot *slot, uint64_t place, size_t from, size_t size, size_t *next);

/*
 * Writes the number of applied entries, the number of the last leadership that began, and the greatest moment of an entry. Changes
 * nothing else, and takes no memory.
 *
 * Returns DONE; or EMPTY, and nothing is written.
 */
int32_t migwelun_place(migwelun_slot *slot, uint64_t *applied, uint32_t *leadership, uint64_t *moment);

/*
 * Proposes that the next leadership begins. Its entry waits for migwelun_take_entry.
 *
 * Returns DONE; BAD_NUMBER after 2,147,483,647 leaderships; NO_MEMORY; or EMPTY.
 */
int32_t migwelun_lead(migwelun_slot *slot);

/*
 * This replica leads from here on, until another leadership begins. Its own entry of the present leadership has to be applied. `clock` is
 * the time of a clock of this machine that isn't set back, in milliseconds. The replica's moments go on from the greatest one of the log,
 * whatever the clock shows, so clocks of two machines are never compared. It takes no memory.
 *
 * Returns DONE or EMPTY.
 */
int32_t migwelun_begin(migwelun_slot *slot, uint64_t clock);

/*
 * Proposes the entry of a frame: its body, as in migwelun_answer, the number of its connection under this leadership, in the order of
 * acceptance, at most 2,147,483,647, and the number of the frame on it. Nothing is answered, and no group has changed. The entry waits for
 * migwelun_take_entry, in place of an entry that was not taken.
 *
 * Returns DONE; NOT_LEADING, BAD_NUMBER or BAD_BODY; NO_MEMORY; or EMPTY.
 */
int32_t migwelun_propose(migwelun_slot *slot, const uint8_t *body, size_t length, uint32_t connection, uint64_t frame, uint64_t clock);

/*
 * Proposes the entry of a tick, as of a frame. Append one to the log about twice a second.
 *
 * Returns DONE, NOT_LEADING, NO_MEMORY or EMPTY.
 */
int32_t migwelun_propose_tick(migwelun_slot *slot, uint64_t clock);

/*
 * Proposes the entry of the topics of the cluster: those that were added since the last call of this, and no others. The topics that were
 * added are gone then, but after NO_MEMORY they stay, and the call may be repeated.
 *
 * Returns DONE; NOT_LEADING; BAD_FIELD if a name has more than 32,767 bytes; 21 to 24 if they have a fault; NO_MEMORY; or EMPTY.
 */
int32_t migwelun_propose_topics(migwelun_slot *slot);

/*
 * Moves the entry that was proposed last, or the part of a snapshot that was written since, into a buffer of `room` bytes, and writes its
 * number of bytes to `size`, 0 if nothing waits.
 *
 * Returns DONE; SHORT, and the entry waits on: take it again with room for `size` bytes; or EMPTY, and `size` is as it was.
 */
int32_t migwelun_take_entry(migwelun_slot *slot, uint8_t *to, size_t room, size_t *size);

/*
 * Applies a place of the log: the first one is 1. The frame of the entry's reply, if it has one, is appended to those that wait for
 * migwelun_take. Writes the present leadership, the number of the entry's connection, and that of the frame on it, which tell to whom the
 * reply goes. After a tick `frame` is the number of removed members; otherwise both numbers are 0.
 *
 * Returns DONE; or CLOSES if the connection of a frame is to be closed. An entry that is refused is passed over: its place is applied, and
 * nothing else has changed. Then it returns why: OTHER_LEADERSHIP, EARLIER_MOMENT, 11 or 13 to 16 if the bytes are no entry, or 21 to 24 if
 * the topics have a fault. So a late append of a leader that was deposed holds no replica up.
 *
 * Nothing is applied, written or has changed after OUT_OF_PLACE; after UNKNOWN_VERSION, until a later library applies the entry; after
 * NO_MEMORY, and the call may be repeated; and after EMPTY.
 */
int32_t migwelun_apply(migwelun_slot *slot, uint64_t place, const uint8_t *entry, size_t length, uint32_t *leadership,
                       uint32_t *connection, uint64_t *frame);

#ifdef __cplusplus
}
#endif

#endif
