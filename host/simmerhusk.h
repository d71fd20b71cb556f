/* The exported calls of Simmerhusk, as the archive libexports.a has them (x86-64).
 *
 * Both index sets, one shared access at a time: a set is its capacity and its word (the plain set's head word, the robust set's
 * generation), its buffers are lent, and its thread records stand in a lent table of bytes. Every call takes whatever comes: it ends
 * in a result or in a numbered refusal, and a refused call changes nothing. No lent buffer may overlap another. Null is a buffer of
 * length 0 only.
 */
#ifndef SIMMERHUSK_H
#define SIMMERHUSK_H

#include <stddef.h>
#include <stdint.h>

/* A record's bytes, numbers little-endian. A table has as many records as there are whole ones in its bytes, and more than 16 are
 * refused; what is left over is not written, and nothing depends on it. A call that is not refused writes the record of its number
 * and no other; a setup that is accepted writes all.
 *
 *    0   1  dead: 0 alive, anything else dead        28   8  seen, the plain set's word
 *    1   1  place: 0 no call                         36   8  owner
 *    2   1  mode                                     44   8  generation
 *    3   1  how many owners its list has             52   8  generation of a count
 *    4   4  index                                    60   8  generation of a bump
 *    8   4  value read from a slot                   68  64  the list's owners, 8 bytes each
 *   12   4  reported
 *   16   4  room
 *   20   4  cell of a count
 *   24   4  counted
 */
#define HUSK_RECORD_BYTES 132

enum husk_progress {
    HUSK_ACCEPTED = 0, /* no answer yet */
    HUSK_ANSWERED = 1,
    HUSK_REFUSED = 2
};

enum husk_noted {
    HUSK_NOTHING = 0,
    HUSK_FOUND = 1, /* a step of find */
    HUSK_FREED = 2  /* a step of recover */
};

enum husk_call {
    HUSK_ACQUIRE = 1,
    HUSK_RELEASE = 2,
    HUSK_BORROWED_INDICES = 3,
    HUSK_IS_LOCKED = 4,
    HUSK_FIND = 5,
    HUSK_RECOVER = 6
};

struct husk_outcome {
    uint64_t noted_owner; /* whose the freed index was, else 0 */
    uint32_t progress;    /* enum husk_progress */
    uint32_t number;      /* the answer's or the refusal's; 0 where accepted */
    uint32_t value;       /* the answer's, else 0 */
    uint32_t noted;       /* enum husk_noted */
    uint32_t noted_index; /* the index found or freed, else 0 */
    uint32_t steps;       /* steps taken: 1 of a step that was not refused, as many as a drain took, else 0 */
};

/* For either set. */
struct husk_outcome husk_death(uint8_t *records, size_t records_len, uint8_t who);

/* The plain set. An accepted setup writes the capacity and the head word. A start lends the buffers as a step does; of them it may
 * mark an index in custody. */
struct husk_outcome husk_plain_setup(uint32_t *capacity, uint64_t *head, uint8_t *records, size_t records_len, uint32_t *slots,
    size_t slots_len, uint32_t *custody, size_t custody_len, uint32_t asked);
struct husk_outcome husk_plain_start(uint32_t capacity, uint64_t head, uint8_t *records, size_t records_len, uint8_t who,
    uint32_t *slots, size_t slots_len, uint32_t *custody, size_t custody_len, uint8_t call, uint32_t index_or_room, uint64_t owner,
    uint8_t mode);
struct husk_outcome husk_plain_step(uint32_t capacity, uint64_t *head, uint8_t *records, size_t records_len, uint8_t who,
    uint32_t *slots, size_t slots_len, uint32_t *custody, size_t custody_len);
struct husk_outcome husk_plain_drain(uint32_t capacity, uint64_t *head, uint8_t *records, size_t records_len, uint8_t who,
    uint32_t *slots, size_t slots_len, uint32_t *custody, size_t custody_len, uint32_t budget);
struct husk_outcome husk_plain_list(uint8_t *records, size_t records_len, uint8_t who, const uint64_t *owners, size_t owners_len);

/* The robust set. */
struct husk_outcome husk_robust_setup(uint32_t *capacity, uint64_t *generation, uint8_t *records, size_t records_len,
    uint64_t *cells, size_t cells_len, uint32_t asked);
struct husk_outcome husk_robust_start(uint32_t capacity, uint64_t generation, uint8_t *records, size_t records_len, uint8_t who,
    uint64_t *cells, size_t cells_len, uint8_t call, uint32_t index_or_room, uint64_t owner, uint8_t mode);
struct husk_outcome husk_robust_step(uint32_t capacity, uint64_t *generation, uint8_t *records, size_t records_len, uint8_t who,
    uint64_t *cells, size_t cells_len);
struct husk_outcome husk_robust_drain(uint32_t capacity, uint64_t *generation, uint8_t *records, size_t records_len, uint8_t who,
    uint64_t *cells, size_t cells_len, uint32_t budget);
struct husk_outcome husk_robust_list(uint8_t *records, size_t records_len, uint8_t who, const uint64_t *owners, size_t owners_len);

#endif
