/*
 * The sorter gate: judges the operations that move devices, drivers and objects between partitions.
 *
 * Every call answers a number: 0 is accepted, any other is the first question of document 01 that is answered with no
 * (the list is below). The answers of gate_state_bytes, gate_first_bad and gate_rewrite alone have a kind beside their
 * number. Calls keep nothing between them, use no heap and no global, and always return.
 *
 * The caller lends byte areas by pointer and length. A pointer is valid for its length, of any alignment, and is not
 * null, even at length 0. An area that is written (state, answer, out) overlaps no other area of the call, and nobody
 * else touches it during the call; line and record are only read, may overlap each other, and nobody writes to them
 * during the call. The same holds of the state where it is only read, by gate_first_bad. Any length and any content is
 * answered.
 *
 * SPDX-License-Identifier: MIT
 */
#ifndef SORTER_GATE_H
#define SORTER_GATE_H

#include <stddef.h>
#include <stdint.h>

#ifdef __cplusplus
extern "C" {
#endif

/* The version of this header and of the archive beside it; the number is for comparing, a later version's is larger. */
/* begin version: made by tests/tables from tables/release.ini */
#define SORTER_GATE_VERSION_MAJOR 0
#define SORTER_GATE_VERSION_MINOR 3
#define SORTER_GATE_VERSION_PATCH 0
#define SORTER_GATE_VERSION_NUMBER 3000
#define SORTER_GATE_VERSION "0.3.0"
/* end version */

/* begin sizes: made by tests/tables from tables/numbers.ini */
/* The length of the state area of a line of at most 96 objects. */
#define SORTER_GATE_STATE_BYTES 1744
/* The length of the state area of a line of more objects, at most 192; no area is longer. */
#define SORTER_GATE_STATE_BYTES_WIDE 3376
/* The lock bytes, a card's each, with which a state area of either length ends. */
#define SORTER_GATE_LOCK_BYTES 16
/* The least length of an answer area. */
#define SORTER_GATE_ANSWER_BYTES 128
/* The length of the longest line file that can be accepted; refuse a longer one before you call. */
#define SORTER_GATE_LONGEST_LINE 1821
/* The length of the longest record that can be accepted, or pass question 11; refuse a longer one before you call. */
#define SORTER_GATE_LONGEST_RECORD 155
/* end sizes */

/* What a record begins with, and what follows it; docs/CONTROLLER.md, 'Records', says how an item is written. */
/* begin codes: made by tests/tables from tables/codes.ini */
enum sorter_gate_code {
    SORTER_GATE_CODE_DRIVER_WRITE = 1,            /* then driver, count, items */
    SORTER_GATE_CODE_CARD_WRITE = 2,              /* then card, count, items */
    SORTER_GATE_CODE_DRIVER_READ = 3,             /* then driver, count, pairs: source, destination or 0 */
    SORTER_GATE_CODE_CARD_READ = 4,               /* then card, count, pairs: source, destination or 0 */
    SORTER_GATE_CODE_CREATE_PARTITION = 5,        /* then partition */
    SORTER_GATE_CODE_DESTROY_PARTITION = 6,       /* then partition */
    SORTER_GATE_CODE_ACTIVATE_DRIVER = 7,         /* then driver, partition */
    SORTER_GATE_CODE_ACTIVATE_CARD = 8,           /* then card, partition */
    SORTER_GATE_CODE_ACTIVATE_OBJECTS = 9,        /* then partition, count, objects */
    SORTER_GATE_CODE_DEACTIVATE_DRIVER = 10,      /* then driver */
    SORTER_GATE_CODE_DEACTIVATE_CARD = 11,        /* then card */
    SORTER_GATE_CODE_DEACTIVATE_OBJECTS = 12,     /* then partition, count, objects */
    SORTER_GATE_CODE_CREATE_GREEN_PARTITION = 13, /* then partition */
    SORTER_GATE_CODE_LOCK_CARD = 14,              /* then card */
    SORTER_GATE_CODE_UNLOCK_CARD = 15             /* then card */
};
/* end codes */

/* What a number means: the question that was answered with no. A later version may have more: each is a refusal. */
/* begin answers: made by tests/tables from tables/questions.ini */
enum sorter_gate_answer {
    SORTER_GATE_ACCEPTED = 0,
    SORTER_GATE_NUMBER_CUT = 1,      /* line file: a number's last byte is missing */
    SORTER_GATE_NUMBER_FORM = 2,     /* line file: a number of over three bytes, or not in the shortest form */
    SORTER_GATE_FIELD_RANGE = 3,     /* line file: a number is out of its field's range */
    SORTER_GATE_LEFT_OVER = 4,       /* line file: bytes are left over */
    SORTER_GATE_HARDWIRED_OWNER = 5, /* line file: a card has not just one kind 4 object, or kind 4 has no card */
    SORTER_GATE_HARDWIRED_VALUE = 6, /* line file: a hard-wired value names what is not its card's, or kind 4 */
    SORTER_GATE_STATE_LENGTH = 7,    /* the state area has another length than the line needs */
    SORTER_GATE_ANSWER_LENGTH = 8,   /* the answer area is too short */
    SORTER_GATE_STATE_FORM = 9,      /* the state is not well formed */
    SORTER_GATE_RECORD = 10,         /* the record cannot be read to its last byte */
    SORTER_GATE_UNKNOWN = 11,        /* something named does not exist, or a partition is not 1 to 63 */
    SORTER_GATE_TWICE = 12,          /* a target, destination or listed object is named twice */
    SORTER_GATE_KIND = 13,           /* kinds do not fit */
    SORTER_GATE_PARTITION = 14,      /* the partition was used before (create), or does not exist */
    SORTER_GATE_NOT_EMPTY = 15,      /* something is in the partition that is to be destroyed */
    SORTER_GATE_ACTIVITY = 16,       /* what comes in, is locked or unlocked is active, or what acts or leaves not */
    SORTER_GATE_ELSEWHERE = 17,      /* an object is not in the driver's partition, or not in the one named */
    SORTER_GATE_NOT_DESCRIBED = 18,  /* a card's transfer is not described by what it reads now */
    SORTER_GATE_OUTSIDE = 19,        /* a chain of descriptor writes would lead a card out of its partition */
    SORTER_GATE_IN_REACH = 20,       /* a staying card can reach what leaves, or a green zone's descriptor names it */
    SORTER_GATE_ENTERS_OUTSIDE = 21, /* with this card brought in, a chain of writes would lead a card outside */
    SORTER_GATE_GREEN_RULE = 22,     /* green zone: a stored value or the card's hard-wired one breaks its rule */
    SORTER_GATE_LOCKED = 23          /* the card to be brought in or locked is locked, or the one to unlock not */
};
/* end answers */

/*
 * An answer that has a kind is kind * 2^32 + number; the macros take it apart. (They are macros with an argument:
 * SORTER_GATE_KIND with no parenthesis behind it is question 13, as above.)
 */
/* begin kinds: made by tests/tables from tables/kinds.ini */
enum sorter_gate_kind {
    SORTER_GATE_DONE = 0,    /* the number is the length, written or of the state area, or a record's place */
    SORTER_GATE_REFUSED = 1, /* the number is the question that was answered with no */
    SORTER_GATE_SHORT = 2    /* the number is the length that is needed */
};
#define SORTER_GATE_KIND(answer) ((answer) / UINT64_C(4294967296))
#define SORTER_GATE_NUMBER(answer) ((answer) % UINT64_C(4294967296))
/* end kinds */

/*
 * Puts questions 1 to 6 to a line file. Changes nothing. A file of edition 2 has a serial for each card, which is put
 * questions 1 to 3 like any number of it; beyond that no answer and no state depends on edition or serials.
 */
uint32_t gate_load_check(const uint8_t *line, size_t line_len);

/*
 * Tells how long the state area of a line has to be, which the count of its objects alone decides. The answer has a
 * kind. Done: the number is the length, one of the two above. Refused: the number is the first of questions 1 to 6 that
 * is answered with no. Changes nothing.
 */
uint64_t gate_state_bytes(const uint8_t *line, size_t line_len);

/*
 * Makes the fresh state of a line in `state`: questions 1 to 6, then 7, whether `state` has just the length that
 * gate_state_bytes tells. At 0 the whole area is the fresh state, whatever it held: all 0 but the hard-wired value
 * numbers. At any other number the area is as it was.
 */
uint32_t gate_fresh(const uint8_t *line, size_t line_len, uint8_t *state, size_t state_len);

/*
 * Judges one operation record and, at 0, carries it out: all questions, in the order of docs/QUESTIONS.md, each for the
 * whole record before the next; 7 is whether `state` has just the length that gate_state_bytes tells. At 0 `state` is
 * the state that follows; a read (codes 3 and 4) has put sixteen bytes for each source at the start of `answer`, in
 * order, and every other byte of `answer` is as it was. At any other number both areas are as they were. A record
 * longer than SORTER_GATE_LONGEST_RECORD is refused by question 11 or an earlier one, so that a host may refuse it
 * before it calls. What cards write into transfer descriptors is to be told, by code 2 or 4, before the next call;
 * that, and what is done on the machine at 0, stands in docs/CONTROLLER.md, 'What the host owes'.
 */
uint32_t gate_operate(const uint8_t *line, size_t line_len, uint8_t *state, size_t state_len, const uint8_t *record,
                      size_t record_len, uint8_t *answer, size_t answer_len);

/*
 * Tells of a state area which object's record is the first that breaks a rule of question 9, for whoever looks at a
 * damaged one. The answer has a kind. Done: the number is the record's place from 1 on, which is its object's number; a
 * place above the line's count of objects is that of a record that has to be 0; and 0 is that no record breaks a rule.
 * Refused: the number is the first of questions 1 to 7 that is answered with no. Changes nothing. The place 0 does not
 * say that the state is well formed: where gate_operate answers 9 all the same, the fault is in the bytes of
 * partitions, drivers, cards or locks.
 */
uint64_t gate_first_bad(const uint8_t *line, size_t line_len, const uint8_t *state, size_t state_len);

/*
 * Loads a line file and writes the line that was loaded into `out`, in its own edition and with the cards' serials: an
 * accepted file comes out byte for byte. The answer has a kind. Done: the first n bytes of `out` are those of `line`, n
 * being the number, which is `line_len`, and every byte from n on is as it was. Refused: the number is the first of
 * questions 1 to 6 that is answered with no. Short: the file is accepted, and `out` has fewer bytes than the number,
 * which is `line_len` here too. Refused and short leave `out` as it was. An area of exactly n bytes is long enough, and
 * one of 0 bytes asks for n.
 */
uint64_t gate_rewrite(const uint8_t *line, size_t line_len, uint8_t *out, size_t out_len);

#ifdef __cplusplus
}
#endif

#endif
