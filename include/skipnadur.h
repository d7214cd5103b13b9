/*
 * Skipnadur: tag images, and sessions with an ST25DV64KC, for C99 and C++.
 *
 * The library touches no bus, keeps nothing and allocates nothing: the state and every buffer are lent. All inputs are taken; bad ones
 * get a number. What each function gives, and what it leaves in each buffer, is proved for all inputs (docs/PROMISES.md).
 *
 *   Lengths          skp_image_len_for, skp_record_image_len, skp_mime_image_len, skp_image_len, skp_text_image_len, skp_high_water
 *   Building         skp_text_image, skp_uri_image, skp_mime_image, skp_empty_image; skp_open, skp_begin, skp_begin_text,
 *                    skp_begin_mime, skp_finish; skp_capability_container, skp_set_read_only
 *   Reading          skp_read, skp_next; skp_kind, skp_id, skp_payload, skp_text, skp_uri, skp_is; skp_uri_prefix
 *   A session        skp_tag_new, thirteen calls, skp_tag_next, skp_tag_reply, skp_tag_dirty
 *   For people       skp_message
 *
 * A buffer is a pointer and its length in bytes; NULL with length 0 is a valid empty buffer. Every other pointer (an array of two or
 * three numbers, a cursor, a record) is to one object and is never NULL. No two arguments that are written may overlap each other or
 * anything that is read. A buffer is at most half of the 64-bit address space long, as every object of C is.
 */
#ifndef SKIPNADUR_H
#define SKIPNADUR_H

#include <stddef.h>
#include <stdint.h>

#ifdef __cplusplus
extern "C" {
#endif

/* Lengths and places have 64 bits on every processor, on a Cortex-M too. */
typedef uint64_t skp_size;

#define SKP_STATE_LEN 20     /* bytes of a session's state, exactly */
#define SKP_TRANSFER_LEN 19  /* bytes of a transfer buffer, at least */
#define SKP_REPLY_LEN 64     /* bytes of a reply buffer, at least */
#define SKP_USER_MEMORY 8192 /* bytes of the part's user memory */
#define SKP_ROW 16           /* bytes of one row of it: a write programs whole rows */
#define SKP_CONTAINER_LEN 8  /* bytes of the capability container that is written */
#define SKP_AREA 8184        /* `area` for the part: its memory without the container */
#define SKP_PREFIX_LEN 26    /* bytes of the longest URI prefix */
#define SKP_MESSAGE_LEN 64   /* bytes of a message, with the zero after it */

/* The numbers. */
#define SKP_OK 0
#define SKP_TYPE_TOO_LONG 1   /* building: a type name over 255 bytes */
#define SKP_TOO_LONG 2        /* building: the buffer is too small */
#define SKP_RECORD_TOO_LONG 3 /* building: a record over 65,535 bytes */
#define SKP_AREA_TOO_LARGE 4  /* building: an area over 524,287 bytes */
#define SKP_NOT_UTF8 5        /* building: a text or URI that is not UTF-8 */
#define SKP_NO_CONTAINER 11   /* reading: no container that is understood */
#define SKP_NO_MESSAGE 12     /* reading: no message in the image */
#define SKP_TRUNCATED 13      /* reading: a length runs past the bytes that were read */
#define SKP_CHUNKED 14        /* reading: a record split across several */
#define SKP_NO_ANSWER 21      /* session: nothing acknowledged */
#define SKP_NOT_THE_PART 22   /* session: something else answered */
#define SKP_BUSY 23           /* session: a write cycle did not end within the polls */
#define SKP_REFUSED 24        /* session: the password was refused */
#define SKP_RF_STUCK 25       /* session: RF did not switch within the tries */
#define SKP_NOT_TAKEN 26      /* session: read back differently, or a range past the part */
#define SKP_NO_CALL 31        /* session: a reply, and no call is open */
#define SKP_CALL_OPEN 32      /* session: a start, and a call is open */
#define SKP_WRONG_LENGTH 33   /* session: a lent buffer of a wrong length */
#define SKP_NO_STATE 34       /* session: state bytes of a wrong length, or bytes that no call leaves */
#define SKP_LIST_TOO_LONG 35  /* listtag: an image over 8,192 bytes */
#define SKP_END 255           /* skp_next: no more records */

/* Type name formats: the low three bits of a record's header. */
#define SKP_WELL_KNOWN 1
#define SKP_MIME 2
#define SKP_ABSOLUTE_URI 3
#define SKP_EXTERNAL 4

/* ------------------------------------------------------------------------------------------------------------------ Lengths */

/*
 * Bytes of a whole image: for one record with a type name of kind_len bytes and a payload of so many; for one well-known record; for a
 * MIME record; for a URI of uri_len bytes after its prefix; for a text. A length past 64 bits is given as 2^64 - 1.
 */
skp_size skp_image_len_for(skp_size kind_len, skp_size payload);
skp_size skp_record_image_len(skp_size payload);
skp_size skp_mime_image_len(skp_size mime_len, skp_size payload);
skp_size skp_image_len(skp_size uri_len);
skp_size skp_text_image_len(skp_size text_len);

/* The place after the last byte that is not zero; 0 where all are zero. */
skp_size skp_high_water(const uint8_t *image, skp_size image_len);

/* ----------------------------------------------------------------------------------------------------------------- Building */

/* The eight container bytes for a tag of `area` bytes. Returns 0, or 4 where area is over 524,287; the eight bytes are then zero. */
uint32_t skp_capability_container(skp_size area, uint8_t container[8]);

/* Marks an image as one that phones only read: byte 1 becomes 0x43. An image below two bytes is left as it is. */
void skp_set_read_only(uint8_t *image, skp_size image_len);

/*
 * The builders. `area` is the tag's, not the buffer's: what the container tells a phone it may write (SKP_AREA for the part). Each
 * returns 0 or a refusal, in this order as far as it applies: 1, 2, 3, 4, 5.
 *
 *   returned     values[0]                   values[1]    out
 *   0            the length, or the place    0            changed only before values[0]
 *   2            bytes needed                room         not changed
 *   3            the record's length         0            not changed
 *   1, 4, 5      0                           0            not changed
 *
 * Whole images; values[0] is the image's length. A text and a URI must be UTF-8. `prefix` is any byte; 0 to 35 read back.
 */
uint32_t skp_text_image(uint8_t *out, skp_size out_len, skp_size area, const uint8_t *text, skp_size text_len, skp_size values[2]);
uint32_t skp_uri_image(uint8_t *out, skp_size out_len, skp_size area, const uint8_t *uri, skp_size uri_len, uint8_t prefix,
                       skp_size values[2]);
uint32_t skp_mime_image(uint8_t *out, skp_size out_len, skp_size area, const uint8_t *mime, skp_size mime_len, const uint8_t *payload,
                        skp_size payload_len, skp_size values[2]);
uint32_t skp_empty_image(uint8_t *out, skp_size out_len, skp_size area, skp_size values[2]);

/*
 * Images whose payload the caller writes: values[0] is the place where it goes, and exactly the bytes before it are written. `open`
 * takes any type name and format (of which the low three bits count). Write the payload of the announced length there, and then
 * skp_finish at its end.
 */
uint32_t skp_open(uint8_t *out, skp_size out_len, skp_size area, uint8_t tnf, const uint8_t *kind, skp_size kind_len, skp_size payload,
                  skp_size values[2]);
uint32_t skp_begin(uint8_t *out, skp_size out_len, skp_size area, skp_size uri_len, uint8_t prefix, skp_size values[2]);
uint32_t skp_begin_text(uint8_t *out, skp_size out_len, skp_size area, skp_size text_len, skp_size values[2]);
uint32_t skp_begin_mime(uint8_t *out, skp_size out_len, skp_size area, const uint8_t *mime, skp_size mime_len, skp_size payload_len,
                        skp_size values[2]);

/* Writes only FE, at `at`; values[0] is at + 1. Refuses 2 where `at` is at or past the end: needed is at + 1. */
uint32_t skp_finish(uint8_t *out, skp_size out_len, skp_size at, skp_size values[2]);

/* ------------------------------------------------------------------------------------------------------------------ Reading */

/* Where the next record begins and where the message ends. One that lies outside the image is at its end. */
typedef struct skp_cursor {
    skp_size at;
    skp_size end;
} skp_cursor;

/*
 * A record's places in its image: format, 1 where it is the message's last, where its type begins, and the three lengths. Type, id and
 * payload stand one after the other. A record that is handed back may hold anything.
 */
typedef struct skp_record {
    skp_size format;
    skp_size last;
    skp_size kind;
    skp_size kind_len;
    skp_size id_len;
    skp_size payload_len;
} skp_record;

/*
 * Finds the message of an image. Returns 0, and the cursor stands at its first record; or 11, 12 or 13, and the cursor is 0, 0, which
 * is at its end. The image is not changed, here and below.
 */
uint32_t skp_read(const uint8_t *image, skp_size image_len, skp_cursor *cursor);

/*
 * The record at the cursor, which moves on. Returns 0, and its places are in *record; 13 or 14, its refusal, after which the cursor is
 * at its end; or SKP_END. *record is all zeros unless 0 is returned.
 */
uint32_t skp_next(const uint8_t *image, skp_size image_len, skp_cursor *cursor, skp_record *record);

/*
 * A record's type name, id and payload: returns 1, the place in part[0] and the length in part[1]; or 0 and two zeros where the part is
 * not wholly inside the image, which happens only with places that skp_next did not give for this image.
 */
uint32_t skp_kind(const uint8_t *image, skp_size image_len, const skp_record *record, skp_size part[2]);
uint32_t skp_id(const uint8_t *image, skp_size image_len, const skp_record *record, skp_size part[2]);
uint32_t skp_payload(const uint8_t *image, skp_size image_len, const skp_record *record, skp_size part[2]);

/* The text of a text record without its language, well-formed UTF-8, as a part; 0 and zeros where the record is no such text. */
uint32_t skp_text(const uint8_t *image, skp_size image_len, const skp_record *record, skp_size part[2]);

/* A URI record: 1, then the place and length of what follows the prefix, and the prefix's code (0 to 35). Else 0 and three zeros. */
uint32_t skp_uri(const uint8_t *image, skp_size image_len, const skp_record *record, skp_size values[3]);

/* The prefix of a code, with zeros after it, and its length: 1. For a code over 35: 0, all zeros, length 0. */
uint32_t skp_uri_prefix(uint8_t code, uint8_t prefix[26], skp_size *len);

/* 1 where the record is of the well-known type with this one-byte name ('T', 'U'), else 0. */
uint32_t skp_is(const uint8_t *image, skp_size image_len, const skp_record *record, uint8_t name);

/* ---------------------------------------------------------------------------------------------------------------- A session */

/*
 * A call is started, asks for its transfers one by one, takes the replies, and answers.
 *
 *     uint8_t state[SKP_STATE_LEN], transfer[SKP_TRANSFER_LEN], reply[SKP_REPLY_LEN];
 *     uint64_t step;
 *     skp_tag_new(state, sizeof state, SKP_USER_MEMORY);
 *     step = skp_tag_begin(state, sizeof state, transfer, sizeof transfer, reply, sizeof reply);
 *     while (skp_step_kind(step) != SKP_ANSWER) {
 *         uint32_t ack = carry_out(step, transfer, reply);
 *         step = skp_tag_reply(state, sizeof state, transfer, sizeof transfer, reply, sizeof reply, NULL, 0, NULL, 0, ack);
 *     }
 *     if (skp_step_number(step) != SKP_OK) { ... }
 */

/* The kind of a step. */
#define SKP_ANSWER 0   /* the call has answered */
#define SKP_WRITE 1    /* send the first bytes of the transfer buffer */
#define SKP_READ 2     /* send them, then read into the reply buffer */
#define SKP_READ_OUT 3 /* send them, then read into the caller's own `out` */
#define SKP_DELAY 4    /* wait; the reply to it is ignored */

/* A step taken apart. */
static inline uint32_t skp_step_kind(uint64_t step) { return (uint32_t)(step & 0xFF); }
/* A transfer: the address on the bus (seven bits), how many bytes to send, how many to read. */
static inline uint32_t skp_step_address(uint64_t step) { return (uint32_t)(step >> 8 & 0xFF); }
static inline uint32_t skp_step_send(uint64_t step) { return (uint32_t)(step >> 16 & 0xFFFF); }
static inline uint32_t skp_step_read(uint64_t step) { return (uint32_t)(step >> 32 & 0xFFFF); }
/* A delay: its milliseconds. */
static inline uint32_t skp_step_delay(uint64_t step) { return (uint32_t)(step >> 32); }
/* An answer: its number, the rows programmed by the call, its value (skp_tag_rf_wrote: 1 or 0; skp_tag_dirty: the mark). */
static inline uint32_t skp_step_number(uint64_t step) { return (uint32_t)(step >> 8 & 0xFF); }
static inline uint32_t skp_step_rows(uint64_t step) { return (uint32_t)(step >> 16 & 0xFFFF); }
static inline uint32_t skp_step_value(uint64_t step) { return (uint32_t)(step >> 32); }

/*
 * A new session: its mark is the smaller of `mark` and 8,192. Give 8,192 after a power-up. Answers 0, or 34 where state_len is not
 * SKP_STATE_LEN; the state is then untouched.
 */
uint64_t skp_tag_new(uint8_t *state, skp_size state_len, skp_size mark);

/* The mark, as an answer's value: the end of everything that may be non-zero. Answers inside an open call too; refuses only 34. */
uint64_t skp_tag_dirty(const uint8_t *state, skp_size state_len);

/*
 * The calls. Each returns its first transfer, or its answer where there is nothing to send. Refusals in this order: 34, 32, 33 (a
 * transfer buffer under 19 bytes, a reply buffer under 64), and then the call's own 26. 32 to 34 leave state and buffers untouched.
 * Otherwise the state is the next one. Before an answer the bytes to send stand first in the transfer buffer, zeros after them up to
 * 19 (all zeros for a delay), and the reply buffer is not written; at the answer the first 19 and 64 bytes are zero. Bytes past these
 * never change.
 */
uint64_t skp_tag_identify(uint8_t *state, skp_size state_len, uint8_t *transfer, skp_size transfer_len, uint8_t *reply,
                          skp_size reply_len);
uint64_t skp_tag_prepare(uint8_t *state, skp_size state_len, uint8_t *transfer, skp_size transfer_len, uint8_t *reply,
                         skp_size reply_len);
uint64_t skp_tag_wait_ready(uint8_t *state, skp_size state_len, uint8_t *transfer, skp_size transfer_len, uint8_t *reply,
                            skp_size reply_len);
uint64_t skp_tag_rf_off(uint8_t *state, skp_size state_len, uint8_t *transfer, skp_size transfer_len, uint8_t *reply,
                        skp_size reply_len);
uint64_t skp_tag_rf_on(uint8_t *state, skp_size state_len, uint8_t *transfer, skp_size transfer_len, uint8_t *reply,
                       skp_size reply_len);
uint64_t skp_tag_rf_wrote(uint8_t *state, skp_size state_len, uint8_t *transfer, skp_size transfer_len, uint8_t *reply,
                          skp_size reply_len);
uint64_t skp_tag_scrub(uint8_t *state, skp_size state_len, uint8_t *transfer, skp_size transfer_len, uint8_t *reply,
                       skp_size reply_len);
uint64_t skp_tag_begin(uint8_t *state, skp_size state_len, uint8_t *transfer, skp_size transfer_len, uint8_t *reply,
                       skp_size reply_len);
uint64_t skp_tag_go_live(uint8_t *state, skp_size state_len, uint8_t *transfer, skp_size transfer_len, uint8_t *reply,
                         skp_size reply_len);
uint64_t skp_tag_finish(uint8_t *state, skp_size state_len, uint8_t *transfer, skp_size transfer_len, uint8_t *reply,
                        skp_size reply_len);

/*
 * Reads out_len bytes at `at`, and the whole memory (out_len is 8,192, else 26). The host puts the bytes of an acknowledged
 * SKP_READ_OUT into `out`; the calls write none of it. Lend the same length with every reply.
 */
uint64_t skp_tag_read_user(uint8_t *state, skp_size state_len, uint8_t *transfer, skp_size transfer_len, uint8_t *reply,
                           skp_size reply_len, skp_size at, const uint8_t *out, skp_size out_len);
uint64_t skp_tag_read_whole(uint8_t *state, skp_size state_len, uint8_t *transfer, skp_size transfer_len, uint8_t *reply,
                            skp_size reply_len, const uint8_t *out, skp_size out_len);

/* Writes data_len bytes at `at` and reads them back. The mark moves before the first row. Lend the same data with every reply. */
uint64_t skp_tag_write(uint8_t *state, skp_size state_len, uint8_t *transfer, skp_size transfer_len, uint8_t *reply, skp_size reply_len,
                       skp_size at, const uint8_t *data, skp_size data_len);

/*
 * The open call's transfer once more: its step, and its bytes in the transfer buffer. Nothing else changes. Refusals: 34, 31, 33 (also
 * data or `out` of another length than at the start; 0 for a call that takes none), which touch nothing.
 */
uint64_t skp_tag_next(const uint8_t *state, skp_size state_len, uint8_t *transfer, skp_size transfer_len, const uint8_t *reply,
                      skp_size reply_len, const uint8_t *data, skp_size data_len, const uint8_t *out, skp_size out_len);

/*
 * The reply to that transfer: `ack` is 0 for refused, any other number for acknowledged. What was read stands in the reply buffer, or
 * in `out` after SKP_READ_OUT. Returns the next transfer or the answer. Refusals as for skp_tag_next.
 */
uint64_t skp_tag_reply(uint8_t *state, skp_size state_len, uint8_t *transfer, skp_size transfer_len, uint8_t *reply, skp_size reply_len,
                       const uint8_t *data, skp_size data_len, const uint8_t *out, skp_size out_len, uint32_t ack);

/* --------------------------------------------------------------------------------------------------------------- For people */

/*
 * One line of English for a number, with zeros after it, so it is a C string; returns its length. For a number that is not among those
 * above: 0 and all zeros.
 */
uint32_t skp_message(uint32_t number, uint8_t text[64]);

#ifdef __cplusplus
}
#endif

#endif
