/*
 * The agreement engine of one controller, for a host in C or C++.
 *
 * The host is the link layer: it keeps the clock, carries the frames, stamps
 * true senders and packs each round's frames into a tray. The engine is one
 * controller's part. A host starts it once, sends the frame that comes back,
 * and then, round by round, hands over the tray of frames sent in that round
 * and sends the next frame that comes back.
 *
 * The call that brings the decision gives no frame: it is accepted, with length 0. The
 * host then sends nothing, and hands over no more trays. Who sent nothing has no entry in
 * the others' trays either: silence means something, and an empty entry is no silence.
 *
 * Nothing is kept between calls: all state is in an image of 1,024 bytes that
 * the host keeps and lends to each call. So one program may run any number of
 * controllers, each with its own image, and calls on different images may run
 * at the same time. The host writes nothing into an image itself.
 *
 * What every call asks of the host:
 *   - each pointer is good for as many bytes as the length beside it says, for
 *     the time of the call (where that is 0 it may be null), and length points
 *     to a size_t; pointers with const are read only, the others are read and
 *     written;
 *   - the regions lent to one call (image, tray, out, length) do not overlap.
 *
 * How frames and trays lie in bytes, what a call does with them and when it is
 * refused, with worked bytes: docs/FORMAT.md. How to link, how much stack a call
 * takes and how an image lies in bytes: docs/IMAGE.md.
 *
 * What every call gives: it reads and writes nothing but what was lent to it,
 * and its answer depends on nothing else.
 */
#ifndef CONTROLLER_H
#define CONTROLLER_H

#include <stddef.h>
#include <stdint.h>

#ifdef __cplusplus
extern "C" {
#endif

/* The length of a state's image. */
#define CONTROLLER_IMAGE_LEN 1024

/* The length of the longest frame, and the least room for output. */
#define CONTROLLER_FRAME_LEN 264

/* The length of the longest tray. */
#define CONTROLLER_TRAY_LEN 65535

/* The last round. A controller has decided by then, so that nothing is sent in it. */
#define CONTROLLER_LAST_ROUND 195

/* The answer for a call that was worked, then the refusals. */
#define CONTROLLER_WORKED 0
#define CONTROLLER_STATE_NOT_SOUND 1 /* or the image is not 1,024 bytes long */
#define CONTROLLER_LAST_ROUND_SENT 2 /* the state's round is 195, or it has decided */
#define CONTROLLER_SHORT_OUTPUT 3    /* the output buffer is under 264 bytes */
#define CONTROLLER_BAD_LAYOUT 4      /* the tray is not well packed */
#define CONTROLLER_OTHER_ROUND 5     /* the tray's round is not the state's */
#define CONTROLLER_BAD_SENDER 6      /* a sender is 0 or the own number */
#define CONTROLLER_TOO_MANY_HEARD 7  /* more than 64 would be heard */
#define CONTROLLER_TOO_MANY_LISTED 8 /* over 64 candidates or echoes would result */
#define CONTROLLER_BAD_START 9       /* start: number 0, or bit over 1 */

/* controller_frame: why bytes are no frame of a round. */
#define CONTROLLER_WRONG_LENGTH 11  /* under 8 bytes, or not 8 + 4 * count */
#define CONTROLLER_WRONG_ROUND 12   /* of another round or kind, or no such round */
#define CONTROLLER_WRONG_CONTENT 13 /* the bit, the count or the list */

/* controller_decision: no decision yet, and no answer for an unsound image. */
#define CONTROLLER_UNDECIDED 2
#define CONTROLLER_NO_ANSWER 255

/*
 * Starts a controller with its number (not 0) and its input, a bit (0 or 1). The
 * image is written, not read: it may hold anything before.
 *
 * Answers 0, or the first refusal that applies of: 1 (the image is not 1,024
 * bytes long), 9, 3.
 *
 * On 0, all 1,024 bytes of the image are those of the new state, the init frame
 * stands in front of out, *length is its length, and out keeps every byte past
 * it. On a refusal, image and out keep every byte and *length becomes 0.
 */
uint8_t controller_start(uint32_t number, uint8_t bit,
                         uint8_t *image, size_t image_len,
                         uint8_t *out, size_t out_len,
                         size_t *length);

/*
 * Works one tray: the frames sent by the others in the state's round. Makes the
 * next round and writes the frame to send in it, or none if the controller decides.
 * A void frame in a well packed tray is passed over. Whoever was heard before and has
 * no entry is silent: it counts as having sent what this controller itself sent in
 * that round, opinions apart.
 *
 * Answers 0, or the first refusal that applies of: 1 (the image is not 1,024
 * bytes long or its state is not sound), 2, 3, 4, 5, 6, 7, 8. An image from before
 * first rounds were kept is refused under 1, unless the own number alone is heard.
 *
 * On 0, all 1,024 bytes of the image are those of the new state, the frame
 * stands in front of out, *length is its length, and out keeps every byte past
 * it. Where the controller decides, *length is 0 and out keeps every byte: nothing is
 * to be sent, and each further tray is refused under 2. On a refusal, image and out
 * keep every byte and *length becomes 0; the call may be repeated with another tray or
 * buffer, except after 2.
 */
uint8_t controller_tray(uint8_t *image, size_t image_len,
                        const uint8_t *tray, size_t tray_len,
                        uint8_t *out, size_t out_len,
                        size_t *length);

/*
 * Sorts a frame by why it would be passed over in a tray of the round: for whoever
 * looks for the fault behind void frames. No state and no tray is needed.
 *
 * Answers 0 for a frame of that round, or the first that applies of: 11 (the
 * length), 12 (the round or the kind; also where the round is not 1 to 195), 13
 * (the bit, the count or the list). 12 points to a late clock, 13 to the card.
 */
uint8_t controller_frame(const uint8_t *frame, size_t frame_len, uint32_t round);

/*
 * The decision: 0, 1, or 2 for none yet. 255 for an image that
 * controller_tray would refuse under 1.
 */
uint8_t controller_decision(const uint8_t *image, size_t image_len);

/*
 * The last round sent, or the round of the decision, in which nothing is sent. 0 for an
 * image that controller_tray would refuse under 1.
 */
uint32_t controller_round(const uint8_t *image, size_t image_len);

/* The king, 0 for none. 0 also where controller_tray would refuse under 1. */
uint32_t controller_king(const uint8_t *image, size_t image_len);

/*
 * How many numbers the list of heard ones, of candidates or of echoes has.
 * 0 also where controller_tray would refuse under 1.
 */
uint32_t controller_heard(const uint8_t *image, size_t image_len);
uint32_t controller_candidates(const uint8_t *image, size_t image_len);
uint32_t controller_echoes(const uint8_t *image, size_t image_len);

/*
 * Who joined when: the i-th heard number, from 0, in rising order, and the round of
 * the tray that first brought it, 1 to 194, or 0 for the own number. Any entry under
 * a number brings it, a void or an empty one too.
 * 0 also where i is controller_heard's answer or more, and where controller_tray
 * would refuse under 1.
 */
uint32_t controller_heard_number(const uint8_t *image, size_t image_len, uint32_t i);
uint32_t controller_first_round(const uint8_t *image, size_t image_len, uint32_t i);

#ifdef __cplusplus
}
#endif

#endif
