/* Zabrusko for a display host written in C: two calls on setting frames.
   The archive libhost.a has them, and needs nothing but the C library (tests/host/run builds it).

   A frame is the bytes of one key's state (docs/FRAMES.md). No call asks anything of the bytes; the pointers
   have to be valid for their lengths, and `out` may not overlap the frames.

   A refusal is told as 65536 * number + offset. The number is that of docs/REFUSALS.md. The offset is that of the
   refused field's tag in its own frame, 0 for the kinds that name no field, and at most 1756. */
#ifndef ZABRUSKO_H
#define ZABRUSKO_H

#include <stddef.h>
#include <stdint.h>

#ifdef __cplusplus
extern "C" {
#endif

/* 0 if the bytes are the frame of a setting state, otherwise the refusal. Reads nothing else and writes nothing. */
uint32_t zabrusko_check_frame(const uint8_t *frame, size_t frame_len);

/* Merges two setting frames of one key, and writes the frame of the merge to the front of `out`.
   Answers the number of bytes written, 4 to 1756; the bytes of `out` beyond them are untouched.
   A refusal answers its code and leaves `out` as it was. In this order: the first frame's fields, the second
   frame's fields, 12 if their keys differ, 9 if `out` is shorter than the frame. */
uint32_t zabrusko_merge_frames(const uint8_t *first, size_t first_len, const uint8_t *second, size_t second_len,
                               uint8_t *out, size_t out_len);

#ifdef __cplusplus
}
#endif

#endif
