/* The two parts of the SMP management server that need no device, for the shelf's firmware:
 * judging one request frame alone, and the row test of the permission table.
 *
 * They are written in Rattle and proved (crates/gate): each returns exactly what its definition
 * says, for every argument that keeps what is asked of C below. `.ci/build gate` proves them and
 * writes target/staticlib/libgate.a, for x86-64, which holds them (crates/gate_c) and refers to no
 * other library. Neither keeps anything between two calls, allocates, or writes to memory of the
 * caller's.
 *
 * The proof is of the Rattle source. It covers neither the compiler's back end nor this header,
 * which nothing compares with that source: firmware/run tries both.
 */
#ifndef SMP_GATE_H
#define SMP_GATE_H

#include <stdbool.h>
#include <stddef.h>
#include <stdint.h>

#ifdef __cplusplus
extern "C" {
#endif

/* Judges one request frame, without CRC: the function, and H6, H10, 01h, 03h or nothing wrong. H6 is a
 * frame of under four bytes; H10 is one of four or more whose first byte is not 40h, such as a response
 * fed back, whatever else is wrong with it (until #103 that was H6 too). The known functions are 00h,
 * 01h, 06h, 11h, 14h, 21h, 91h and 93h; every other one draws 01h.
 *
 * frame   the bytes as they came from the link layer. What C owes: it is not NULL, not even where
 *         size is 0; `size` bytes from it on are readable and have been set; and nobody changes
 *         them during the call.
 * size    how many bytes came, and never more than are readable. A frame of any length is judged.
 *
 * The answer is one number in four parts of 8 bits, which the smp_told_ functions below take out.
 * The definition is frame_number in crates/gate/specs/FrameNumber.antt.
 */
uint32_t smp_judge_frame(const uint8_t *frame, size_t size);

/* Bits 0 to 7: the function, byte 1 of the frame; 00h where there is no function to tell. */
static inline uint8_t smp_told_function(uint32_t told) { return (uint8_t)(told & 0xFF); }

/* Bits 8 to 15: the function result that the frame draws, 01h UNKNOWN SMP FUNCTION or 03h INVALID
 * REQUEST FRAME LENGTH; 00h where it draws neither. */
static inline uint8_t smp_told_result(uint32_t told) { return (uint8_t)(told >> 8 & 0xFF); }

/* Bits 16 to 23: the number of the house refusal that the frame draws, 6 for H6 or 10 for H10; 0 where
 * it draws neither. It can be no other number (house_read in crates/gate/proofs/Parts.antt). */
static inline uint8_t smp_told_house(uint32_t told) { return (uint8_t)(told >> 16 & 0xFF); }

/* Bits 24 to 31: whether there is a function to tell. A frame under four bytes, H6, has none; a frame
 * that draws H10 has one. */
static inline bool smp_told_has_function(uint32_t told) { return told >> 24 == 1; }

/* Nothing wrong: none of H6, H10, 01h and 03h. The server may still refuse the request or fail it, for
 * where it comes from and for what it sees in the shelf. */
static inline bool smp_told_nothing_wrong(uint32_t told) { return (told & 0x00FFFF00) == 0; }

/* Whether a row of the permission table reaches a zone group: the row's bit of that group, and no
 * for a group above 31. The group is not cut to five bits, nor to eight. The definition is
 * row_reaches in crates/model/specs/Zone.antt.
 */
bool smp_row_reaches(uint32_t row, uint32_t group);

#ifdef __cplusplus
}
#endif

#endif
