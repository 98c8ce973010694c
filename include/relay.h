/* The relay coder's doors for C and C++: the proved encoders, the coded length and the two block decoders of readings,
 * of floats and of signed bytes. All but relay_decode_signed are in target/native/libdoors.a, which
 * `tools/native staticlib doors` makes; examples/c/decode.c shows a use. relay_decode_signed is in
 * target/native/libradio.a, which `tools/native staticlib radio` makes. That archive needs no other and has no float
 * instruction, for processors without floats; examples/c/decode_signed.c shows a use.
 *
 * Numbers and bytes:
 *   code     0: K = 5
 *            1: K = 7, tap words 171 and 133 (octal), with the same keep patterns as 0
 *            2: the same tap words with the keep patterns of ETSI EN 300 744, for DVB-T. At rate 1/2 that is the same
 *               as 1; at the other rates a receiver for the one does not read what the other sends.
 *   rate     0 to 4: 1/2, 2/3, 3/4, 5/6, 7/8
 *   a bit    a byte. Of one that is read only the lowest bit counts; one that is written is 0 or 1.
 *   lengths  each stands behind its pointer and counts bytes.
 *
 * The answer is a count or the score's 32 bits, and then below 2^32; or a refusal, its number times 2^32 plus the
 * place:
 *
 *   answer >> 32         0, or the refusal's number
 *   (uint32_t)answer     the count or the score's bits, or the place
 *
 * That these two tell every answer of every door is proved (door_read, docs/ENTRIES.md).
 *
 *   1   the code is above 2
 *   2   the rate is above 4
 *   3   there are more than 16384 info bits
 *   4   out is shorter than needed
 *   5   scratch is shorter than needed
 *   6   a used reading is NaN or infinite; the place is the index of the first one, counted in readings
 *   12  a used signed byte is -128; the place is the index of the first one
 *
 * Where several apply the lowest is given. The place is 0 but for 6 and 12. A refusal changes no byte.
 *
 * An accepted call writes the front of out and scratch, as said below, and leaves what lies beyond as it was. Nothing
 * has to be cleared before. A longer buffer than needed is no refusal. No two buffers of a call may overlap, and each
 * must have the length given: a door cannot test these. A pointer may be null where the length is 0. The doors keep no
 * state and take no memory but the stack, some 1 kB of it, however long the lists are.
 */
#ifndef RELAY_H
#define RELAY_H

#include <stddef.h>
#include <stdint.h>

#ifdef __cplusplus
extern "C" {
#endif

/* Plain K = 5 at rate 1/2, with no zeros behind the bits. Writes 2 * bits_len coded bits to out, and answers how many.
 * Refusals 3 (of bits_len) and 4. */
uint64_t relay_conv_encode(const uint8_t *bits, size_t bits_len, uint8_t *out, size_t out_len);

/* Encodes the info bits and K-1 zeros behind them, at the rate. Writes relay_coded_len(code, rate, info_len) coded bits
 * to out, and answers how many. Refusals 1 to 4. */
uint64_t relay_encode(uint8_t code, uint8_t rate, const uint8_t *info, size_t info_len, uint8_t *out, size_t out_len);

/* How many coded bits relay_encode gives for so many info bits: at rate 1/2, 2 * (info + K-1). Refusals 1 to 3. */
uint64_t relay_coded_len(uint8_t code, uint8_t rate, size_t info);

/* The word of so many info bits that the readings fit best; of equal ones always the same. That it is the best is
 * proved for whole readings whose absolute values sum to at most 2^24; with others every sum is rounded to a float.
 *
 * A reading is a 32-bit IEEE float in four bytes, low first: above 0 for a coded bit 0, below 0 for a 1, in the order
 * of the coded bits. Those missing at the end count as 0.0; those beyond the coded length, and a last piece under four
 * bytes, are neither used nor examined. The pointer needs no alignment.
 *
 * out needs info bytes, and gets the word. scratch needs (info + K-1) * 2^(K-1) bytes, that is (info + 4) * 16 for code
 * 0 and (info + 6) * 64 for 1 and 2, and gets the survivors. Answers the bits of a float, the score: the readings where
 * the word's coded bits are 0, less those where they are 1. Refusals 1 to 6. */
uint64_t relay_decode(uint8_t code, uint8_t rate, size_t info, const uint8_t *readings, size_t readings_len,
                      uint8_t *out, size_t out_len, uint8_t *scratch, size_t scratch_len);

/* The same of readings that are signed bytes, in whole numbers: of libradio.a, where no float is.
 *
 * A reading is one byte from -127 to 127; -128 is refused where it is used. Those missing at the end count as 0; those
 * beyond the coded length are neither used nor examined. That the word is the best is proved for every list of
 * readings.
 *
 * out and scratch are as for relay_decode. Answers the score's 32 bits in two's complement:
 * (int32_t)(uint32_t)answer. The word and the survivors are those that relay_decode gives for the same numbers as
 * floats, and its score is this one as a float. Refusals 1 to 5 and 12. */
uint64_t relay_decode_signed(uint8_t code, uint8_t rate, size_t info, const int8_t *readings, size_t readings_len,
                             uint8_t *out, size_t out_len, uint8_t *scratch, size_t scratch_len);

#ifdef __cplusplus
}
#endif

#endif
