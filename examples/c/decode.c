/* Encodes the word 1011, takes the coded bits for readings, decodes these and prints the word and its score.
 * tools/example-c builds and runs it; host/examples/decode.rs is the same in Rust. */
#include "relay.h"
#include <stdio.h>
#include <string.h>

/* K = 5 at rate 1/2: two coded bits for each info bit and for each of the four zeros behind them. */
enum { K5 = 0, HALF = 0, INFO = 4, STEPS = INFO + 4, CODED = 2 * STEPS, STATES = 16 };

int main(void) {
    const uint8_t info[INFO] = {1, 0, 1, 1};
    uint8_t coded[CODED], word[INFO], scratch[STEPS * STATES];
    float readings[CODED], score;

    if (relay_encode(K5, HALF, info, INFO, coded, CODED) != CODED) return 1;
    for (int i = 0; i < CODED; i++) readings[i] = coded[i] ? -1.0f : 1.0f;

    /* A door takes readings as bytes, low first, which is how x86-64 and aarch64 keep a float. */
    uint64_t answer = relay_decode(K5, HALF, INFO, (const uint8_t *)readings, sizeof readings, word, sizeof word,
                                   scratch, sizeof scratch);
    uint32_t number = (uint32_t)(answer >> 32), low = (uint32_t)answer;
    if (number != 0) {
        printf("refused %u at %u\n", (unsigned)number, (unsigned)low);
        return 1;
    }
    memcpy(&score, &low, sizeof score);
    printf("word ");
    for (int i = 0; i < INFO; i++) printf("%d", word[i]);
    printf(" score %g\n", score);
    return 0;
}
