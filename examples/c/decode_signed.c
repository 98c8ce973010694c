/* Decodes the word 1011 from signed bytes, one of them damaged, and prints the word and its score. There is no float
 * here, nor in libradio.a, the one archive that it is linked with; tools/example-c builds and runs it.
 * host/examples/decode_signed.rs is the same in Rust. */
#include "relay.h"
#include <stdio.h>

/* K = 5 at rate 1/2: two coded bits for each info bit and for each of the four zeros behind them. */
enum { K5 = 0, HALF = 0, INFO = 4, STEPS = INFO + 4, CODED = 2 * STEPS, STATES = 16 };

int main(void) {
    /* What relay_encode, which is in the other archive, gives for 1011; received as 100 for a 0 and -100 for a 1, but
     * for the third, which arrives on the wrong side. */
    const uint8_t coded[CODED] = {1, 1, 0, 0, 0, 1, 1, 0, 0, 1, 1, 1, 1, 0, 1, 1};
    int8_t readings[CODED];
    uint8_t word[INFO], scratch[STEPS * STATES];

    for (int i = 0; i < CODED; i++) readings[i] = coded[i] ? -100 : 100;
    readings[2] = -30;

    uint64_t answer = relay_decode_signed(K5, HALF, INFO, readings, sizeof readings, word, sizeof word, scratch,
                                          sizeof scratch);
    uint32_t number = (uint32_t)(answer >> 32), low = (uint32_t)answer;
    if (number != 0) {
        printf("refused %u at %u\n", (unsigned)number, (unsigned)low);
        return 1;
    }
    printf("word ");
    for (int i = 0; i < INFO; i++) printf("%d", word[i]);
    printf(" score %d\n", (int)(int32_t)low);
    return 0;
}
