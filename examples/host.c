/* A host of the coding layer, in C and in C++: a message is encoded, sent over a noisy path, decoded and read back; and two calls are refused.

       cc host.c $(pkg-config --cflags --libs malligovu) -o host && ./host

   with the variables set that install.sh prints, where it installs elsewhere than in the system's folders; bench/installed.sh tries it. */
#include <inttypes.h>
#include <malligovu.h>
#include <stdio.h>

/* the code: m = 6 and t = 3 give words of 63 bits with 45 message bits; s = 3 of them are left out, so 60 bits are sent */
enum { M = 6, T = 3, S = 3, BITS = 60, ORDER = 2 };

/* noise of a deviation near 0.6, picked so that some bits are heard wrongly and the word still comes back: twelve uniform numbers,
   summed, are near enough to a normal one */
static double noise(void) {
    static uint32_t state = 1;
    double sum = -6;
    for (int i = 0; i < 12; i++) sum += (state = state * 1664525 + 1013904223) / 4294967296.0;
    return 0.6 * sum;
}

/* a bit 0 is sent as +1 and a bit 1 as -1; what is heard is a signed byte, 48 where there is no noise */
static int8_t heard(int bit) {
    double value = 48 * ((bit ? -1 : 1) + noise());
    return value > 127 ? 127 : value < -128 ? -128 : (int8_t)value;
}

/* says which call returned what it was not expected to */
static int unexpected(const char *call, uint32_t number) {
    printf("%s returned %" PRIu32 "\n", call, number);
    return 1;
}

int main(void) {
    uint64_t message = 0x2a5f00c0de, back = 0;
    uint8_t sent[MALLIGOVU_MOST_BYTES], got[MALLIGOVU_MOST_BYTES];
    int8_t soft[MALLIGOVU_MOST_VALUES];
    uint32_t figures[MALLIGOVU_FIGURES], number, place;
    int wrong = 0;

    number = malligovu_encode(M, T, S, message, sent, sizeof sent);
    if (number != MALLIGOVU_TAKEN) return unexpected("encode", number);
    for (int i = 0; i < BITS; i++) {
        int bit = sent[i / 8] >> i % 8 & 1;
        soft[i] = heard(bit);
        wrong += (soft[i] < 0) != bit;
    }
    printf("sent      %010" PRIx64 " in %d bits, %d of them heard wrongly\n", message, BITS, wrong);

    number = malligovu_decode(M, T, S, ORDER, soft, BITS, got, sizeof got, figures, MALLIGOVU_FIGURES);
    if (number != MALLIGOVU_TAKEN) return unexpected("decode", number);
    printf("decoded   soft distance %" PRIu32 ", %" PRIu32 " bits put right, %" PRIu32 " candidates\n", figures[MALLIGOVU_DISTANCE],
           figures[MALLIGOVU_FLIPS], figures[MALLIGOVU_CANDIDATES]);

    /* where S > 0 a decoded word may have a one that was never sent, and is then refused here */
    number = malligovu_read(M, T, S, got, sizeof got, &back, 1);
    if (number != MALLIGOVU_TAKEN) return unexpected("read", number);
    printf("read      %010" PRIx64 "\n", back);

    /* one value is missing: nothing is written */
    number = malligovu_decode(M, T, S, ORDER, soft, BITS - 1, got, sizeof got, figures, MALLIGOVU_FIGURES);
    if (number != MALLIGOVU_WRONG_COUNT) return unexpected("decode", number);
    printf("refused   %" PRIu32 ", a count of values other than n - s\n", number);

    /* two ones above the 60 bits that are sent, at 61 and 62: the number says what is wrong, and malligovu_fault where */
    sent[7] |= 1 << 5 | 1 << 6;
    number = malligovu_read(M, T, S, sent, sizeof sent, &back, 1);
    if (number != MALLIGOVU_UNSENT_BIT) return unexpected("read", number);
    place = malligovu_fault(M, T, S, sent, sizeof sent);
    printf("refused   %" PRIu32 ", a one at the unsent position %" PRIu32 "\n", number, place);
    return back != message || place != 61;
}
