/* Encode, read and decode words of the nine BCH codes with n = 15, 31 or 63 and t = 1, 2 or 3, plain or shortened.

   A code is named by m and t: n = 2^m - 1 positions, of which s, the highest, are not sent, and k message bits:

       m    n    W    k at t = 1, 2, 3
       4   15    2    11   7   5
       5   31    4    26  21  16
       6   63    8    57  51  45

   Position j is the coefficient of x^j and, of a word as a number, bit j. A codeword's polynomial is zero at a, a^2, .., a^(2t), with
   a a root of x^4+x+1, x^5+x^2+1 or x^6+x+1; the generators at t = 1, 2, 3 are in octal 23, 721, 2467 for m = 4, 45, 3551, 107657
   for m = 5, and 103, 12471, 1701317 for m = 6.

   A word is its n bits in W bytes: bit j is bit j mod 8 of byte j div 8. Message bit i, for i below k - s, stands at position
   n - k + i, the parity below them all, and zeros above.

   Each function but malligovu_fault returns 0, or the number of the first refusal that applies, in the order that stands at the
   function. Where it returns any number but 0, nothing is written anywhere. Where it returns 0, it has written what stands at the
   function, and nothing past that.

   Any number may be passed for m, t, s, order and the message, and any length. A pointer points to as many values as the length
   after it says and is aligned for them; a null pointer goes only with a length of 0. Memory that is written overlaps no other.

   For Linux on x86-64-v2 or above. The functions keep nothing from call to call, allocate nothing, and may run in several threads
   at once. They need memcpy and memset of the C library and nothing else. Encode and read take some 100 and 240 bytes of stack and,
   at m = 6 and t = 3, 400 and 490 instructions; read of a word that it refuses with 10, and malligovu_fault of it, 390 bytes and up
   to some 3,300 instructions. What they take is measured, not proved: here and below with an older kit, rattle-kit-5b, before the
   port to rattle-kit-13f. */
#ifndef MALLIGOVU_H
#define MALLIGOVU_H

#include <stddef.h>
#include <stdint.h>

#ifdef __cplusplus
extern "C" {
#endif

/* The number of the last change request that is in the library, 0 for none: requests 1 to this one are in. It goes up with each, so
   that a host can test when it is compiled what it has, `#if MALLIGOVU_VERSION >= 1`. It is this header's, not that of a shared
   library which is loaded later. 1: in the program a header of three numbers means order t; no function changed. 2: what
   malligovu_read refused with 8 it refuses with 8, 9 or 10, and malligovu_fault tells where. CHANGES.md in the source has more. */
#define MALLIGOVU_VERSION 2

/* The most of any code: the bytes of a word, W, and the soft values of a received word, n - s. */
#define MALLIGOVU_MOST_BYTES 8
#define MALLIGOVU_MOST_VALUES 63

/* What a function returns. */
enum malligovu_refusal {
    MALLIGOVU_TAKEN = 0,            /* nothing is refused */
    MALLIGOVU_UNKNOWN_CODE = 1,     /* m is not 4 to 6, or t is not 1 to 3 */
    MALLIGOVU_LARGE_SHORTENING = 2, /* s is k or more */
    MALLIGOVU_HIGH_ORDER = 3,       /* order is above 3 */
    MALLIGOVU_WRONG_COUNT = 4,      /* the count of soft values is not n - s */
    MALLIGOVU_SMALL_BUFFER = 5,     /* there are fewer than W bytes */
    MALLIGOVU_NO_CANDIDATE = 6,     /* no candidate exists */
    MALLIGOVU_LARGE_MESSAGE = 7,    /* the message is 2^(k-s) or more */
    /* 8 has become narrower: before version 2 it stood for 9 and 10 too, under the name MALLIGOVU_UNREADABLE. That name is gone, so
       that a host which compares with it does not compile until it compares with all three. */
    MALLIGOVU_PAD_BIT = 8,          /* bit n of the word's bytes, the one above its n bits, is 1 */
    MALLIGOVU_UNSENT_BIT = 9,       /* a bit at an unsent position, n - s to n - 1, is 1 */
    MALLIGOVU_MISSING_ROOT = 10     /* the word is no codeword: one at least of a, a^2, .., a^(2t) is no root of it */
};

/* Where decode's figures stand, and how many there are; a later version adds some only at the end. */
enum malligovu_figure {
    MALLIGOVU_DISTANCE = 0,   /* the word's soft distance */
    MALLIGOVU_FLIPS = 1,      /* at how many positions it differs from the received bits */
    MALLIGOVU_CANDIDATES = 2, /* how many candidates there are */
    MALLIGOVU_FIGURES = 3
};

/* Encodes a message.
   Refuses: 1, 2, 7, 5.
   Writes: the word into the first W bytes of `word`. */
uint32_t malligovu_encode(uint32_t m, uint32_t t, uint32_t s, uint64_t message, uint8_t *word, size_t word_length);

/* Reads the message of the word in the first W bytes of `word`; corrects nothing. Where s > 0 it may refuse, with 9, a word that
   decode wrote: one that has a one at an unsent position, and so was not sent.
   Refuses: 1, 2, 5, 8, 9, 10.
   Writes: the message into message[0]; nothing where `message_length` is 0. */
uint32_t malligovu_read(uint32_t m, uint32_t t, uint32_t s, const uint8_t *word, size_t word_length, uint64_t *message,
                        size_t message_length);

/* Tells what a refusal of malligovu_read says beside its number, for the same code and word: with 9 the lowest unsent position that
   holds a 1; with 10 the lowest power of a at which the word is not zero, 1, 3 or 5; and 0 where malligovu_read returns another
   number. It is no refusal's number, and 0 does not say that the word was accepted: ask for it where malligovu_read has returned 9
   or 10.
   Writes: nothing. */
uint32_t malligovu_fault(uint32_t m, uint32_t t, uint32_t s, const uint8_t *word, size_t word_length);

/* Decodes `soft_length` soft values, position 0 first: a value below 0 stands for bit 1, and its size is its reliability. Of the
   candidates, the codewords that differ from the received bits in at most `order` (0 to 3) of the n - 2t most reliable positions
   (among equals the lower is taken), it takes the one of least soft distance, the lowest as a number where several tie. The soft
   distance is the sum of the reliabilities where they differ. An unsent position counts as the value 127, and a word with a one
   there is written as it is.
   A higher order refuses less (with t = 1 nothing from order 1 on, with t = 2 next to nothing from order 2 on), and some of what it
   no longer refuses is written wrong; order 0 mostly loses more words than hard decisions do. Where all values have one size, 1 to
   127, an order of t or more brings back every word with at most t wrong bits, and a lower one may refuse it or write another. A
   host to which a wrong word is worse than none takes only words of a small distance or, less surely, of few flips; with t = 1 that
   does not shut wrong words out, since three wrong bits may make another codeword, of distance 0. docs/ORDERS.md in the source has
   the rates.
   Stack: 3,405 bytes were the most seen. Instructions, on average at an Eb/N0 of 4 dB, at orders 0, 1, 2, 3: 5,900, 6,400, 7,600,
   44,500 for n = 63, t = 3, and 2,650, 2,950, 7,500, 30,300 for n = 15, t = 1; the most at n = 63, t = 1, order 3: 655,800.
   Refuses: 1, 2, 3, 4, 5, 6.
   Writes: the word into the first W bytes of `word`; and into `figures`, as many as there is room for, the figures above. */
uint32_t malligovu_decode(uint32_t m, uint32_t t, uint32_t s, uint32_t order, const int8_t *soft, size_t soft_length,
                          uint8_t *word, size_t word_length, uint32_t *figures, size_t figures_length);

#ifdef __cplusplus
}
#endif

#endif
