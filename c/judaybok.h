/*
 * Judaybok: the likeliest letters behind a recording of samples.
 *
 * Link with libjudaybok.a (made by `rt lib` in the folder crates/judaybok, as out/libjudaybok.a there). Nothing else is
 * needed: the library allocates no memory, keeps no state, and calls nothing of the operating system.
 */
#ifndef JUDAYBOK_H
#define JUDAYBOK_H

#include <stddef.h>
#include <stdint.h>

#ifdef __cplusplus
extern "C" {
#endif

/* The most bytes that a recording has, and the most letters that one gives. */
#define JUDAYBOK_MOST_BYTES 65536
#define JUDAYBOK_MOST_LETTERS 512

/*
 * What a recording gives.
 *
 * Accepted: `number`, `layer` and `place` are 0. `samples` is how many samples the recording holds, which is also how
 * many letters were written. `paths` is the number of admissible paths, modulo 2^64. `cost` is the cost of the reported
 * path, which comes first in the order among the cheapest; `ties` is how many paths cost as little, modulo 2^64.
 * `has_second` is 1 where there is another admissible path, and `second` is then the least cost among the others;
 * else both are 0. `start` and `end` are the first and the last state of the reported path.
 *
 * Refused: `number` is the refusal's (never 0), `layer` is 1 for blocks, 2 for lines, 3 for makers and anchors, and 4
 * for take and report, and `place` is a byte offset in the recording. All other fields are 0.
 */
typedef struct judaybok_answer {
    uint32_t number;
    uint32_t layer;
    uint64_t place;
    uint64_t samples;
    uint64_t paths;
    uint64_t cost;
    uint64_t ties;
    uint64_t has_second;
    uint64_t second;
    uint64_t start;
    uint64_t end;
} judaybok_answer;

/*
 * Reads the recording of `recording_length` bytes, and answers what the program `detect` answers on it.
 *
 * Where it is accepted, the letters of the reported path are written into `letters`, one byte a letter, from the byte
 * `place` on, and nothing else in `letters` is changed. Where it is refused, nothing in `letters` is changed. If the
 * recording is good and its letters do not fit (`place` is past `letters_length`, or fewer bytes than letters follow),
 * the refusal is 25, layer 4, at the end block. 512 bytes from the place on are always enough.
 *
 * The call ends on every input, reads nothing outside the recording, and writes nothing outside `letters` and `answer`.
 * It asks this of its caller: `recording` points to `recording_length` bytes and `letters` to `letters_length` bytes,
 * neither is null (also where the length is 0: any other address does then), `answer` points to an answer, and the three
 * do not overlap. Lengths are below 2^63.
 *
 * Returns `answer->number`: 0 where the recording is accepted.
 */
uint32_t judaybok_detect(const uint8_t *recording, size_t recording_length, uint8_t *letters, size_t letters_length,
                         size_t place, judaybok_answer *answer);

#ifdef __cplusplus
}
#endif

#endif
