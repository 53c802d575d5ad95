/*
 * compare FIRST SECOND: whether two images are the same, or at least sound the same. Exit status 0: the same; 1: only the sound is the same; 2: not two
 * images; 3: another sound.
 */
#include "doilycairn.h"
#include "support.h"
#include <stdio.h>
#include <stdlib.h>

enum { SAME = 0, ONLY_THE_SOUND = 1, ANOTHER_SOUND = 3 };

/* Rate, gain, block size, coefficients, contexts, loop and samples; then the samples alone, for images that are not the same. */
static int compare(const uint8_t *first, size_t first_len, const uint8_t *second, size_t second_len) {
    doilycairn_comparison compared = doilycairn_same(first, first_len, second, second_len);
    check_reading("same", compared.code, compared.entry);
    if (compared.same) return SAME;
    doilycairn_comparison sound = doilycairn_sounds_same(first, first_len, second, second_len);
    check_reading("sounds same", sound.code, sound.entry);
    return sound.same ? ONLY_THE_SOUND : ANOTHER_SOUND;
}

int main(int argc, char **argv) {
    static const char *const words[] = {[SAME] = "the same", [ONLY_THE_SOUND] = "different, but the same sound", [ANOTHER_SOUND] = "another sound"};
    if (argc != 3) {
        fprintf(stderr, "usage: %s FIRST SECOND\n", argv[0]);
        return 2;
    }
    size_t first_len, second_len;
    uint8_t *first = read_file(argv[1], &first_len);
    uint8_t *second = read_file(argv[2], &second_len);
    int status = compare(first, first_len, second, second_len);
    puts(words[status]);
    free(second);
    free(first);
    return status;
}
