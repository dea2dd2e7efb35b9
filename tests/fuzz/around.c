/* Any bytes with any fault, through mvt_around, for libFuzzer: what tests/library/around.c asks of each case. The last bytes say
 * the fault. */
#define main main_of_the_tests
#include "../library/around.c"

int LLVMFuzzerTestOneInput(const uint8_t *data, size_t size);

int LLVMFuzzerTestOneInput(const uint8_t *data, size_t size) {
    mvt_fault fault;
    if (mvt_judge(data, size, &fault) == MVT_REFUSED) look(data, size, &fault);
    if (size < 4) return 0;
    const uint8_t *said = data + size - 4;
    const mvt_fault made_up = {
        (int8_t)said[0], (int8_t)said[1], said[2] == 255 ? UINT64_MAX : said[2], said[3] % 32, {NULL, 0}};
    look(data, size, &made_up);
    return 0;
}
