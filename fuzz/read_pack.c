/* libFuzzer's entry for twinebeetle_read_pack. */
#include "five_tables.h"

int LLVMFuzzerTestOneInput(const uint8_t *input, size_t size);

int LLVMFuzzerTestOneInput(const uint8_t *input, size_t size)
{
    try_reader(twinebeetle_read_pack, second_reading, input, size);
    return 0;
}
