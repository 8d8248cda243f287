/* libFuzzer's entry for twinebeetle_read_char_def. */
#include "five_tables.h"
#include "second_char_def.h"

int LLVMFuzzerTestOneInput(const uint8_t *input, size_t size);

int LLVMFuzzerTestOneInput(const uint8_t *input, size_t size)
{
    try_reader(twinebeetle_read_char_def, second_char_def, input, size);
    return 0;
}
