/* libFuzzer's entry for twinebeetle_valid_prefix. */
#include "lent.h"
#include "second_text.h"
#include "twinebeetle.h"

int LLVMFuzzerTestOneInput(const uint8_t *input, size_t size);

int LLVMFuzzerTestOneInput(const uint8_t *input, size_t size)
{
    if (size < CONTROL_BYTES || size - CONTROL_BYTES > MOST_LENT)
        return 0;
    struct control c = read_control(input, 1);
    const uint8_t *data = input + CONTROL_BYTES;
    struct lent text = lend_bytes(0, &c, data, size - CONTROL_BYTES);
    rule(twinebeetle_valid_prefix(text.at, text.length) == second_prefix(data, text.length), "the prefix is the second reading's");
    must_be_kept(&text, data, "what is read is kept");
    return 0;
}
