#include "second_text.h"

size_t second_character(const uint8_t *s, size_t n, uint32_t *code)
{
    static const uint32_t least[5] = {0, 0, 0x80, 0x800, 0x10000};
    if (n == 0)
        return 0;
    size_t octets = s[0] < 0x80 ? 1 : s[0] >> 5 == 6 ? 2 : s[0] >> 4 == 14 ? 3 : s[0] >> 3 == 30 ? 4 : 0;
    if (octets == 0 || octets > n)
        return 0;
    *code = octets == 1 ? s[0] : s[0] & (0x7F >> octets);
    for (size_t i = 1; i < octets; i++) {
        if (s[i] >> 6 != 2)
            return 0;
        *code = *code << 6 | (s[i] & 0x3F);
    }
    return *code < least[octets] || *code > 0x10FFFF || (*code >= 0xD800 && *code <= 0xDFFF) ? 0 : octets;
}

size_t second_prefix(const uint8_t *s, size_t n)
{
    size_t at = 0;
    uint32_t code;
    for (size_t octets; (octets = second_character(s + at, n - at, &code)) != 0;)
        at += octets;
    return at;
}

static unsigned digit(uint32_t c)
{
    if (c >= '0' && c <= '9')
        return c - '0';
    if (c >= 'a' && c <= 'f')
        return c - 'a' + 10;
    return c >= 'A' && c <= 'F' ? c - 'A' + 10 : 99;
}

int second_numeral(const uint32_t *codes, size_t n, unsigned base, uint64_t most, int may_be_less, int64_t *value)
{
    int less = may_be_less && n > 0 && codes[0] == '-';
    size_t from = less || (n > 0 && codes[0] == '+');
    uint64_t sum = 0;
    if (from == n)
        return 0;
    for (size_t i = from; i < n; i++) {
        if (digit(codes[i]) >= base)
            return 0;
        sum = sum * base + digit(codes[i]);
        if (sum > most + (uint64_t)less)
            return 0;
    }
    *value = less ? -(int64_t)sum : (int64_t)sum;
    return 1;
}
