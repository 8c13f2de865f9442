#include "text.h"

#include <string.h>

void add_bytes(struct text *text, const void *bytes, size_t length)
{
    size_t left = TEXT_ROOM - text->length;
    size_t taken = length < left ? length : left;
    memcpy(text->bytes + text->length, bytes, taken);
    text->length += taken;
}

void add_string(struct text *text, const char *string)
{
    add_bytes(text, string, strlen(string));
}

void add_times(struct text *text, const char *string, size_t times)
{
    for (size_t i = 0; i < times; i++)
        add_string(text, string);
}

bool opens_annotation(const uint8_t *bytes, size_t length)
{
    for (size_t i = 1; i < length; i++)
        if (bytes[i - 1] == '{' && bytes[i] == '&')
            return true;
    return false;
}
