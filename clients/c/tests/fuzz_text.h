/* Texts under libFuzzer: what libc has, byte by byte, in place of what a sanitizer does around each call of
 * it. Each byte is looked at where it is read and written, and a run takes a third of the time. */
#ifndef FUZZ_TEXT_H
#define FUZZ_TEXT_H

#include <stdarg.h>
#include <stdbool.h>
#include <stdint.h>
#include <stdio.h>
#include <string.h>

#ifdef __clang__
#define SLOWLY __attribute__((no_builtin, no_sanitize("coverage"), unused)) static
#else
#define SLOWLY __attribute__((unused)) static
#endif

SLOWLY size_t text_length(const char *text) {
    size_t length = 0;
    while (text[length])
        length++;
    return length;
}

SLOWLY size_t text_length_within(const char *text, size_t most) {
    size_t length = 0;
    while (length < most && text[length])
        length++;
    return length;
}

SLOWLY int text_compare_some(const char *one, const char *other, size_t most) {
    for (size_t i = 0; i < most; i++)
        if (one[i] != other[i] || one[i] == 0) return (uint8_t)one[i] - (uint8_t)other[i];
    return 0;
}

SLOWLY int text_compare(const char *one, const char *other) {
    return text_compare_some(one, other, SIZE_MAX);
}

SLOWLY char *text_copy(char *to, const char *text) {
    size_t i = 0;
    while ((to[i] = text[i]))
        i++;
    return to;
}

SLOWLY bool text_has(const char *set, char byte) {
    while (*set && *set != byte)
        set++;
    return *set != 0;
}

SLOWLY size_t text_span(const char *text, const char *set, bool has) {
    size_t length = 0;
    while (text[length] && text_has(set, text[length]) == has)
        length++;
    return length;
}

SLOWLY char *text_word(char *text, const char *between, char **rest) {
    char *word = text ? text : *rest;
    word += text_span(word, between, true);
    *rest = word + text_span(word, between, false);
    if (*word == 0) return NULL;
    if (**rest) *(*rest)++ = 0;
    return word;
}

/* Of "%s" and "%.*s", which say what is most often written. */
SLOWLY int text_write(char *to, size_t room, const char *format, ...) {
    va_list values;
    va_start(values, format);
    bool is_whole = text_compare(format, "%s") == 0, is_part = text_compare(format, "%.*s") == 0;
    size_t most = is_part ? (size_t)va_arg(values, int) : SIZE_MAX, length = 0;
    if (is_whole || is_part) {
        const char *text = va_arg(values, const char *);
        for (; length < most && text[length]; length++)
            if (length + 1 < room) to[length] = text[length];
        if (room > 0) to[length < room ? length : room - 1] = 0;
    } else {
        length = (size_t)vsnprintf(to, room, format, values);
    }
    va_end(values);
    return (int)length;
}

#define strlen(text)                  text_length(text)
#define strnlen(text, most)           text_length_within(text, most)
#define strcmp(one, other)            text_compare(one, other)
#define strncmp(one, other, most)     text_compare_some(one, other, most)
#define strcpy(to, text)              text_copy(to, text)
#define strspn(text, set)             text_span(text, set, true)
#define strcspn(text, set)            text_span(text, set, false)
#define strtok_r(text, between, rest) text_word(text, between, rest)
#define snprintf                      text_write

#endif
