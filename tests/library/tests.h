/* What tests in C share: tests with names, and the cases of the files that $MVT_CASES names (fixtures/tiles/cases.py). */
#ifndef TESTS_H
#define TESTS_H

#include "mvt.h"

#include <stdio.h>
#include <stdlib.h>
#include <string.h>

/* What the program says of a tile, as lines of keys and texts. */
typedef struct {
    const char *name;
    uint8_t *tile;
    size_t len;
    const char *lines;
} told_case;

typedef struct {
    const char *name;
    void (*run)(void);
} named_test;

static const char *tests_at = ""; /* the case that is looked at */

static inline void require(int holds, const char *what) {
    if (holds) return;
    fprintf(stderr, "broken: %s%s%s\n", tests_at, *tests_at == 0 ? "" : ": ", what);
    exit(1);
}

/* These bytes are those. If not, it says both. */
static inline void require_bytes(const void *got, size_t len, const void *wanted, size_t wanted_len, const char *what) {
    if (len == wanted_len && (len == 0 || memcmp(got, wanted, len) == 0)) return;
    fprintf(stderr, "got %.*s\nand wanted %.*s\n", (int)len, (const char *)got, (int)wanted_len, (const char *)wanted);
    require(0, what);
}

/* The next line of a case with this key, or NULL; `len` is that of its text. */
static inline const char *case_line(const char *lines, const char *key, size_t *len) {
    const size_t of_key = strlen(key);
    while (lines != NULL && *lines != 0) {
        const char *end = strchr(lines, '\n');
        *len = (size_t)(end - lines) - (strncmp(lines, key, of_key) == 0 && lines[of_key] == ' ' ? of_key + 1 : 0);
        if (*len != (size_t)(end - lines)) return lines + of_key + 1;
        lines = end + 1;
    }
    return NULL;
}

/* The text of the one line that a case has of a key. */
static inline const char *case_says(const told_case *of, const char *key, size_t *len) {
    *len = 0;
    const char *line = case_line(of->lines, key, len);
    require(line != NULL, key);
    return line;
}

/* All that a case says by a key, a line feed behind each line. To be freed. */
static inline char *case_text(const told_case *of, const char *key, size_t *len) {
    char *text = (char *)malloc(strlen(of->lines) + 1);
    size_t of_line;
    *len = 0;
    for (const char *line = of->lines; (line = case_line(line, key, &of_line)) != NULL; line += of_line) {
        memcpy(text + *len, line, of_line + 1);
        *len += of_line + 1;
    }
    return text;
}

/* A number as a varint; answers the byte behind it. */
static inline uint8_t *put_varint(uint8_t *at, size_t number) {
    for (; number >= 128; number >>= 7) *at++ = (uint8_t)(number | 128);
    *at++ = (uint8_t)number;
    return at;
}

static inline unsigned digit_of(char letter) { return (unsigned)(letter <= '9' ? letter - '0' : letter - 'a' + 10); }

/* The bytes that `digits` hexadecimal digits spell, with room for so many more. To be freed. */
static inline uint8_t *bytes_of_digits(const char *text, size_t digits, size_t room) {
    uint8_t *bytes = (uint8_t *)calloc(digits / 2 + room + 1, 1);
    for (size_t at = 0; at < digits / 2; ++at)
        bytes[at] = (uint8_t)(digit_of(text[2 * at]) << 4 | digit_of(text[2 * at + 1]));
    return bytes;
}

/* The bytes that a case says by a key, which it has. To be freed. */
static inline uint8_t *case_bytes(const told_case *of, const char *key, size_t *len) {
    const char *digits = case_says(of, key, len);
    uint8_t *bytes = bytes_of_digits(digits, *len, 0);
    *len /= 2;
    return bytes;
}

static inline int case_has(const told_case *of, const char *key) {
    size_t len;
    return case_line(of->lines, key, &len) != NULL;
}

static inline char *file_text(const char *path) {
    FILE *file = fopen(path, "rb");
    require(file != NULL && fseek(file, 0, SEEK_END) == 0, path);
    const size_t len = (size_t)ftell(file);
    rewind(file);
    char *text = (char *)malloc(len + 1);
    require(fread(text, 1, len, file) == len, path);
    fclose(file);
    text[len] = 0;
    return text;
}

/* A case of these lines, which end in a zero. */
static inline void look_at(char *lines, void (*look)(const told_case *)) {
    size_t of_name = 0, digits = 0, of_zeros = 0;
    char *name = (char *)case_line(lines, "case", &of_name);
    const char *spelled = case_line(lines, "tile", &digits), *zeros = case_line(lines, "zeros", &of_zeros);
    const size_t more = zeros == NULL ? 0 : strtoul(zeros, NULL, 10);
    require(name != NULL && spelled != NULL, "a case without a name or a tile");
    const told_case one = {name, bytes_of_digits(spelled, digits, more), digits / 2 + more, spelled};
    name[of_name] = 0;
    tests_at = name;
    look(&one);
    free(one.tile);
    tests_at = "";
}

/* Looks at each case of a file, of which there is one at least. */
static inline void each_case_of(const char *path, void (*look)(const told_case *)) {
    char *text = file_text(path), *end;
    for (char *lines = text; *lines != 0; lines = end) {
        end = strstr(lines, "\n\n");
        if (end != NULL)
            end[1] = 0, end += 2;
        else
            end = lines + strlen(lines);
        look_at(lines, look);
    }
    free(text);
}

/* Looks at each case of the files that $MVT_CASES names. */
static inline void each_case(void (*look)(const told_case *)) {
    require(getenv("MVT_CASES") != NULL, "MVT_CASES names the files of cases");
    char *paths = strcpy((char *)malloc(strlen(getenv("MVT_CASES")) + 1), getenv("MVT_CASES"));
    for (char *path = strtok(paths, ":"); path != NULL; path = strtok(NULL, ":")) each_case_of(path, look);
    free(paths);
}

/* Runs the tests of these names, or all where none is named. */
static inline int run_tests(const named_test *tests, size_t count, int names, char **name) {
    int ran = 0;
    for (size_t at = 0; at < count; ++at) {
        int is_named = names == 1;
        for (int i = 1; i < names; ++i) is_named |= strcmp(name[i], tests[at].name) == 0;
        if (is_named) tests[at].run(), ++ran;
    }
    require(ran >= (names == 1 ? 1 : names - 1), "a test of that name");
    return 0;
}

#define RUN_TESTS(tests)                                                                                               \
    int main(int names, char **name) { return run_tests(tests, sizeof tests / sizeof *tests, names, name); }

#endif
