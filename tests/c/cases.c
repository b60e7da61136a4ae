/* The cases of standard input, one call a line. Its fields, separated by a space, are
       function key tweak payload data pack place number after payload_length list list_after failed_place
   Bytes are hexadecimal digits, two a byte, and the numbers of a list four each, or `-` for none; after and list_after
   are `=` where data and the list are as they were. All other numbers are decimal. */
#include "call.h"
#include "groups.h"
#include "report.h"
#include <errno.h>
#include <string.h>

enum { MOST = 130 * 512 + 1, LINE = 5 * MOST }; /* bytes of a field, and characters of a line */

/* The next field of the line; the first call is given the line, and each further one NULL. */
static const char *field(char *line) {
    const char *text = strtok(line, " \n");
    if (text == NULL) DIFFERS("a field is missing");
    return text;
}

static function named(const char *text) {
    int i = 0;
    while (i < FUNCTIONS && strcmp(text, function_names[i]) != 0) i++;
    if (i == FUNCTIONS) DIFFERS("there is no function %s", text);
    return (function)i;
}

static uint8_t digit(char character) {
    static const char digits[] = "0123456789abcdef";
    const char *found = memchr(digits, character, 16);
    if (found == NULL) DIFFERS("a byte is not two digits");
    return (uint8_t)(found - digits);
}

/* The bytes of the next field, which are kept in the room; `=` stands for those of before. */
static slice bytes(uint8_t room[MOST], const slice *before) {
    const char *text = field(NULL);
    slice read = {room, 0};
    if (before != NULL && strcmp(text, "=") == 0) return *before;
    if (strcmp(text, "-") == 0) return read;
    for (; text[0] != 0; text += 2) {
        if (read.length == MOST) DIFFERS("a field has over %d bytes", MOST);
        room[read.length++] = (uint8_t)(digit(text[0]) << 4 | digit(text[1]));
    }
    return read;
}

/* The same of a list. */
static slice list(uint16_t room[MOST], const slice *before) {
    static uint8_t digits[MOST];
    slice read = bytes(digits, before);
    if (before != NULL && read.bytes == before->bytes) return read;
    if (read.length % 2 != 0) DIFFERS("a number of a list is not four digits");
    for (size_t i = 0; i < read.length; i += 2) room[i / 2] = (uint16_t)(digits[i] << 8 | digits[i + 1]);
    read.bytes = (const uint8_t *)room;
    return read;
}

static uint64_t number(uint64_t most) {
    const char *text = field(NULL);
    char *end;
    errno = 0;
    unsigned long long value = strtoull(text, &end, 10);
    if (errno != 0 || *end != 0 || value > most) DIFFERS("%s is no number, or over its limit", text);
    return value;
}

static void hold_line(char *line) {
    static uint8_t rooms[5][MOST];
    static uint16_t lists[2][MOST];
    call c = {.name = named(field(line))};
    c.key = bytes(rooms[0], NULL);
    c.tweak = bytes(rooms[1], NULL);
    c.payload = bytes(rooms[2], NULL);
    c.data = bytes(rooms[3], NULL);
    c.pack = number(UINT64_MAX);
    c.place = (uint32_t)number(UINT32_MAX);
    c.number = (uint32_t)number(UINT32_MAX);
    slice after = bytes(rooms[4], &c.data);
    c.after = after.bytes;
    c.payload_length = (size_t)number(UINT16_MAX);
    c.list = list(lists[0], NULL);
    slice list_after = list(lists[1], &c.list);
    c.list_after = list_after.bytes;
    c.failed_place = (uint32_t)number(UINT32_MAX);
    int fits = after.length == c.data.length && list_after.length == c.list.length;
    if (!fits || strtok(NULL, " \n") != NULL) DIFFERS("the line is not understood");
    hold(&c);
}

void cases(void) {
    static char line[LINE];
    unsigned long lines = 0;
    while (fgets(line, LINE, stdin) != NULL) {
        TRYING("line %lu", ++lines);
        if (strchr(line, '\n') == NULL) DIFFERS("it has no line feed, or over %d characters", LINE - 2);
        hold_line(line);
    }
    printf("%lu lines, %lu calls\n", lines, calls);
}
