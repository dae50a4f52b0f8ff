/* `cgtx replay WORLD SCHEDULE` through the library for C: the same bytes, and the same status where no input or
   output fails. */
#include <cgtx.h>
#include <stdio.h>
#include <stdlib.h>
#include <string.h>

/* The bytes of a file, with their number. */
static char *read_file(const char *name, size_t *length)
{
    FILE *file = fopen(name, "rb");
    char *bytes = NULL;
    size_t room = 0;
    *length = 0;
    if (!file)
        exit(9);
    do {
        room = room ? 2 * room : 65536;
        bytes = realloc(bytes, room);
        if (!bytes)
            exit(9);
        *length += fread(bytes + *length, 1, room - *length, file);
    } while (*length == room);
    fclose(file);
    return bytes;
}

/* Writes the text that was told last, and what else there is behind it. */
static void write_text(cgtx *machine, const char *behind)
{
    char part[4096];
    size_t from = 0, count;
    while ((count = cgtx_text(machine, from, part, sizeof part)) > 0) {
        fwrite(part, 1, count, stdout);
        from += count;
    }
    fputs(behind, stdout);
}

/* Where a status is that of a library that has no memory, or of a program that is wrong, this ends it. */
static void check(uint32_t status)
{
    if (status == CGTX_MEMORY || status >= 100)
        exit(9);
}

int main(int count, char **words)
{
    size_t world_length, length;
    if (count != 3)
        return 9;
    char *world = read_file(words[1], &world_length), *schedule = read_file(words[2], &length);
    cgtx machine = CGTX_CLOSED;
    uint32_t status = cgtx_open(&machine, world, world_length, CGTX_GREATEST_LIMIT);
    if (status == CGTX_SYNTAX) {
        fputs("refused 1 syntax\n", stderr);
        free(world);
        free(schedule);
        return 2;
    }
    check(status);
    for (size_t at = 0; at < length;) {
        char *end = memchr(schedule + at, '\n', length - at);
        size_t line = end ? (size_t)(end - schedule) - at : length - at;
        check(cgtx_step(&machine, schedule + at, line));
        if (cgtx_text_length(&machine))
            write_text(&machine, "\n");
        at += line + 1;
    }
    while ((status = cgtx_abort_oldest(&machine)) == CGTX_DONE)
        write_text(&machine, "\n");
    if (status != CGTX_NONE_OPEN)
        return 9;
    check(cgtx_world(&machine));
    write_text(&machine, "");
    free(world);
    free(schedule);
    return cgtx_close(&machine) == CGTX_DONE ? 0 : 9;
}
