/* list EDITION IMAGE [DIRECTORY]: lists the names in a directory with attributes, as an emulator would show them. Of an image
 * that isn't sound it shows what `unixvol check` does. */
#include "unixvol.h"

#include <stdio.h>
#include <stdlib.h>
#include <string.h>

/* Reads a whole file; the caller frees it. */
static void *read_file(const char *name, size_t *count)
{
    FILE *file = fopen(name, "rb");
    uint8_t *bytes = NULL;
    size_t room = 0;
    *count = 0;
    while (file && !feof(file) && !ferror(file)) {
        if (*count == room) {
            room = 2 * room + 65536;
            uint8_t *grown = realloc(bytes, room);
            if (!grown)
                break;
            bytes = grown;
        }
        *count += fread(bytes + *count, 1, room - *count, file);
    }
    if (!file || ferror(file) || !feof(file)) {
        free(bytes);
        bytes = NULL;
    }
    if (file)
        fclose(file);
    return bytes;
}

/* Returns the names in a directory; the caller frees them. */
static unixvol_entry *list(unixvol *volume, const char *path, size_t *count, int32_t *number)
{
    unixvol_entry *entries = NULL;
    size_t room = 0;
    *count = 0;
    do {
        room = *count;
        unixvol_entry *grown = realloc(entries, (room + 1) * sizeof *entries);
        *number = grown ? unixvol_list(volume, 0, 0, path, strlen(path), grown, room, count) : UNIXVOL_NO_MEMORY;
        entries = grown ? grown : entries;
    } while (*number == UNIXVOL_DONE && *count > room);
    return entries;
}

/* Prints one name of a directory. */
static int32_t print_entry(unixvol *volume, const char *directory, const unixvol_entry *entry)
{
    char path[1024];
    int count = snprintf(path, sizeof path, "%s/%.14s", directory, (const char *)entry->name);
    unixvol_node node;
    int32_t number = unixvol_stat(volume, 0, 0, path, (size_t)count, &node);
    if (number == UNIXVOL_DONE)
        printf("%5u %c%04o %3u %3u %3u %8u %.14s\n", (unsigned)node.inode, "?-ds"[node.kind],
               (unsigned)node.permissions, (unsigned)node.links, (unsigned)node.uid, (unsigned)node.gid,
               (unsigned)node.size, (const char *)entry->name);
    return number;
}

/* Prints the text of a number that isn't 0. */
static void tell(int32_t number)
{
    char text[32];
    size_t count;
    if (unixvol_name((uint16_t)number, text, sizeof text, &count) == UNIXVOL_DONE)
        fprintf(stderr, "list: %.*s\n", (int)count, text);
}

/* Prints which of the twelve rules an image breaks, and what breaks them. */
static void check(uint8_t edition, const void *bytes, size_t size)
{
    unixvol_view view = {.kind = UNIXVOL_LOOK_CHECK};
    unixvol_seen seen;
    char text[4096];
    if (unixvol_look(edition, bytes, size, &view, NULL, 0, NULL, 0, text, sizeof text, &seen) == UNIXVOL_DONE)
        fwrite(text, 1, seen.text + seen.lines, stderr);
}

int main(int argc, char **argv)
{
    if (argc < 3 || (argc > 3 && strlen(argv[3]) > 1000)) {
        fprintf(stderr, "usage: list EDITION IMAGE [DIRECTORY]\n");
        return 2;
    }
    const char *directory = argc > 3 ? argv[3] : "/";
    unixvol volume = UNIXVOL_CLOSED;
    size_t size, count = 0;
    void *bytes = read_file(argv[2], &size);
    if (!bytes) {
        perror(argv[2]);
        return 1;
    }
    uint8_t edition = (uint8_t)atoi(argv[1]);
    int32_t number = unixvol_open(&volume, edition, bytes, size);
    if (number > UNIXVOL_UNSOUND && number <= UNIXVOL_UNSOUND + 12)
        check(edition, bytes, size);
    free(bytes);
    unixvol_entry *entries = NULL;
    if (number == UNIXVOL_DONE)
        entries = list(&volume, directory, &count, &number);
    for (size_t at = 0; number == UNIXVOL_DONE && at < count; at++)
        number = print_entry(&volume, directory, &entries[at]);
    free(entries);
    unixvol_close(&volume);
    if (number != UNIXVOL_DONE)
        tell(number);
    return number != UNIXVOL_DONE;
}
