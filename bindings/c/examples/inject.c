/* inject EDITION IMAGE FILE PATH: puts a file into a pack, as an emulator may while the guest is stopped after a sync.
 * The image is written back in place, and only after the whole change was made and the new bytes were judged sound. */
#include "unixvol.h"

#include <stdio.h>
#include <stdlib.h>
#include <string.h>
#include <time.h>

/* Reads a whole file; the caller frees it. An empty file is allocated too. */
static void *read_file(const char *name, size_t *count)
{
    FILE *file = fopen(name, "rb");
    uint8_t *bytes = NULL;
    size_t room = 0;
    *count = 0;
    while (file && !feof(file) && !ferror(file)) {
        if (*count == room) {
            room = 2 * room + 65536;
            uint8_t *grown = realloc(bytes, room);
            if (!grown)
                break;
            bytes = grown;
        }
        *count += fread(bytes + *count, 1, room - *count, file);
    }
    if (!file || ferror(file) || !feof(file)) {
        free(bytes);
        bytes = NULL;
    }
    if (file)
        fclose(file);
    return bytes;
}

/* Makes a file with these bytes, for user 0. If a step is refused, no file is left. */
static int32_t inject(unixvol *volume, const char *path, const void *bytes, size_t count)
{
    uint32_t now = (uint32_t)time(NULL);
    uint16_t inode;
    int32_t number = unixvol_create(volume, 0, 0, now, path, strlen(path), 0644, &inode);
    if (number != UNIXVOL_DONE)
        return number;
    number = unixvol_write(volume, 0, 0, now, path, strlen(path), 0, bytes, count);
    if (number != UNIXVOL_DONE)
        unixvol_unlink(volume, 0, 0, now, path, strlen(path));
    return number;
}

/* Opens the pack's bytes, injects the file, and copies the new bytes over the old ones. */
static int32_t change(uint8_t edition, void *pack, size_t size, const char *path, const void *bytes, size_t count)
{
    unixvol volume = UNIXVOL_CLOSED;
    int32_t number = unixvol_open(&volume, edition, pack, size);
    if (number == UNIXVOL_DONE)
        number = inject(&volume, path, bytes, count);
    if (number == UNIXVOL_DONE)
        number = unixvol_image(&volume, pack, size);
    if (number == UNIXVOL_DONE)
        number = unixvol_judge(edition, pack, size);
    unixvol_close(&volume);
    return number;
}

/* Writes bytes over those of a file. */
static int write_over(const char *name, const void *bytes, size_t count)
{
    FILE *file = fopen(name, "r+b");
    int is_written = file && fwrite(bytes, 1, count, file) == count;
    if (file && fclose(file) != 0)
        is_written = 0;
    return is_written;
}

/* Prints the text of a number that isn't 0. */
static void tell(int32_t number)
{
    char text[32];
    size_t count;
    if (unixvol_name((uint16_t)number, text, sizeof text, &count) == UNIXVOL_DONE)
        fprintf(stderr, "inject: %.*s\n", (int)count, text);
}

int main(int argc, char **argv)
{
    if (argc != 5) {
        fprintf(stderr, "usage: inject EDITION IMAGE FILE PATH\n");
        return 2;
    }
    size_t size, count;
    void *pack = read_file(argv[2], &size), *bytes = read_file(argv[3], &count);
    int status = 1;
    if (!pack || !bytes) {
        perror(pack ? argv[3] : argv[2]);
    } else {
        int32_t number = change((uint8_t)atoi(argv[1]), pack, size, argv[4], bytes, count);
        if (number != UNIXVOL_DONE)
            tell(number);
        else if (!write_over(argv[2], pack, size))
            perror(argv[2]);
        else
            status = 0;
    }
    free(pack);
    free(bytes);
    return status;
}
