/* Four threads at once, each with a handle of its own; then the main thread uses each handle. For helgrind. */
#include "unixvol.h"

#include <pthread.h>
#include <stdio.h>

enum { THREADS = 4, FILES = 60, MOMENT = 300000000 };

typedef struct {
    unixvol volume;
    int32_t number;
} seat;

/* Makes a volume with files in it. */
static void *work(void *given)
{
    seat *mine = given;
    mine->number = unixvol_mkfs(&mine->volume, 6, 400, 10, 0, 0, MOMENT);
    for (int file = 0; mine->number == UNIXVOL_DONE && file < FILES; file++) {
        char path[] = {'/', (char)('a' + file / 26), (char)('a' + file % 26)};
        uint16_t inode;
        mine->number = unixvol_create(&mine->volume, 0, 0, MOMENT, path, sizeof path, 0644, &inode);
        if (mine->number == UNIXVOL_DONE)
            mine->number = unixvol_write(&mine->volume, 0, 0, MOMENT, path, sizeof path, 0, path, sizeof path);
    }
    return NULL;
}

int main(void)
{
    static seat seats[THREADS];
    pthread_t threads[THREADS];
    int well = 0;
    for (int at = 0; at < THREADS; at++)
        if (pthread_create(&threads[at], NULL, work, &seats[at]) != 0)
            return 1;
    for (int at = 0; at < THREADS; at++)
        pthread_join(threads[at], NULL);
    for (int at = 0; at < THREADS; at++) {
        size_t names = 0;
        int32_t number = unixvol_list(&seats[at].volume, 0, 0, "/", 1, NULL, 0, &names);
        well += seats[at].number == UNIXVOL_DONE && number == UNIXVOL_DONE && names == FILES + 2;
        unixvol_close(&seats[at].volume);
    }
    printf("%d passed, %d failed\n", well, THREADS - well);
    return well != THREADS;
}
