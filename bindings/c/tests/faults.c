/* Refuses each allocation of each function in turn. The function then returns UNIXVOL_NO_MEMORY, or does without it and
 * has the same outcome as without a refusal. No byte changes, and none is leaked.
 * Linked with --wrap=malloc, --wrap=realloc and --wrap=free. It ends with 'N passed, N failed'. */
#include "unixvol.h"

#include <stdio.h>
#include <stdlib.h>
#include <string.h>

enum { BLOCKS = 400, SIZE = 512 * BLOCKS, MOMENT = 300000000, NEVER = -1 };

void *__real_malloc(size_t size);
void *__real_realloc(void *block, size_t size);
void __real_free(void *block);
void *__wrap_malloc(size_t size);
void *__wrap_realloc(void *block, size_t size);
void __wrap_free(void *block);

/* The number of blocks held, and the number of further allocations before one is refused. */
static long held;
static long until = NEVER;

static bool is_refused(void)
{
    return until >= 0 && until-- == 0;
}

void *__wrap_malloc(size_t size)
{
    void *block = is_refused() ? NULL : __real_malloc(size);
    held += block != NULL;
    return block;
}

void *__wrap_realloc(void *block, size_t size)
{
    void *grown = is_refused() ? NULL : __real_realloc(block, size);
    held += grown != NULL && block == NULL;
    return grown;
}

void __wrap_free(void *block)
{
    held -= block != NULL;
    __real_free(block);
}

/* The results of a function, the image after it, and whether the handle was open. */
typedef struct {
    int32_t number;
    size_t count;
    uint8_t bytes[4096];
    uint8_t image[SIZE];
    bool is_open;
} outcome;

static uint8_t begun[SIZE], broken[SIZE];
static outcome wanted, found;
static int passed, failed;

static const char *const path = "/etc/motd";
#define PATH path, 9
#define AT_ROOT 0, 0, MOMENT

static int32_t call_open(unixvol *volume, outcome *made)
{
    (void)made;
    return unixvol_open(volume, 7, begun, SIZE);
}
static int32_t call_mkfs(unixvol *volume, outcome *made)
{
    (void)made;
    return unixvol_mkfs(volume, 6, BLOCKS, 10, 0, 0, MOMENT);
}
static int32_t call_judge(unixvol *volume, outcome *made)
{
    (void)volume, (void)made;
    return unixvol_judge(7, begun, SIZE);
}
static int32_t call_size(unixvol *volume, outcome *made)
{
    return unixvol_size(volume, &made->count);
}
static int32_t call_explain(unixvol *volume, outcome *made)
{
    (void)volume;
    return unixvol_explain(7, broken, SIZE, made->bytes, sizeof made->bytes, &made->count);
}
static int32_t call_salvage(unixvol *volume, outcome *made)
{
    static uint8_t image[SIZE];
    (void)volume;
    memcpy(image, broken, SIZE);
    int32_t number = unixvol_salvage(7, image, SIZE);
    made->count = memcmp(image, broken, SIZE) != 0;
    return number;
}
/* Sums up what was seen, if it was handed out. */
static int32_t seen_as(outcome *made, int32_t number, unixvol_seen seen)
{
    if (number == UNIXVOL_DONE)
        made->count = 8 * (seen.text + seen.lines) + seen.status;
    return number;
}
static int32_t call_look(unixvol *volume, outcome *made)
{
    unixvol_view view = {.kind = UNIXVOL_LOOK_SUMS, .json = true, .lost = true};
    unixvol_seen seen = {0};
    (void)volume;
    return seen_as(made, unixvol_look(7, broken, SIZE, &view, "/", 1, NULL, 0, made->bytes, sizeof made->bytes, &seen), seen);
}
static int32_t call_compare(unixvol *volume, outcome *made)
{
    unixvol_seen seen = {0};
    (void)volume;
    return seen_as(made, unixvol_compare(7, begun, SIZE, broken, SIZE, UNIXVOL_BY_FIELDS, made->bytes, sizeof made->bytes, &seen),
                   seen);
}
static int32_t call_rescue(unixvol *volume, outcome *made)
{
    unixvol_rescue_view view = {.has_map = true};
    unixvol_seen seen = {0};
    const char map[] = "0x0 +\n0x0 0x32000 +\n";
    (void)volume;
    return seen_as(made, unixvol_rescue(7, begun, SIZE, &view, "/etc", 4, map, sizeof map - 1, made->bytes, sizeof made->bytes, &seen),
                   seen);
}
static int32_t call_repair(unixvol *volume, outcome *made)
{
    static uint8_t image[SIZE];
    (void)volume;
    memcpy(image, broken, SIZE);
    int32_t number = unixvol_repair(7, image, SIZE, MOMENT, (unixvol_repaired *)(void *)made->bytes, 9, &made->count);
    made->count += (size_t)(memcmp(image, broken, SIZE) != 0);
    return number;
}
static int32_t call_stat(unixvol *volume, outcome *made)
{
    return unixvol_stat(volume, 0, 0, PATH, (unixvol_node *)(void *)made->bytes);
}
static int32_t call_read(unixvol *volume, outcome *made)
{
    return unixvol_read(volume, 0, 0, PATH, 0, made->bytes, sizeof made->bytes, &made->count);
}
static int32_t call_list(unixvol *volume, outcome *made)
{
    return unixvol_list(volume, 0, 0, "/", 1, (unixvol_entry *)(void *)made->bytes, 100, &made->count);
}
static int32_t call_about(unixvol *volume, outcome *made)
{
    return unixvol_about(volume, (unixvol_sizes *)(void *)made->bytes);
}
static int32_t call_name(unixvol *volume, outcome *made)
{
    (void)volume;
    return unixvol_name(UNIXVOL_NO_MEMORY, made->bytes, sizeof made->bytes, &made->count);
}
static int32_t call_create(unixvol *volume, outcome *made)
{
    return unixvol_create(volume, AT_ROOT, "/new", 4, 0644, (uint16_t *)(void *)made->bytes);
}
static int32_t call_mkdir(unixvol *volume, outcome *made)
{
    return unixvol_mkdir(volume, AT_ROOT, "/new", 4, 0755, (uint16_t *)(void *)made->bytes);
}
static int32_t call_mknod(unixvol *volume, outcome *made)
{
    return unixvol_mknod(volume, AT_ROOT, "/new", 4, 0620, 'c', 3, 5, (uint16_t *)(void *)made->bytes);
}
static int32_t call_link(unixvol *volume, outcome *made)
{
    (void)made;
    return unixvol_link(volume, AT_ROOT, PATH, "/new", 4);
}
static int32_t call_unlink(unixvol *volume, outcome *made)
{
    (void)made;
    return unixvol_unlink(volume, AT_ROOT, PATH);
}
static int32_t call_rmdir(unixvol *volume, outcome *made)
{
    (void)made;
    return unixvol_rmdir(volume, AT_ROOT, "/tmp", 4);
}
static int32_t call_write(unixvol *volume, outcome *made)
{
    (void)made;
    return unixvol_write(volume, AT_ROOT, PATH, 3, begun, 9000);
}
static int32_t call_truncate(unixvol *volume, outcome *made)
{
    (void)made;
    return unixvol_truncate(volume, AT_ROOT, PATH, 2);
}
static int32_t call_chmod(unixvol *volume, outcome *made)
{
    (void)made;
    return unixvol_chmod(volume, AT_ROOT, PATH, 0600);
}
static int32_t call_chown(unixvol *volume, outcome *made)
{
    (void)made;
    return unixvol_chown(volume, AT_ROOT, PATH, 7, 3);
}
static int32_t call_times(unixvol *volume, outcome *made)
{
    (void)made;
    return unixvol_times(volume, AT_ROOT, PATH, 7, 3);
}
static int32_t call_cut(unixvol *volume, outcome *made)
{
    (void)made;
    return unixvol_cut(volume);
}
/* Copies the answer out, if there is one. */
static int32_t answered(unixvol *volume, outcome *made, int32_t number)
{
    return number == UNIXVOL_DONE ? unixvol_answer(volume, 0, made->bytes, sizeof made->bytes, &made->count) : number;
}
static int32_t call_icheck(unixvol *volume, outcome *made)
{
    return answered(volume, made, unixvol_report(volume, 'i'));
}
static int32_t call_dcheck(unixvol *volume, outcome *made)
{
    return answered(volume, made, unixvol_report(volume, 'd'));
}
static int32_t call_ncheck(unixvol *volume, outcome *made)
{
    return answered(volume, made, unixvol_report(volume, 'n'));
}
static int32_t call_export(unixvol *volume, outcome *made)
{
    size_t left_out;
    return answered(volume, made, unixvol_export(volume, "/", 1, &left_out));
}

static const struct {
    const char *name;
    int32_t (*run)(unixvol *volume, outcome *made);
    bool needs_memory;
} FUNCTIONS[] = {
    {"open", call_open, true},
    {"mkfs", call_mkfs, true},
    {"judge", call_judge, true},
    {"size", call_size, false},
    {"explain", call_explain, true},
    {"salvage", call_salvage, true},
    {"look", call_look, true},
    {"compare", call_compare, true},
    {"rescue", call_rescue, true},
    {"repair", call_repair, true},
    {"stat", call_stat, true},
    {"read", call_read, true},
    {"list", call_list, true},
    {"about", call_about, false},
    {"name", call_name, false},
    {"create", call_create, true},
    {"mkdir", call_mkdir, true},
    {"mknod", call_mknod, true},
    {"link", call_link, true},
    {"unlink", call_unlink, true},
    {"rmdir", call_rmdir, true},
    {"write", call_write, true},
    {"truncate", call_truncate, true},
    {"chmod", call_chmod, true},
    {"chown", call_chown, true},
    {"times", call_times, true},
    {"cut", call_cut, false},
    {"icheck", call_icheck, true},
    {"dcheck", call_dcheck, true},
    {"ncheck", call_ncheck, true},
    {"export", call_export, true},
};

static void has(const char *name, const char *what, bool holds)
{
    passed += holds;
    failed += !holds;
    if (!holds)
        printf("failed: %s: %s\n", name, what);
}

/* Opens a handle, calls the function while its allocation number `refused` is refused, and closes the handle again.
 * Returns whether an allocation was refused. */
static bool run(size_t at, long refused, outcome *made)
{
    unixvol volume = UNIXVOL_CLOSED;
    memset(made, 0, sizeof *made);
    has(FUNCTIONS[at].name, "opens", unixvol_open(&volume, 7, begun, SIZE) == UNIXVOL_DONE);
    long before = held;
    until = refused;
    made->number = FUNCTIONS[at].run(&volume, made);
    bool was_refused = refused != NEVER && until == NEVER;
    until = NEVER;
    if (made->number == UNIXVOL_NO_MEMORY)
        has(FUNCTIONS[at].name, "a refused call loses and keeps no block", held == before);
    made->is_open = volume.is_open;
    has(FUNCTIONS[at].name, "image", unixvol_image(&volume, made->image, SIZE) == UNIXVOL_DONE);
    unixvol_close(&volume);
    has(FUNCTIONS[at].name, "a closed handle holds no block", held == 0);
    return was_refused;
}

/* True if there are no results, and the image is as it was. */
static bool is_unchanged(const outcome *made)
{
    static const outcome none;
    return made->is_open && made->count == 0 && memcmp(made->bytes, none.bytes, sizeof none.bytes) == 0 &&
           memcmp(made->image, begun, SIZE) == 0;
}

/* Refuses each allocation of one function in turn, and returns how many there are. */
static long refuse_each(size_t at)
{
    run(at, NEVER, &wanted);
    has(FUNCTIONS[at].name, "is done", wanted.number == UNIXVOL_DONE);
    long refused = 0;
    while (run(at, refused, &found)) {
        if (found.number == UNIXVOL_DONE)
            has(FUNCTIONS[at].name, "the same without a block", memcmp(&found, &wanted, sizeof found) == 0);
        else
            has(FUNCTIONS[at].name, "nothing changes", found.number == UNIXVOL_NO_MEMORY && is_unchanged(&found));
        refused++;
    }
    has(FUNCTIONS[at].name, "needs memory or not, as unixvol.h says", (refused > 0) == FUNCTIONS[at].needs_memory);
    return refused;
}

/* Makes the volume on which each function is called, and a copy that lacks its free list. */
static bool prepare(void)
{
    unixvol volume = UNIXVOL_CLOSED;
    uint16_t inode;
    bool is_made = unixvol_mkfs(&volume, 7, BLOCKS, 12, 0, 0, MOMENT) == UNIXVOL_DONE &&
                   unixvol_mkdir(&volume, AT_ROOT, "/etc", 4, 0755, &inode) == UNIXVOL_DONE &&
                   unixvol_mkdir(&volume, AT_ROOT, "/tmp", 4, 0777, &inode) == UNIXVOL_DONE &&
                   unixvol_create(&volume, AT_ROOT, PATH, 0644, &inode) == UNIXVOL_DONE &&
                   unixvol_write(&volume, AT_ROOT, PATH, 0, "welcome\n", 8) == UNIXVOL_DONE &&
                   unixvol_image(&volume, begun, SIZE) == UNIXVOL_DONE;
    unixvol_close(&volume);
    memcpy(broken, begun, SIZE);
    memset(broken + 512 + 6, 0, 2);
    return is_made;
}

int main(void)
{
    long refused = 0;
    has("the volume", "is made", prepare());
    for (size_t at = 0; at < sizeof FUNCTIONS / sizeof *FUNCTIONS; at++)
        refused += refuse_each(at);
    printf("%ld allocations refused: %d passed, %d failed\n", refused, passed, failed);
    return failed != 0;
}
