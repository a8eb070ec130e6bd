/* Calls each function of unixvol.h, and compares what it hands out. It ends with 'N passed, N failed'. */
#include "unixvol.h"

#include <pthread.h>
#include <stdio.h>
#include <stdlib.h>
#include <string.h>

enum { BLOCKS = 400, SIZE = 512 * BLOCKS, MOMENT = 300000000 };

static int passed, failed;

static void has(const char *what, long wanted, long found)
{
    if (wanted == found) {
        passed++;
    } else {
        failed++;
        printf("failed: %s: %ld, wanted %ld\n", what, found, wanted);
    }
}

static void same(const char *what, const void *wanted, const void *found, size_t count)
{
    has(what, 0, memcmp(wanted, found, count) != 0);
}

/* A volume of the seventh edition with a directory, a file in it, and a second name of the file. */
static void make(unixvol *volume)
{
    uint16_t inode = 0;
    has("mkfs", UNIXVOL_DONE, unixvol_mkfs(volume, 7, BLOCKS, 12, 0, 0, MOMENT));
    has("mkdir", UNIXVOL_DONE, unixvol_mkdir(volume, 0, 0, MOMENT, UNIXVOL_TEXT("/etc"), 0755, &inode));
    has("the directory's i-number", 96, inode);
    has("create", UNIXVOL_DONE, unixvol_create(volume, 0, 0, MOMENT, UNIXVOL_TEXT("/etc/motd"), 0644, &inode));
    has("the file's i-number", 95, inode);
    has("write", UNIXVOL_DONE,
        unixvol_write(volume, 0, 0, MOMENT + 1, UNIXVOL_TEXT("/etc/motd"), 0, UNIXVOL_TEXT("welcome\n")));
    has("link", UNIXVOL_DONE,
        unixvol_link(volume, 0, 0, MOMENT + 2, UNIXVOL_TEXT("/etc/motd"), UNIXVOL_TEXT("/motd")));
}

static void test_queries(void)
{
    unixvol volume = UNIXVOL_CLOSED;
    make(&volume);
    unixvol_node node;
    has("stat", UNIXVOL_DONE, unixvol_stat(&volume, 0, 0, UNIXVOL_TEXT("/motd"), &node));
    unixvol_node wanted = {8, MOMENT, MOMENT + 1, MOMENT + 2, 95, 0644, 2, 0, 0, UNIXVOL_REGULAR, true};
    same("a node", &wanted, &node, sizeof node);
    char text[] = "..........";
    size_t count = 99;
    has("read", UNIXVOL_DONE, unixvol_read(&volume, 0, 0, UNIXVOL_TEXT("/motd"), 3, text, 10, &count));
    has("bytes read", 5, (long)count);
    same("the bytes read, and no more", "come\n.....", text, 10);
    has("read at the end", UNIXVOL_DONE, unixvol_read(&volume, 0, 0, UNIXVOL_TEXT("/motd"), 8, text, 10, &count));
    has("no bytes read", 0, (long)count);
    unixvol_entry entries[4];
    memset(entries, 'x', sizeof entries);
    has("list", UNIXVOL_DONE, unixvol_list(&volume, 0, 0, UNIXVOL_TEXT("/"), entries, 3, &count));
    has("names", 4, (long)count);
    unixvol_entry names[3] = {{2, "."}, {2, ".."}, {96, "etc"}};
    same("the names for which there is room", names, entries, sizeof names);
    has("the entry after them", 'x', entries[3].name[0]);
    has("list into nothing", UNIXVOL_DONE, unixvol_list(&volume, 0, 0, UNIXVOL_TEXT("/etc"), NULL, 0, &count));
    has("names that are counted alone", 3, (long)count);
    unixvol_sizes sizes;
    has("about", UNIXVOL_DONE, unixvol_about(&volume, &sizes));
    unixvol_sizes known = {BLOCKS, 14, BLOCKS - 14 - 3, 96, 7};
    has("blocks", known.blocks, sizes.blocks);
    has("data start", known.data_start, sizes.data_start);
    has("free blocks", known.free_blocks, sizes.free_blocks);
    has("last i-number", known.last_inode, sizes.last_inode);
    has("edition", known.edition, sizes.edition);
    unixvol_close(&volume);
}

static void test_calls(void)
{
    unixvol volume = UNIXVOL_CLOSED;
    unixvol_node node;
    make(&volume);
    has("truncate", UNIXVOL_DONE, unixvol_truncate(&volume, 0, 0, MOMENT, UNIXVOL_TEXT("/motd"), 3));
    has("chmod", UNIXVOL_DONE, unixvol_chmod(&volume, 0, 0, MOMENT, UNIXVOL_TEXT("/motd"), 04711));
    has("chown", UNIXVOL_DONE, unixvol_chown(&volume, 0, 0, MOMENT, UNIXVOL_TEXT("/motd"), 7, 3));
    has("times", UNIXVOL_DONE, unixvol_times(&volume, 7, 3, MOMENT, UNIXVOL_TEXT("/motd"), 5, 0xffffffff));
    has("stat", UNIXVOL_DONE, unixvol_stat(&volume, 7, 3, UNIXVOL_TEXT("/motd"), &node));
    has("size", 3, node.size);
    has("permissions", 04711, node.permissions);
    has("owner", 7, node.uid);
    has("group", 3, node.gid);
    has("accessed", 5, node.accessed);
    has("modified", 0xffffffff, node.modified);
    has("changed", MOMENT, node.changed);
    has("no access", UNIXVOL_ACCESS, unixvol_unlink(&volume, 7, 3, MOMENT, UNIXVOL_TEXT("/etc/motd")));
    has("unlink", UNIXVOL_DONE, unixvol_unlink(&volume, 0, 0, MOMENT, UNIXVOL_TEXT("/etc/motd")));
    has("rmdir", UNIXVOL_DONE, unixvol_rmdir(&volume, 0, 0, MOMENT, UNIXVOL_TEXT("/etc")));
    has("no directory", UNIXVOL_NO_ENTRY, unixvol_stat(&volume, 0, 0, UNIXVOL_TEXT("/etc"), &node));
    has("cut", UNIXVOL_DONE, unixvol_cut(&volume));
    has("unlink", UNIXVOL_DONE, unixvol_unlink(&volume, 0, 0, MOMENT, UNIXVOL_TEXT("/motd")));
    has("not found", UNIXVOL_NO_ENTRY, unixvol_unlink(&volume, 0, 0, MOMENT, UNIXVOL_TEXT("/motd")));
    has("bad id", UNIXVOL_BAD_ID, unixvol_stat(&volume, 32768, 0, UNIXVOL_TEXT("/"), &node));
    has("a zero byte", UNIXVOL_INVALID, unixvol_stat(&volume, 0, 0, "/a\0b", 4, &node));
    unixvol_close(&volume);
}

/* Special files: what their i-nodes hold, and who may make them. */
static void test_special_files(void)
{
    unixvol volume = UNIXVOL_CLOSED;
    unixvol_node node;
    uint16_t inode = 0;
    has("no volume", UNIXVOL_IS_CLOSED, unixvol_mknod(&volume, 0, 0, MOMENT, UNIXVOL_TEXT("/x"), 0, 'x', 0, 0, &inode));
    make(&volume);
    has("mknod", UNIXVOL_DONE, unixvol_mknod(&volume, 0, 4, MOMENT, UNIXVOL_TEXT("/tty"), 0620, 'c', 3, 5, &inode));
    has("its i-number", 94, inode);
    has("stat", UNIXVOL_DONE, unixvol_stat(&volume, 0, 0, UNIXVOL_TEXT("/tty"), &node));
    unixvol_node wanted = {0, MOMENT, MOMENT, MOMENT, 94, 0620, 1, 0, 4, UNIXVOL_SPECIAL, true};
    same("a special file", &wanted, &node, sizeof node);
    has("mknod", UNIXVOL_DONE, unixvol_mknod(&volume, 0, 0, MOMENT, UNIXVOL_TEXT("/rk0"), 0600, 'b', 0, 255, &inode));
    static uint8_t image[SIZE];
    has("image", UNIXVOL_DONE, unixvol_image(&volume, image, SIZE));
    /* I-node 94 is the sixth of block 13, and 93 the fifth: 64 bytes each, the addresses from byte 12 on. */
    const uint8_t *tty = image + 13 * 512 + 5 * 64, *disk = tty - 64;
    has("the mode of a character device", 0020620, tty[0] + 256 * tty[1]);
    has("its numbers", 0x000305, 65536L * tty[12] + 256L * tty[14] + tty[13]);
    has("the mode of a device of blocks", 0060600, disk[0] + 256 * disk[1]);
    has("its numbers", 0x0000ff, 65536L * disk[12] + 256L * disk[14] + disk[13]);
    inode = 7;
    has("no such device", UNIXVOL_NO_DEVICE, unixvol_mknod(&volume, 0, 0, MOMENT, UNIXVOL_TEXT("/x"), 0, 'p', 0, 0, &inode));
    has("not user 0", UNIXVOL_NOT_OWNER, unixvol_mknod(&volume, 7, 0, MOMENT, UNIXVOL_TEXT("/x"), 0, 'c', 0, 0, &inode));
    has("a name that is there", UNIXVOL_EXISTS, unixvol_mknod(&volume, 0, 0, MOMENT, UNIXVOL_TEXT("/motd"), 0, 'c', 0, 0, &inode));
    has("the root", UNIXVOL_EXISTS, unixvol_mknod(&volume, 0, 0, MOMENT, UNIXVOL_TEXT("/"), 0, 'c', 0, 0, &inode));
    has("an i-number that isn't set", 7, inode);
    unixvol_close(&volume);
}

/* A file with indirect and double indirect blocks, by calls that go through them. */
static void test_big_file(void)
{
    unixvol volume = UNIXVOL_CLOSED;
    uint16_t inode;
    static const char big[200 * 512];
    unixvol_sizes before, after;
    has("mkfs", UNIXVOL_DONE, unixvol_mkfs(&volume, 6, BLOCKS, 10, 0, 0, MOMENT));
    has("create", UNIXVOL_DONE, unixvol_create(&volume, 0, 0, MOMENT, UNIXVOL_TEXT("/big"), 0644, &inode));
    has("about", UNIXVOL_DONE, unixvol_about(&volume, &before));
    has("write", UNIXVOL_DONE, unixvol_write(&volume, 0, 0, MOMENT, UNIXVOL_TEXT("/big"), 0, big, sizeof big));
    has("write far", UNIXVOL_DONE, unixvol_write(&volume, 0, 0, MOMENT, UNIXVOL_TEXT("/big"), 16000000, big, 1));
    has("too far", UNIXVOL_TOO_BIG, unixvol_write(&volume, 0, 0, MOMENT, UNIXVOL_TEXT("/big"), 16777215, big, 1));
    has("truncate", UNIXVOL_DONE, unixvol_truncate(&volume, 0, 0, MOMENT, UNIXVOL_TEXT("/big"), 0));
    has("about", UNIXVOL_DONE, unixvol_about(&volume, &after));
    has("all blocks are free again", before.free_blocks, after.free_blocks);
    unixvol_close(&volume);
}

static void test_images(void)
{
    unixvol volume = UNIXVOL_CLOSED, other = UNIXVOL_CLOSED;
    make(&volume);
    size_t size = 0;
    has("size", UNIXVOL_DONE, unixvol_size(&volume, &size));
    has("bytes of the image", SIZE, (long)size);
    uint8_t *image = malloc(SIZE), *copy = malloc(SIZE);
    if (!image || !copy)
        abort();
    has("image", UNIXVOL_DONE, unixvol_image(&volume, image, SIZE));
    has("image into too little", UNIXVOL_NO_ROOM, unixvol_image(&volume, copy, SIZE - 1));
    has("judge", UNIXVOL_DONE, unixvol_judge(7, image, SIZE));
    has("judge, as another edition", UNIXVOL_NO_EDITION, unixvol_judge(5, image, SIZE));
    has("judge nothing", UNIXVOL_UNSOUND + 1, unixvol_judge(7, NULL, 0));
    has("open", UNIXVOL_DONE, unixvol_open(&other, 7, image, SIZE));
    has("open over an open handle", UNIXVOL_DONE, unixvol_open(&other, 7, image, SIZE));
    has("image", UNIXVOL_DONE, unixvol_image(&other, copy, SIZE));
    same("an image opened, and copied out", image, copy, SIZE);
    image[1024 + 64 + 3] ^= 1; /* the link count of the root */
    image[1024 + 64 + 2] ^= 1;
    has("judge a broken image", UNIXVOL_UNSOUND + 12, unixvol_judge(7, image, SIZE));
    has("open a broken image", UNIXVOL_UNSOUND + 12, unixvol_open(&other, 7, image, SIZE));
    has("it is open still", true, other.is_open);
    has("bad sizes", UNIXVOL_BOUNDS, unixvol_mkfs(&other, 7, 10, 20, 0, 0, MOMENT));
    free(image);
    free(copy);
    unixvol_close(&volume);
    unixvol_close(&other);
}

static void test_names(void)
{
    char text[32];
    size_t count = 0;
    has("name", UNIXVOL_DONE, unixvol_name(UNIXVOL_NO_ENTRY, text, sizeof text, &count));
    has("its bytes", 7, (long)count);
    same("the name", "NoEntry", text, 7);
    has("name of a rule", UNIXVOL_DONE, unixvol_name(UNIXVOL_UNSOUND + 12, text, sizeof text, &count));
    same("the rule", "unsound, rule 12", text, count);
    has("name into little", UNIXVOL_NO_ROOM, unixvol_name(UNIXVOL_NO_EDITION, text, 3, &count));
    has("its count", (long)strlen("no such edition"), (long)count);
    for (uint16_t number = 0; number < 500; number++)
        if (unixvol_name(number, text, sizeof text, &count) != UNIXVOL_DONE)
            has("32 bytes for a name", number, 0);
}

static void test_closed(void)
{
    unixvol volume = UNIXVOL_CLOSED;
    size_t count = 7;
    unixvol_node node;
    unixvol_close(&volume);
    has("size, closed", UNIXVOL_IS_CLOSED, unixvol_size(&volume, &count));
    has("the count", 7, (long)count);
    has("stat, closed", UNIXVOL_IS_CLOSED, unixvol_stat(&volume, 0, 0, UNIXVOL_TEXT("/"), &node));
    has("unlink, closed", UNIXVOL_IS_CLOSED, unixvol_unlink(&volume, 0, 0, 0, UNIXVOL_TEXT("/")));
    make(&volume);
    unixvol_close(&volume);
    has("closed", false, volume.is_open);
    unixvol_close(&volume);
    has("cut, closed", UNIXVOL_IS_CLOSED, unixvol_cut(&volume));
}

static void test_answers(void)
{
    unixvol volume = UNIXVOL_CLOSED;
    make(&volume);
    size_t count = 99, left_out = 99;
    char text[64] = "";
    has("no answer yet", UNIXVOL_DONE, unixvol_answer_size(&volume, &count));
    has("its size", 0, (long)count);
    has("report", UNIXVOL_DONE, unixvol_report(&volume, 'i'));
    has("report", UNIXVOL_DONE, unixvol_report(&volume, 'd'));
    has("answer size", UNIXVOL_DONE, unixvol_answer_size(&volume, &count));
    has("no line of a sound volume", 0, (long)count);
    has("report", UNIXVOL_DONE, unixvol_report(&volume, 'n'));
    has("answer size", UNIXVOL_DONE, unixvol_answer_size(&volume, &count));
    const char names[] = "95 /etc/motd\n95 /motd\n96 /etc\n";
    has("bytes of the answer", sizeof names - 1, (long)count);
    has("answer", UNIXVOL_DONE, unixvol_answer(&volume, 2, text, 10, &count));
    has("bytes copied", 10, (long)count);
    same("a piece of the report", names + 2, text, 10);
    has("no report", UNIXVOL_NO_REPORT, unixvol_report(&volume, 'x'));
    has("export", UNIXVOL_DONE, unixvol_export(&volume, UNIXVOL_TEXT("/etc"), &left_out));
    has("left out", 0, (long)left_out);
    has("answer size", UNIXVOL_DONE, unixvol_answer_size(&volume, &count));
    has("whole blocks of tar", 0, (long)count % 512);
    has("answer", UNIXVOL_DONE, unixvol_answer(&volume, 0, text, 10, &count));
    same("the first path of the archive", "motd\0", text, 5);
    has("export of a file", UNIXVOL_NOT_DIRECTORY, unixvol_export(&volume, UNIXVOL_TEXT("/motd"), &left_out));
    unixvol_close(&volume);
}

static long lines_of(const char *text, size_t count)
{
    long lines = 0;
    for (size_t at = 0; at < count; at++)
        lines += text[at] == '\n';
    return lines;
}

static void test_repairs(void)
{
    unixvol volume = UNIXVOL_CLOSED;
    make(&volume);
    static uint8_t image[SIZE], sound[SIZE];
    static char text[4096];
    size_t count = 0;
    has("image", UNIXVOL_DONE, unixvol_image(&volume, sound, SIZE));
    memcpy(image, sound, SIZE);
    memset(image + 512 + 6, 0, 2); /* no free block is listed */
    has("judge", UNIXVOL_UNSOUND + 8, unixvol_judge(7, image, SIZE));
    has("explain", UNIXVOL_DONE, unixvol_explain(7, image, SIZE, text, sizeof text, &count));
    has("lines", 12, lines_of(text, count));
    size_t wanted = count;
    has("explain into little", UNIXVOL_NO_ROOM, unixvol_explain(7, image, SIZE, text, 9, &count));
    has("its count", (long)wanted, (long)count);
    has("salvage", UNIXVOL_DONE, unixvol_salvage(7, image, SIZE));
    has("judge", UNIXVOL_DONE, unixvol_judge(7, image, SIZE));
    image[1024 + 64 + 2] ^= 1; /* the link count of the root */
    memcpy(sound, image, SIZE);
    has("nothing to salvage", UNIXVOL_UNSOUND + 12, unixvol_salvage(7, image, SIZE));
    same("an image that isn't salvaged", sound, image, SIZE);
    unixvol_close(&volume);
}

/* Looks at an image as a command does, and compares its text, its lines and its status. */
static void looks(const char *what, const uint8_t *image, size_t size, unixvol_view view, const char *path, const char *text,
                  const char *lines, int status)
{
    char into[1024];
    unixvol_seen seen = {9, 9, 9};
    has(what, UNIXVOL_DONE, unixvol_look(7, image, size, &view, path, strlen(path), "", 0, into, sizeof into, &seen));
    has(what, (long)strlen(text), (long)seen.text);
    has(what, (long)strlen(lines), (long)seen.lines);
    has(what, status, seen.status);
    same(what, text, into, strlen(text));
    same(what, lines, into + seen.text, strlen(lines));
}

static void test_looks(void)
{
    unixvol volume = UNIXVOL_CLOSED;
    make(&volume);
    static uint8_t image[SIZE], after[SIZE];
    has("image", UNIXVOL_DONE, unixvol_image(&volume, image, SIZE));
    has("unlink", UNIXVOL_DONE, unixvol_unlink(&volume, 0, 0, MOMENT + 3, UNIXVOL_TEXT("/motd")));
    has("image", UNIXVOL_DONE, unixvol_image(&volume, after, SIZE));
    unixvol_close(&volume);
    unixvol_view find = {.kind = UNIXVOL_LOOK_FIND, .json = true};
    looks("find --json", image, SIZE, find, "/etc", "{\"entries\":[{\"ino\":95,\"path\":\"/etc/motd\"}],\"format\":1}\n", "", 0);
    find.json = false;
    looks("find", image, SIZE, find, "/", "/etc\n/etc/motd\n/motd\n", "", 0);
    looks("find of nothing", image, SIZE, find, "/x", "", "unixvol: 2 NoEntry\n", 1);
    looks("find in a short image", image, 1023, find, "/", "", "unixvol: unsound, rule 1\n", 1);
    unixvol_view block = {.kind = UNIXVOL_LOOK_BLOCK, .block = 16, .json = true};
    looks("block --json", image, SIZE, block, "",
          "{\"block\":16,\"format\":1,\"uses\":[{\"ino\":95,\"level\":0,\"logical\":0,\"use\":\"i-node\"}]}\n", "", 0);
    unixvol_view check = {.kind = UNIXVOL_LOOK_CHECK};
    char into[4096];
    unixvol_seen seen;
    has("check", UNIXVOL_NO_ROOM, unixvol_look(7, image, SIZE, &check, "", 0, "", 0, into, 9, &seen));
    has("bytes of no lines", 0, (long)seen.lines);
    has("check", UNIXVOL_DONE, unixvol_look(7, image, SIZE, &check, "", 0, "", 0, into, seen.text, &seen));
    has("the rules", 12, lines_of(into, seen.text));
    has("no such look", UNIXVOL_NO_LOOK, unixvol_look(7, image, SIZE, &(unixvol_view){.kind = 99}, "", 0, "", 0, into, 9, &seen));
    unixvol_view map = {.kind = UNIXVOL_LOOK_MAP, .json = true};
    has("no JSON of one file's map", UNIXVOL_NO_LOOK, unixvol_look(7, image, SIZE, &map, "/motd", 5, "", 0, into, 9, &seen));
    map.json = false;
    looks("map of nothing", image, SIZE, map, "/x", "", "unixvol: 2 NoEntry\n", 1);
    has("no UTF-8", UNIXVOL_NO_LOOK, unixvol_look(7, image, SIZE, &find, "\xff", 1, "", 0, into, 9, &seen));
    has("no edition", UNIXVOL_NO_EDITION, unixvol_look(5, image, SIZE, &find, "/", 1, "", 0, into, 9, &seen));
    has("compare", UNIXVOL_DONE, unixvol_compare(7, image, SIZE, after, SIZE, UNIXVOL_BY_TREE, into, sizeof into, &seen));
    has("they differ", 1, seen.status);
    has("the differences", 3, lines_of(into, seen.text));
    same("the last of them", "D /motd\n", into + seen.text - 8, 8);
    has("compare with itself", UNIXVOL_DONE, unixvol_compare(7, image, SIZE, image, SIZE, UNIXVOL_BY_FIELDS, NULL, 0, &seen));
    has("nothing", 0, (long)(seen.text + seen.lines + seen.status));
    const char gone[] = ",\"uid\":0},\"path\":\"/motd\"}]}\n";
    has("compare as JSON", UNIXVOL_DONE, unixvol_compare(7, image, SIZE, after, SIZE, UNIXVOL_BY_TREE_JSON, into, sizeof into, &seen));
    has("they differ", 1, seen.status);
    same("the last of them", gone, into + seen.text - (sizeof gone - 1), sizeof gone - 1);
    has("compare as JSON with itself", UNIXVOL_DONE,
        unixvol_compare(7, image, SIZE, image, SIZE, UNIXVOL_BY_ALL_FIELDS_JSON, into, sizeof into, &seen));
    same("nothing", "{\"format\":1,\"lines\":[]}\n", into, seen.text);
    unixvol_view dump = {.kind = UNIXVOL_LOOK_DUMP_NODE, .inode = 95, .json = true};
    has("dump as JSON", UNIXVOL_DONE, unixvol_look(7, image, SIZE, &dump, "", 0, "", 0, into, sizeof into, &seen));
    same("its beginning", "{\"block\":", into, 9);
    has("no such comparison", UNIXVOL_NO_LOOK, unixvol_compare(7, image, SIZE, image, SIZE, 9, NULL, 0, &seen));
}

static void test_damage(void)
{
    unixvol volume = UNIXVOL_CLOSED;
    make(&volume);
    static uint8_t image[SIZE], copy[SIZE];
    static char into[10240];
    unixvol_seen seen;
    has("image", UNIXVOL_DONE, unixvol_image(&volume, image, SIZE));
    unixvol_close(&volume);
    unixvol_rescue_view view = {0};
    has("rescue", UNIXVOL_DONE, unixvol_rescue(7, image, 512 * 17, &view, "/etc", 4, NULL, 0, into, sizeof into, &seen));
    has("one line, about how many blocks are lost", 1, lines_of(into + seen.text, seen.lines));
    has("its status", 1, seen.status);
    same("the file in the archive", "motd\0", into, 5);
    same("its bytes", "welcome\n\0", into + 512, 9);
    has("rescue without the file's block", UNIXVOL_DONE,
        unixvol_rescue(7, image, 512 * 16, &view, "/etc", 4, NULL, 0, into, sizeof into, &seen));
    has("the status of a damaged file", 5, seen.status);
    has("an empty archive", 1024, (long)seen.text);
    view.has_map = true;
    has("a map of nothing", UNIXVOL_DONE, unixvol_rescue(7, image, SIZE, &view, "/etc", 4, "x", 1, into, sizeof into, &seen));
    has("its status", 3, seen.status);
    same("its line", "unixvol: map: line 1: ", into, 22);
    unixvol_repaired lines[9];
    size_t count = 9;
    memcpy(copy, image, SIZE);
    has("repair of a sound image", UNIXVOL_DONE, unixvol_repair(7, copy, SIZE, MOMENT, NULL, 0, &count));
    has("no lines", 0, (long)count);
    same("the same image", image, copy, SIZE);
    copy[1024 + 64 + 2] ^= 1; /* the link count of the root */
    has("no room for a line", UNIXVOL_NO_ROOM, unixvol_repair(7, copy, SIZE, MOMENT, NULL, 0, &count));
    has("a line", 1, (long)count);
    has("repair", UNIXVOL_DONE, unixvol_repair(7, copy, SIZE, MOMENT, lines, 9, &count));
    has("a line", 1, (long)count);
    has("its kind", UNIXVOL_LINKS, lines[0].kind);
    has("its i-number", 2, lines[0].inode);
    has("the links before", 2, (long)lines[0].before);
    has("the links after", 3, (long)lines[0].after);
    same("the image as it was before", image, copy, SIZE);
    has("too short to repair", UNIXVOL_UNSOUND + 1, unixvol_repair(7, copy, 1023, MOMENT, lines, 9, &count));
}

static void *test_all(void *unused)
{
    test_queries();
    test_calls();
    test_special_files();
    test_big_file();
    test_images();
    test_names();
    test_closed();
    test_answers();
    test_repairs();
    test_looks();
    test_damage();
    return unused;
}

/* Runs in a thread with the stack that unixvol.h asks for. */
int main(void)
{
    pthread_attr_t attributes;
    pthread_t thread;
    pthread_attr_init(&attributes);
    has("a small stack", 0, pthread_attr_setstacksize(&attributes, 131072));
    has("a thread", 0, pthread_create(&thread, &attributes, test_all, NULL));
    has("its end", 0, pthread_join(thread, NULL));
    pthread_attr_destroy(&attributes);
    printf("%d passed, %d failed\n", passed, failed);
    return failed != 0;
}
