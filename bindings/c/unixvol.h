/* unixvol.h: volumes of Sixth and Seventh Edition Unix, from C.
 *
 * A volume is opened from a copy of its bytes and kept in memory. Programs query and change it in a user's name, and
 * copy its bytes out again. Nothing here reads or writes a file. Each function is proved to do what its comment says
 * (docs/PROOFS.md, part 22), for every image and every argument, as long as the program keeps these rules. Nothing
 * checks them.
 *
 * Handles   A `unixvol` begins as UNIXVOL_CLOSED, all zeros. Don't copy one while it is open, and don't change its
 *           fields. Closing it frees all that it holds. A closed handle may be closed again, or opened anew; every
 *           other function returns UNIXVOL_IS_CLOSED.
 * Buffers   They are the caller's. What goes in is copied; no pointer is kept, and none is handed out. A pointer may
 *           be null only if its count is 0. A buffer that is written overlaps no other argument.
 * Paths     Bytes and their count, with no zero at the end, from the root: UNIXVOL_TEXT("/etc/passwd"), or
 *           path, strlen(path). Of a name longer than 14 bytes only the first 14 count.
 * Numbers   0 is done. Any other number means that nothing has changed, neither the volume nor a buffer; only with
 *           UNIXVOL_NO_ROOM are the lengths and the status of a text handed out.
 * Users     Queries and calls are made in the name of a user and a group: 0 to 255 in the sixth edition, 0 to 32,767
 *           in the seventh. User 0 passes every test of permissions.
 * Times     Seconds since the beginning of 1970. The library reads no clock.
 * Threads   Different handles may be used at the same time. A handle is used by one thread at a time; another may go
 *           on with it after a lock, or once the first thread has ended. Nothing here waits.
 * Memory    From malloc, realloc and free, which must be of one allocator. If a block is refused, the function
 *           returns UNIXVOL_NO_MEMORY. An open handle takes two images, and the journal of its calls, which is cut as
 *           soon as it counts more than an eighth of the image: two and a third images in all, besides the bytes of
 *           the last call and the kept answer.
 * Stack     128 KB are enough for each function. Call none from a signal handler, nor in the child of a fork of a
 *           program with threads.
 *
 * Link with libunixvol.a or libunixvol.so. Both are for Linux, and need the C library alone.
 */
#ifndef UNIXVOL_H
#define UNIXVOL_H

#include <stdbool.h>
#include <stddef.h>
#include <stdint.h>

/* The version of this header, and of the library beside it. */
#define UNIXVOL_VERSION "0.9.2"

#ifdef __cplusplus
extern "C" {
#endif

/* A handle. Between calls is_open may be read; both fields are the library's to change. */
typedef struct unixvol {
    void *volume;
    bool is_open;
} unixvol;

#define UNIXVOL_CLOSED {0}

/* A literal as a path: its bytes, and their count. */
#define UNIXVOL_TEXT(literal) ("" literal), (sizeof(literal) - 1)

/* What functions return. Those up to 31 are the system's own error numbers; those from 101 on are this project's. */
enum unixvol_number {
    UNIXVOL_DONE = 0,
    UNIXVOL_NOT_OWNER = 1,       /* the user is neither the owner nor user 0, or only user 0 may do it */
    UNIXVOL_NO_ENTRY = 2,        /* a directory on the way has no such name */
    UNIXVOL_NO_MEMORY = 12,      /* a block of memory was refused */
    UNIXVOL_ACCESS = 13,         /* the permissions don't grant it */
    UNIXVOL_EXISTS = 17,         /* the name is there already */
    UNIXVOL_NOT_DIRECTORY = 20,  /* what is on the way, or wanted, is no directory */
    UNIXVOL_IS_DIRECTORY = 21,   /* it is a directory */
    UNIXVOL_INVALID = 22,        /* the path holds a zero byte, or the call can't be made of it */
    UNIXVOL_TOO_BIG = 27,        /* the file would be greater than the greatest */
    UNIXVOL_NO_SPACE = 28,       /* more blocks are needed than are free */
    UNIXVOL_TOO_MANY_LINKS = 31, /* the link count would be above its limit */
    UNIXVOL_NOT_EMPTY = 101,     /* the directory has other entries than . and .. */
    UNIXVOL_NOT_REGULAR = 102,   /* it is a special file */
    UNIXVOL_NO_INODE = 103,      /* no i-number above the root's is free */
    UNIXVOL_BAD_ID = 104,        /* a user or group number is above the edition's highest */
    UNIXVOL_NOT_REPAIRED = 112,  /* a repair would not be sound, or would change a file that is well by itself */
    UNIXVOL_UNSOUND = 200,       /* and a rule, 1 to 12: the least that the bytes break (docs/FORMATS.md) */
    UNIXVOL_IS_CLOSED = 300,     /* the handle holds no volume */
    UNIXVOL_NO_EDITION = 301,    /* the edition is neither 6 nor 7 */
    UNIXVOL_NO_ROOM = 302,       /* the buffer hasn't the image's size, or no room for the text */
    UNIXVOL_BOUNDS = 303,        /* the sizes aren't those of a volume */
    UNIXVOL_TOO_MANY = 304,      /* the journal can't be cut: its records' numbers would reach 2^64 */
    UNIXVOL_NO_REPORT = 305,     /* the letter is not i, d or n */
    UNIXVOL_NO_LOOK = 306,       /* there is no such look or comparison, or a path isn't UTF-8 */
    UNIXVOL_NO_DEVICE = 307      /* the letter is not c or b */
};

/* Puts the text of such a number into a buffer, as "NoEntry" or "unsound, rule 7"; count is how many bytes it has. 32
 * have room for each; with less room than is wanted, UNIXVOL_NO_ROOM is returned, and count is set all the same. */
int32_t unixvol_name(uint16_t number, void *into, size_t room, size_t *count);

/* The kinds of nodes. */
enum unixvol_kind { UNIXVOL_REGULAR = 1, UNIXVOL_DIRECTORY = 2, UNIXVOL_SPECIAL = 3 };

/* What a node is. */
typedef struct unixvol_node {
    uint32_t size;
    uint32_t accessed;
    uint32_t modified;
    uint32_t changed; /* when its i-node last changed, if keeps_changed; else 0 */
    uint16_t inode;
    uint16_t permissions; /* the bits under octal 7777 */
    uint16_t links;
    uint16_t uid;
    uint16_t gid;
    uint8_t kind;
    bool keeps_changed; /* true in the seventh edition */
} unixvol_node;

/* A name in a directory, with zeros after it if it has fewer than 14 bytes. */
typedef struct unixvol_entry {
    uint16_t inode;
    uint8_t name[14];
} unixvol_entry;

/* The sizes of a volume. */
typedef struct unixvol_sizes {
    uint32_t blocks;     /* of 512 bytes each */
    uint32_t data_start; /* the first block after the i-list */
    uint32_t free_blocks;
    uint16_t last_inode;
    uint8_t edition;
} unixvol_sizes;

/* What unixvol_look shows: what the command of that name prints. */
enum unixvol_look_kind {
    UNIXVOL_LOOK_INODE = 1, /* an i-node: that at the path, or with the number `inode` if the path is empty */
    UNIXVOL_LOOK_SUPER = 2, /* the super-block */
    UNIXVOL_LOOK_DF = 3,    /* how much of the space is used */
    UNIXVOL_LOOK_FREE = 4,  /* the chain of the free list */
    UNIXVOL_LOOK_BLOCK = 5, /* all uses of the block `block` */
    UNIXVOL_LOOK_FIND = 6,  /* the paths below a directory; of last names like the pattern, unless that is empty */
    UNIXVOL_LOOK_SUMS = 7,  /* attributes and checksums of everything below a directory */
    UNIXVOL_LOOK_CHECK = 8, /* whether each of the twelve rules holds, and what breaks it */
    UNIXVOL_LOOK_MAP = 9,   /* the use of each block, or as text of those of the file or directory at the path */
    UNIXVOL_LOOK_SVG = 10,  /* the same as a picture, in SVG */
    UNIXVOL_LOOK_SLOTS = 11, /* the slots of a directory, and the names that empty ones keep: ls --slots */
    UNIXVOL_LOOK_LIST = 12, /* the names in a directory, with attributes: ls -l */
    UNIXVOL_LOOK_DUMP = 13, /* the bytes of the block `block`, field by field */
    UNIXVOL_LOOK_DUMP_NODE = 14 /* the bytes of an i-node, which is named as for UNIXVOL_LOOK_INODE */
};

/* A look. All that isn't said is 0 or false. */
typedef struct unixvol_view {
    uint32_t block;
    uint16_t inode;
    uint8_t kind; /* one of unixvol_look_kind */
    bool json;    /* true for what the command prints with --json (docs/JSON.md), false for lines of text */
    bool lost;    /* true for i-nodes without an entry too, in UNIXVOL_LOOK_FIND and UNIXVOL_LOOK_SUMS */
} unixvol_view;

/* How unixvol_compare compares: diff, diff --times, diff --fields, diff --fields --all; and the same with --json. */
enum unixvol_comparison {
    UNIXVOL_BY_TREE = 1,
    UNIXVOL_BY_ALL_TIMES = 2,
    UNIXVOL_BY_FIELDS = 3,
    UNIXVOL_BY_ALL_FIELDS = 4,
    UNIXVOL_BY_TREE_JSON = 5,
    UNIXVOL_BY_ALL_TIMES_JSON = 6,
    UNIXVOL_BY_FIELDS_JSON = 7,
    UNIXVOL_BY_ALL_FIELDS_JSON = 8
};

/* What unixvol_rescue takes. */
typedef struct unixvol_rescue_view {
    uint32_t at;  /* the block of 512 bytes that the volume begins at in the file that the map is of */
    bool has_map; /* true if there is a map */
    bool lost;    /* true for i-nodes without an entry too */
    bool damaged; /* true for damaged files too, with zeros for the bytes that are lost */
} unixvol_rescue_view;

/* What was put into a buffer: so many bytes of text, and after them so many of lines; and the command's status. */
typedef struct unixvol_seen {
    size_t text;
    size_t lines;
    uint8_t status;
} unixvol_seen;

/* The kinds of lines of a repair. */
enum unixvol_repair_kind {
    UNIXVOL_CLEARED = 1, /* the i-node was allocated, and is free now */
    UNIXVOL_MADE = 2,    /* the i-node was free or of another kind, and is a new one now */
    UNIXVOL_SIZE = 3,    /* its size, before and after */
    UNIXVOL_CHANGED = 4, /* its blocks, its bytes or other fields */
    UNIXVOL_LINKS = 5,   /* its link count, before and after */
    UNIXVOL_ENTRY = 6,   /* the slot of the directory: its i-number and name, before and after; 0 is an empty slot */
    UNIXVOL_FREE_LIST = 7 /* the free list was made anew; the i-number is 0 */
};

/* Something that a repair changed. Names have zeros after them if they have fewer than 14 bytes. */
typedef struct unixvol_repaired {
    uint32_t before;
    uint32_t after;
    uint32_t slot;
    uint16_t inode;
    uint8_t kind; /* one of unixvol_repair_kind */
    uint8_t name_before[14];
    uint8_t name_after[14];
} unixvol_repaired;

/* ---- Opening and closing. What the handle held before is freed if this returns 0, and kept if not. */

/* Opens a handle on a copy of a volume's bytes. They must be a sound volume. */
int32_t unixvol_open(unixvol *volume, uint8_t edition, const void *bytes, size_t bytes_count);

/* Opens a handle on a new volume, whose root directory belongs to uid and gid. list_blocks of its blocks are the
 * i-list, with 16 i-nodes each in the sixth edition, and 8 in the seventh. */
int32_t unixvol_mkfs(unixvol *volume, uint8_t edition, uint32_t blocks, uint16_t list_blocks, uint16_t uid,
                     uint16_t gid, uint32_t now);

/* Closes a handle, which may be closed already. */
void unixvol_close(unixvol *volume);

/* ---- Bytes */

/* Tells if bytes are a sound volume, and opens nothing. They may be any bytes. */
int32_t unixvol_judge(uint8_t edition, const void *bytes, size_t bytes_count);

/* The number of bytes of the image. Needs no memory. */
int32_t unixvol_size(unixvol *volume, size_t *count);

/* Copies the image into a buffer of just that size. Needs no memory. */
int32_t unixvol_image(unixvol *volume, void *into, size_t room);

/* Describes, of any bytes, what is found of each of the twelve rules: a line for each, and fewer than 4,096 bytes in
 * all. If that is more than there is room for, UNIXVOL_NO_ROOM is returned, and count is set all the same. */
int32_t unixvol_explain(uint8_t edition, const void *bytes, size_t bytes_count, void *into, size_t room,
                        size_t *count);

/* Makes the free list of an image anew, in place, if nothing else is wrong with it. The image is sound then, and all
 * files and directories are as they were. */
int32_t unixvol_salvage(uint8_t edition, void *bytes, size_t bytes_count);

/* ---- What commands show of any bytes, sound or not. The buffer gets the text that the command prints, and after it the
 * lines that it prints on standard error; seen gets the numbers of their bytes, and the command's status (docs/JSON.md,
 * and the manual page of the command): nothing else is said in silence. If the buffer has no room for both,
 * UNIXVOL_NO_ROOM is returned, and seen is set all the same: ask again with text + lines bytes. A path is UTF-8 here. */

/* Shows part of an image. A path is for those looks that name one, a pattern for UNIXVOL_LOOK_FIND; both may be empty. */
int32_t unixvol_look(uint8_t edition, const void *bytes, size_t bytes_count, const unixvol_view *view, const void *path,
                     size_t path_count, const void *pattern, size_t pattern_count, void *into, size_t room,
                     unixvol_seen *seen);

/* Shows how two images differ. The status is 0 if they don't, 1 if they do. Lines name them old and new. */
int32_t unixvol_compare(uint8_t edition, const void *before, size_t before_count, const void *after,
                        size_t after_count, uint8_t by, void *into, size_t room, unixvol_seen *seen);

/* Shows the whole files below a directory as a tar archive, of an image with lost blocks, as export --cut does: blocks are
 * lost that the image is too short for. With a map of GNU ddrescue, as export --bad does: those that weren't read. The
 * lines say what is damaged, and where. Whatever the lost blocks held, a file is in the archive only if it is right. */
int32_t unixvol_rescue(uint8_t edition, const void *bytes, size_t bytes_count, const unixvol_rescue_view *view,
                       const void *path, size_t path_count, const void *map, size_t map_count, void *into, size_t room,
                       unixvol_seen *seen);

/* Repairs an image in place: it is sound then, and files that were well by themselves are as they were. count is the
 * number of all lines, which tell what was changed; if there is room for fewer, UNIXVOL_NO_ROOM is returned, and
 * nothing is changed but count. New i-nodes get the time now. UNIXVOL_NO_SPACE is returned if there are no blocks or
 * i-nodes for what is needed, 201 or 202 if the sizes of the volume aren't known. */
int32_t unixvol_repair(uint8_t edition, void *bytes, size_t bytes_count, uint32_t now, unixvol_repaired *into,
                       size_t room, size_t *count);

/* ---- Queries. None changes the volume, nor its times. */

int32_t unixvol_stat(unixvol *volume, uint16_t uid, uint16_t gid, const void *path, size_t path_count,
                     unixvol_node *node);

/* Reads bytes of a regular file from an offset on: as many as there is room for, fewer at the file's end. */
int32_t unixvol_read(unixvol *volume, uint16_t uid, uint16_t gid, const void *path, size_t path_count,
                     uint32_t offset, void *into, size_t room, size_t *count);

/* The names in a directory, . and .. too, in ascending order of their bytes: as many as there is room for. count is
 * how many there are; ask again if it is more than room. */
int32_t unixvol_list(unixvol *volume, uint16_t uid, uint16_t gid, const void *path, size_t path_count,
                     unixvol_entry *into, size_t room, size_t *count);

/* The edition and the sizes. Needs no memory. */
int32_t unixvol_about(unixvol *volume, unixvol_sizes *about);

/* ---- Calls, at the moment now. Each is made whole, or refused. */

/* Makes an empty regular file, or a directory, and hands out its i-number. */
int32_t unixvol_create(unixvol *volume, uint16_t uid, uint16_t gid, uint32_t now, const void *path,
                       size_t path_count, uint16_t permissions, uint16_t *inode);
int32_t unixvol_mkdir(unixvol *volume, uint16_t uid, uint16_t gid, uint32_t now, const void *path,
                      size_t path_count, uint16_t permissions, uint16_t *inode);

/* Makes the special file of a character device, for the letter c, or of a block device, for b, with these numbers, and
 * hands out its i-number. Only user 0 may. */
int32_t unixvol_mknod(unixvol *volume, uint16_t uid, uint16_t gid, uint32_t now, const void *path,
                      size_t path_count, uint16_t permissions, uint8_t kind, uint8_t major, uint8_t minor,
                      uint16_t *inode);

/* Gives a node other than a directory a further name. */
int32_t unixvol_link(unixvol *volume, uint16_t uid, uint16_t gid, uint32_t now, const void *source,
                     size_t source_count, const void *target, size_t target_count);

/* Removes a name of a node other than a directory. The node is freed with its last name. */
int32_t unixvol_unlink(unixvol *volume, uint16_t uid, uint16_t gid, uint32_t now, const void *path,
                       size_t path_count);

/* Removes a directory that has . and .. alone. */
int32_t unixvol_rmdir(unixvol *volume, uint16_t uid, uint16_t gid, uint32_t now, const void *path,
                      size_t path_count);

/* Writes bytes into a regular file, all or none. Bytes between its end and the offset become zeros. */
int32_t unixvol_write(unixvol *volume, uint16_t uid, uint16_t gid, uint32_t now, const void *path,
                      size_t path_count, uint32_t offset, const void *bytes, size_t bytes_count);

/* Cuts a regular file to its first length bytes, of which it has as many at least. */
int32_t unixvol_truncate(unixvol *volume, uint16_t uid, uint16_t gid, uint32_t now, const void *path,
                         size_t path_count, uint32_t length);

/* Gives a node other permissions, or another owner and group. */
int32_t unixvol_chmod(unixvol *volume, uint16_t uid, uint16_t gid, uint32_t now, const void *path,
                      size_t path_count, uint16_t permissions);
int32_t unixvol_chown(unixvol *volume, uint16_t uid, uint16_t gid, uint32_t now, const void *path,
                      size_t path_count, uint16_t owner, uint16_t group);

/* Gives a node other times, of its last reading and of the last change of what it holds. */
int32_t unixvol_times(unixvol *volume, uint16_t uid, uint16_t gid, uint32_t now, const void *path,
                      size_t path_count, uint32_t accessed, uint32_t modified);

/* Cuts the journal now, and frees the bytes of its records. Needs no memory. */
int32_t unixvol_cut(unixvol *volume);

/* ---- Answers of a length that isn't known before. Each is kept in the handle up to the next of them. */

/* Keeps the report of a checker: icheck for the letter i, dcheck for d, ncheck for n. */
int32_t unixvol_report(unixvol *volume, uint8_t letter);

/* Keeps a tar archive of all that is below a directory. left_out is how many entries are left out, since their
 * paths have more than 4,096 bytes. */
int32_t unixvol_export(unixvol *volume, const void *path, size_t path_count, size_t *left_out);

/* The number of bytes of the answer. Needs no memory. */
int32_t unixvol_answer_size(unixvol *volume, size_t *count);

/* Copies bytes of the answer from a place on: as many as there is room for, fewer at its end. Needs no memory. */
int32_t unixvol_answer(unixvol *volume, size_t from, void *into, size_t room, size_t *count);

#if defined __STDC_VERSION__ && __STDC_VERSION__ >= 201112L
_Static_assert(sizeof(unixvol) == 2 * sizeof(void *), "unixvol");
_Static_assert(sizeof(unixvol_node) == 28, "unixvol_node");
_Static_assert(sizeof(unixvol_entry) == 16, "unixvol_entry");
_Static_assert(sizeof(unixvol_sizes) == 16, "unixvol_sizes");
_Static_assert(sizeof(unixvol_view) == 12, "unixvol_view");
_Static_assert(sizeof(unixvol_rescue_view) == 8, "unixvol_rescue_view");
_Static_assert(sizeof(unixvol_seen) == 3 * sizeof(size_t), "unixvol_seen");
_Static_assert(sizeof(unixvol_repaired) == 44, "unixvol_repaired");
#endif

#ifdef __cplusplus
}
#endif
#endif
