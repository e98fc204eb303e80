/* The encoder's file: see keep.h.
 *
 *     place  bytes  what
 *         0      8  QSBOARD1
 *         8      1  total blocks
 *         9      1  position bits
 *        10     12  what must last: codes, counter, address in force, offset, as in the image
 *        22    17T  memory
 *  22 + 17T      4  CRC-32 of all before (the polynomial of IEEE 802.3), low byte first
 */
#define _XOPEN_SOURCE 700
#include "keep.h"

#include <errno.h>
#include <fcntl.h>
#include <stdio.h>
#include <stdlib.h>
#include <string.h>
#include <sys/stat.h>
#include <unistd.h>

static const uint8_t MARK[] = {'Q', 'S', 'B', 'O', 'A', 'R', 'D', '1'};

enum {
    TOTAL_PLACE = sizeof MARK,
    BITS_PLACE,
    LASTING_PLACE,
    MEMORY_PLACE = LASTING_PLACE + QS_LASTING_LENGTH,
    SUM_SIZE = 4,
    LONGEST_FILE = MEMORY_PLACE + LARGEST_TOTAL * (QS_BLOCK + 1) + SUM_SIZE,
    LONGEST_NAME = 4096,
    LONGEST_ADDED = 32,
};

static const char *given_name;                      /* as it was said, for complaints */
static char file_name[LONGEST_NAME];                /* with no link in it: what a link leads to is written, and not the link */
static char new_name[LONGEST_NAME + LONGEST_ADDED]; /* of the file beside it */
static int locked = -1;                             /* the file that is in place, open and locked; closing it would unlock it */

/* ---- bytes ---------------------------------------------------------------------------------------------------------------------------------------------- */

static uint32_t crc_of(const uint8_t *bytes, uint64_t length) {
    uint32_t crc = UINT32_MAX;
    for (uint64_t i = 0; i < length; i++) {
        crc ^= bytes[i];
        for (int bit = 0; bit < 8; bit++)
            crc = crc >> 1 ^ (crc & 1 ? 0xEDB88320u : 0);
    }
    return ~crc;
}

static void put_sum(uint8_t *at, uint32_t sum) {
    for (unsigned i = 0; i < SUM_SIZE; i++)
        at[i] = (uint8_t)(sum >> 8 * i);
}

static uint32_t sum_at(const uint8_t *at) {
    uint32_t sum = 0;
    for (unsigned i = 0; i < SUM_SIZE; i++)
        sum |= (uint32_t)at[i] << 8 * i;
    return sum;
}

static uint64_t bytes_of(const struct kept *kept, uint8_t *bytes) {
    uint64_t memory_length = QS_MEMORY_LENGTH(kept->total);
    memcpy(bytes, MARK, sizeof MARK);
    bytes[TOTAL_PLACE] = (uint8_t)kept->total;
    bytes[BITS_PLACE] = (uint8_t)kept->bits;
    memcpy(bytes + LASTING_PLACE, kept->lasting, sizeof kept->lasting);
    memcpy(bytes + MEMORY_PLACE, kept->memory, memory_length);
    put_sum(bytes + MEMORY_PLACE + memory_length, crc_of(bytes, MEMORY_PLACE + memory_length));
    return MEMORY_PLACE + memory_length + SUM_SIZE;
}

static bool is_board(const uint8_t *bytes, uint64_t length, struct kept *kept) {
    if (length < MEMORY_PLACE || memcmp(bytes, MARK, sizeof MARK) != 0)
        return complain("%s: not a board's file", given_name);
    kept->total = bytes[TOTAL_PLACE];
    kept->bits = bytes[BITS_PLACE];
    uint64_t memory_length = QS_MEMORY_LENGTH(kept->total);
    bool possible = kept->total >= 1 && kept->total <= LARGEST_TOTAL && kept->bits >= 1 && kept->bits <= LARGEST_BITS;
    if (!possible || length != MEMORY_PLACE + memory_length + SUM_SIZE)
        return complain("%s: damaged: not the length that it should have", given_name);
    if (sum_at(bytes + length - SUM_SIZE) != crc_of(bytes, length - SUM_SIZE))
        return complain("%s: damaged: its checksum is wrong", given_name);
    memcpy(kept->lasting, bytes + LASTING_PLACE, sizeof kept->lasting);
    memcpy(kept->memory, bytes + MEMORY_PLACE, memory_length);
    return true;
}

/* ---- reading -------------------------------------------------------------------------------------------------------------------------------------------- */

static bool names_in(const char *name) {
    given_name = name;
    if (strlen(name) == 0 || strlen(name) >= sizeof file_name)
        return complain("%s: not the name of a file", name);
    if (realpath(name, file_name) == NULL)
        memcpy(file_name, name, strlen(name) + 1);
    snprintf(new_name, sizeof new_name, "%s.new", file_name);
    return true;
}

/* Of the whole file, so that two encoders never have one. It is the process's, and ends with it. */
static bool lock(int fd) {
    struct flock all = {.l_type = F_WRLCK, .l_whence = SEEK_SET};
    return fcntl(fd, F_SETLK, &all) == 0;
}

static bool lock_or_complain(int fd) {
    if (lock(fd))
        return true;
    bool in_use = errno == EACCES || errno == EAGAIN;
    return complain("%s: %s", given_name, in_use ? "another encoder has it" : strerror(errno));
}

/* The whole file; one byte more than the longest, so that a longer one is seen. -1 for a fault. */
static ssize_t read_whole(int fd, uint8_t *bytes, size_t room) {
    size_t length = 0;
    while (length < room) {
        ssize_t more = read(fd, bytes + length, room - length);
        if (more < 0 && errno == EINTR)
            continue;
        if (more < 0)
            return -1;
        if (more == 0)
            break;
        length += (size_t)more;
    }
    return (ssize_t)length;
}

static bool read_board(int fd, struct kept *kept) {
    uint8_t bytes[LONGEST_FILE + 1];
    struct stat about;
    if (fstat(fd, &about) == 0 && !S_ISREG(about.st_mode))
        return complain("%s: not a board's file", given_name);
    ssize_t length = read_whole(fd, bytes, sizeof bytes);
    if (length < 0)
        return complain("%s: %s", given_name, strerror(errno));
    return is_board(bytes, (uint64_t)length, kept);
}

/* Whether the name still leads to the file that is open: another encoder may have put a new one in its place before this one had the lock. */
static bool is_in_place(int fd) {
    struct stat opened, named;
    return fstat(fd, &opened) == 0 && stat(file_name, &named) == 0 && opened.st_dev == named.st_dev && opened.st_ino == named.st_ino;
}

enum found keep_open(const char *name, struct kept *kept) {
    if (!names_in(name))
        return FOUND_UNUSABLE;
    int fd = open(file_name, O_RDWR | O_NONBLOCK | O_NOCTTY);
    if (fd < 0 && errno == ENOENT)
        return FOUND_NONE;
    if (fd < 0) {
        complain("%s: %s", name, strerror(errno));
        return FOUND_UNUSABLE;
    }
    if (!lock_or_complain(fd))
        return FOUND_UNUSABLE;
    if (!is_in_place(fd)) {
        complain("%s: another encoder has it", name);
        return FOUND_UNUSABLE;
    }
    locked = fd;
    return read_board(fd, kept) ? FOUND_BOARD : FOUND_UNUSABLE;
}

bool keep_is(const char *name) {
    struct stat other, own;
    if (strcmp(name, given_name) == 0 || strcmp(name, file_name) == 0 || strcmp(name, new_name) == 0)
        return true;
    return locked >= 0 && stat(name, &other) == 0 && fstat(locked, &own) == 0 && other.st_dev == own.st_dev && other.st_ino == own.st_ino;
}

/* ---- writing -------------------------------------------------------------------------------------------------------------------------------------------- */

/* What an encoder that was killed left of a new file is taken away, and never written to: its name may lead to the file that is in place. A board that is new has a
 * name of its own for it, since no lock keeps another new one from it. */
static int new_file(void) {
    struct stat before;
    if (locked < 0)
        snprintf(new_name, sizeof new_name, "%s.new-%ld", file_name, (long)getpid());
    (void)unlink(new_name);
    int fd = open(new_name, O_RDWR | O_CREAT | O_EXCL, 0666);
    if (fd >= 0 && locked >= 0 && fstat(locked, &before) == 0)
        (void)fchmod(fd, before.st_mode & 07777); /* as the one before: it holds access codes */
    return fd;
}

/* A board that is new takes a name that nobody took meanwhile: link, unlike rename, puts no file in another's place. Not all disks have links. */
static bool put_in_place(void) {
    if (locked >= 0)
        return rename(new_name, file_name) == 0;
    if (link(new_name, file_name) == 0)
        return unlink(new_name) == 0;
    return errno == EPERM && rename(new_name, file_name) == 0;
}

/* Complains about the file. What was written of a new one is taken away. */
static bool not_written(int fd) {
    complain("%s: %s", given_name, strerror(errno));
    if (fd >= 0) {
        (void)unlink(new_name);
        (void)close(fd);
    }
    return false;
}

bool keep_write(const struct kept *kept) {
    uint8_t bytes[LONGEST_FILE];
    uint64_t length = bytes_of(kept, bytes);
    int fd = new_file();
    if (fd < 0 || !lock(fd) || !write_whole(fd, bytes, length) || fsync(fd) != 0 || !put_in_place() || !folder_to_disk(file_name))
        return not_written(fd);
    if (locked >= 0)
        (void)close(locked);
    locked = fd;
    snprintf(new_name, sizeof new_name, "%s.new", file_name);
    return true;
}
