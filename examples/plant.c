/* A plant checks its own book and joins it into the month's.
 *
 *     plant OWN MONTH RESULT
 *
 * Reads the books OWN and MONTH and writes the joined book to RESULT, a third file: MONTH itself is never in danger. RESULT is written under
 * the name RESULT.new, brought down to the device, and then renamed, so that there is the whole of it or what was there before; RESULT.new
 * is made by this run alone, and where another run has made it, this one fails. Every failure is one line on standard error and status 1,
 * and then RESULT is as it was.
 *
 * Both versions of a book are read. RESULT is of version 2 where one of the books is, or where it has more than 512 records; the line that
 * says what was written then says so, as a tool built with an earlier edition of nwb.h does not read it. */
#define _POSIX_C_SOURCE 200809L
#include "nwb.h"

#include <errno.h>
#include <fcntl.h>
#include <inttypes.h>
#include <limits.h>
#include <stdio.h>
#include <string.h>
#include <sys/stat.h>
#include <unistd.h>

/* The longest book of either version, and one byte more, so that a longer file is seen to be longer. */
static uint8_t own[NWB_MOST_BOOK + 1], month[NWB_MOST_BOOK + 1], joined[NWB_MOST_BOOK];

static const char *meaning(uint32_t number)
{
    switch (number) {
    case 1: return "length is not what the count says";
    case 2: return "no call book";
    case 3: return "version is neither 1 nor 2";
    case 4: return "header field out of range";
    case 5: return "record field out of range";
    case 6: return "key not above the one before";
    case 7: return "year, month or area differ";
    case 8: return "more than 2000 keys";
    default: return "output too short";
    }
}

static int read_book(const char *path, uint8_t *book, size_t *len)
{
    FILE *f = fopen(path, "rb");
    if (!f) {
        perror(path);
        return 0;
    }
    *len = fread(book, 1, NWB_MOST_BOOK + 1, f);
    int failed = ferror(f);
    fclose(f);
    if (failed)
        fprintf(stderr, "%s: cannot be read\n", path);
    return !failed;
}

/* All of the book into the file, down to the device. */
static int put(int fd, const uint8_t *book, size_t len)
{
    while (len > 0) {
        ssize_t n = write(fd, book, len);
        if (n < 0 && errno == EINTR)
            continue;
        if (n <= 0)
            return 0;
        book += n;
        len -= (size_t)n;
    }
    return fsync(fd) == 0;
}

/* The folder's entry for a name, down to the device. */
static int sync_folder(const char *path)
{
    char folder[PATH_MAX];
    const char *slash = strrchr(path, '/');
    size_t n = slash ? (size_t)(slash - path) + 1 : 0;
    memcpy(folder, path, n);
    strcpy(folder + n, ".");
    int fd = open(folder, O_RDONLY | O_DIRECTORY);
    if (fd < 0)
        return 0;
    int synced = fsync(fd) == 0;
    close(fd);
    return synced;
}

static int write_book(const char *path, const uint8_t *book, size_t len)
{
    char beside[PATH_MAX];
    if ((size_t)snprintf(beside, sizeof beside, "%s.new", path) >= sizeof beside) {
        fprintf(stderr, "%s: too long a name\n", path);
        return 0;
    }
    int fd = open(beside, O_WRONLY | O_CREAT | O_EXCL, 0666);
    if (fd < 0) {
        perror(beside);
        return 0;
    }
    int whole = put(fd, book, len);
    whole &= close(fd) == 0;
    if (!whole || rename(beside, path) != 0) {
        fprintf(stderr, "%s: cannot be written\n", path);
        unlink(beside);
        return 0;
    }
    if (!sync_folder(path)) {
        fprintf(stderr, "%s: is written, but its folder could not be synced\n", path);
        return 0;
    }
    return 1;
}

/* Whether two names are one file: by what they name, not by how they are written. A name without a file is no other's. */
static int same_file(const char *one, const char *two)
{
    struct stat a, b;
    if (stat(one, &a) != 0 || stat(two, &b) != 0)
        return 0;
    return a.st_dev == b.st_dev && a.st_ino == b.st_ino;
}

static void refused(const char *path, uint32_t number, uint64_t place)
{
    fprintf(stderr, "%s: refused %" PRIu32 " at %" PRIu64 ": %s\n", path, number, place, meaning(number));
}

int main(int argc, char **argv)
{
    size_t own_len, month_len;
    uint64_t place, length, turns; /* turns is how much work the join was, which this tool does not tell */

    if (argc != 4 || same_file(argv[2], argv[3]) || same_file(argv[1], argv[3])) {
        fprintf(stderr, "usage: plant OWN MONTH RESULT (RESULT is a file of its own)\n");
        return 1;
    }
    if (!read_book(argv[1], own, &own_len) || !read_book(argv[2], month, &month_len))
        return 1;

    uint32_t number = nwb_check(own, own_len, &place);
    if (number != 0) {
        refused(argv[1], number, place);
        return 1;
    }
    number = nwb_join(month, month_len, own, own_len, joined, sizeof joined, &place, &length, &turns);
    if (number != 0) {
        /* The second book is the plant's own and was checked above, so 21 to 26 do not come; 7 and 8 concern both. */
        refused(number >= 7 ? "joining" : argv[2], number > 20 ? number - 20 : number, place);
        return 1;
    }
    if (!write_book(argv[3], joined, (size_t)length))
        return 1;
    printf("%s: %" PRIu64 " records%s\n", argv[3], (length - 16) / 32, joined[4] == 2 ? ", version 2" : "");
    return 0;
}
