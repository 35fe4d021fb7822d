/* The shelf between two runs of a tool: a file that holds the 678 words of struct smp_shelf as they
 * stand in memory.
 *
 * The server wants that nobody else touches the shelf during a call, and two tools may run at the
 * same time: so whoever maps the file holds its lock until he is done.
 */
#ifndef SHELF_FILE_H
#define SHELF_FILE_H

#include "../../firmware/kinubarsil.h"

#include <errno.h>
#include <stddef.h>
#include <sys/file.h>
#include <sys/mman.h>
#include <sys/stat.h>

/* The shelf in the open file, which is locked; NULL with errno where it is none. */
static inline struct smp_shelf *shelf_lock(int fd)
{
    struct stat file;
    if (flock(fd, LOCK_EX) != 0 || fstat(fd, &file) != 0)
        return NULL;
    /* Past the end of a shorter file the mapping would be there, and reading it would kill us. */
    if (file.st_size != (off_t)sizeof(struct smp_shelf)) {
        errno = ENODEV;
        return NULL;
    }
    void *words = mmap(NULL, sizeof(struct smp_shelf), PROT_READ | PROT_WRITE, MAP_SHARED, fd, 0);
    return words == MAP_FAILED ? NULL : words;
}

static inline void shelf_unlock(int fd, struct smp_shelf *shelf)
{
    munmap(shelf, sizeof *shelf);
    flock(fd, LOCK_UN);
}

#endif
