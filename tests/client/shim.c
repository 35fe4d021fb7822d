/* A bsg device of the expander, for tools that send SMP requests through Linux's bsg driver.
 *
 * Preloaded under such a tool (LD_PRELOAD), this shared object stands in for one device node: the
 * tool opens it, sends its request by ioctl(SG_IO) with a struct sg_io_v4, and gets the answer of
 * the server, which is linked in. Every other file is left to the C library.
 *
 * KINUBARSIL_BSG     the device's path; /dev/bsg/expander-kinubarsil where it is not set
 * KINUBARSIL_SHELF   the file that holds the shelf (shelf_file.h; the program `shelf` makes it)
 * KINUBARSIL_SOURCE  the zone group that requests come from; 1 where it is not set
 *
 * What the link layer does, the shim does: a tool sends room for the CRC behind its request, and
 * the server wants the frame without. What the tool's buffer has no room for is cut off, as a real
 * driver would cut it.
 *
 * A house refusal is not a response. The tool is told that the transport failed, with the refusal's
 * number as the transport status (H4 is 4), and its buffer stays as it was.
 */
#define _GNU_SOURCE
/* Either would have the headers turn some of the functions below into others. */
#undef _FORTIFY_SOURCE
#undef _FILE_OFFSET_BITS
#include "shelf_file.h"

#include <dlfcn.h>
#include <fcntl.h>
#include <linux/bsg.h>
#include <scsi/sg.h>
#include <stdarg.h>
#include <stdio.h>
#include <stdlib.h>
#include <string.h>
#include <sys/ioctl.h>
#include <unistd.h>

/* The build hides every name but these: libsmputils has names that begin with smp_, too. */
#define INTERPOSED __attribute__((visibility("default")))

enum { CRC_SIZE = 4, RESPONSE_ROOM = 1028, MOST_FILES = 1024 };

/* Which of this process's file descriptors stand for the device. */
static bool is_expander[MOST_FILES];

static const char *setting(const char *name, const char *unset)
{
    const char *value = getenv(name);
    return value != NULL ? value : unset;
}

static const char *bsg_path(void) { return setting("KINUBARSIL_BSG", "/dev/bsg/expander-kinubarsil"); }

/* The C library's own function. The stat functions of programs that were built before glibc 2.33
 * (__xstat) are there in their old version only, which a search without a version passes over. */
static void libc_function(const char *name, void *function)
{
    void *found = dlsym(RTLD_NEXT, name);
    if (found == NULL)
        found = dlvsym(RTLD_NEXT, name, "GLIBC_2.2.5");
    if (found == NULL) {
        fprintf(stderr, "shim: the C library has no %s\n", name);
        abort();
    }
    memcpy(function, &found, sizeof found);
}

/* The zone group that requests come from. It is not cut: whether there is such a group is the
 * server's to say. */
static bool source_group(uint32_t *source)
{
    const char *text = setting("KINUBARSIL_SOURCE", "1");
    char *end;
    errno = 0;
    unsigned long number = strtoul(text, &end, 10);
    *source = (uint32_t)number;
    return errno == 0 && end != text && *end == '\0' && number <= UINT32_MAX;
}

/* The header is one for an SMP request through bsg: what Linux checks before it looks further. */
static bool is_smp_request(const struct sg_io_v4 *io)
{
    return io->guard == 'Q' && io->protocol == BSG_PROTOCOL_SCSI &&
           io->subprotocol == BSG_SUB_PROTOCOL_SCSI_TRANSPORT && io->dout_xferp != 0 &&
           io->din_xferp != 0 && io->dout_xfer_len >= CRC_SIZE;
}

/* What the server told becomes what the driver tells. */
static void complete(struct sg_io_v4 *io, uint32_t told, const uint8_t *response)
{
    uint32_t size = smp_refused(told) ? 0 : told;
    if (size > io->din_xfer_len)
        size = io->din_xfer_len;
    memcpy((void *)(uintptr_t)io->din_xferp, response, size);
    io->din_resid = (int32_t)(io->din_xfer_len - size);
    io->dout_resid = 0;
    io->driver_status = 0;
    io->transport_status = smp_refusal(told);
    io->device_status = 0;
    io->response_len = 0;
    io->duration = 0;
    io->info = smp_refused(told) ? SG_INFO_CHECK : 0;
}

/* One request to the server. The device's descriptor is the shelf file's. */
static int send_request(int fd, struct sg_io_v4 *io)
{
    uint8_t response[RESPONSE_ROOM] = {0};
    uint32_t source;
    if (!is_smp_request(io) || !source_group(&source)) {
        errno = EINVAL;
        return -1;
    }
    struct smp_shelf *shelf = shelf_lock(fd);
    if (shelf == NULL)
        return -1;
    uint32_t told = smp_serve(shelf, source, (const uint8_t *)(uintptr_t)io->dout_xferp,
                              io->dout_xfer_len - CRC_SIZE, response, sizeof response);
    shelf_unlock(fd, shelf);
    complete(io, told, response);
    return 0;
}

/* The device is there exactly when the shelf file is. */
static int open_expander(int (*libc_open)(const char *, int, ...))
{
    int fd = libc_open(setting("KINUBARSIL_SHELF", ""), O_RDWR | O_CLOEXEC);
    if (fd >= MOST_FILES) {
        close(fd);
        errno = EMFILE;
        return -1;
    }
    if (fd >= 0)
        is_expander[fd] = true;
    return fd;
}

/* Whether an open has a mode as its third argument. */
static bool has_mode(int flags) { return (flags & O_CREAT) != 0 || (flags & O_TMPFILE) == O_TMPFILE; }

static int open_any(const char *name, const char *path, int flags, mode_t mode)
{
    int (*libc_open)(const char *, int, ...);
    libc_function(name, &libc_open);
    return strcmp(path, bsg_path()) == 0 ? open_expander(libc_open) : libc_open(path, flags, mode);
}

/* The tools take a path under /dev for a bsg device if sysfs knows its last part as one. */
static bool is_bsg_in_sysfs(const char *path)
{
    char known[1024];
    const char *last = strrchr(bsg_path(), '/');
    if (last == NULL)
        return false;
    int size = snprintf(known, sizeof known, "/sys/class/bsg%s/dev", last);
    return size < (int)sizeof known && strcmp(path, known) == 0;
}

/* A stat of the device or of its file in sysfs; false for any other path. `struct stat` and
 * `struct stat64` are the same on x86-64. */
static bool stat_expander(const char *path, void *told)
{
    struct stat file = {.st_nlink = 1};
    if (strcmp(path, bsg_path()) == 0)
        file.st_mode = S_IFCHR | S_IRUSR | S_IWUSR;
    else if (is_bsg_in_sysfs(path))
        file.st_mode = S_IFREG | S_IRUSR;
    else
        return false;
    memcpy(told, &file, sizeof file);
    return true;
}

static int stat_any(const char *name, const char *path, void *told)
{
    int (*libc_stat)(const char *, void *);
    if (stat_expander(path, told))
        return 0;
    libc_function(name, &libc_stat);
    return libc_stat(path, told);
}

static int xstat_any(const char *name, int version, const char *path, void *told)
{
    int (*libc_xstat)(int, const char *, void *);
    if (stat_expander(path, told))
        return 0;
    libc_function(name, &libc_xstat);
    return libc_xstat(version, path, told);
}

INTERPOSED int open(const char *path, int flags, ...)
{
    va_list rest;
    va_start(rest, flags);
    mode_t mode = has_mode(flags) ? va_arg(rest, mode_t) : 0;
    va_end(rest);
    return open_any("open", path, flags, mode);
}

INTERPOSED int open64(const char *path, int flags, ...)
{
    va_list rest;
    va_start(rest, flags);
    mode_t mode = has_mode(flags) ? va_arg(rest, mode_t) : 0;
    va_end(rest);
    return open_any("open64", path, flags, mode);
}

INTERPOSED int stat(const char *path, struct stat *told) { return stat_any("stat", path, told); }

INTERPOSED int stat64(const char *path, struct stat64 *told) { return stat_any("stat64", path, told); }

/* No header declares these two any more; Debian's tools were built when a stat was one of them. */
INTERPOSED int __xstat(int version, const char *path, struct stat *told);
INTERPOSED int __xstat64(int version, const char *path, struct stat64 *told);

int __xstat(int version, const char *path, struct stat *told)
{
    return xstat_any("__xstat", version, path, told);
}

int __xstat64(int version, const char *path, struct stat64 *told)
{
    return xstat_any("__xstat64", version, path, told);
}

INTERPOSED int ioctl(int fd, unsigned long request, ...)
{
    int (*libc_ioctl)(int, unsigned long, ...);
    va_list rest;
    va_start(rest, request);
    void *argument = va_arg(rest, void *);
    va_end(rest);
    if (fd >= 0 && fd < MOST_FILES && is_expander[fd] && request == SG_IO)
        return send_request(fd, argument);
    libc_function("ioctl", &libc_ioctl);
    return libc_ioctl(fd, request, argument);
}

INTERPOSED int close(int fd)
{
    int (*libc_close)(int);
    libc_function("close", &libc_close);
    if (fd >= 0 && fd < MOST_FILES)
        is_expander[fd] = false;
    return libc_close(fd);
}
