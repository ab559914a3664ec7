/* Loaded before the C library: counts the calls by which the program opens,
   writes, flushes, cuts, renames, removes, locks and makes files and changes
   whose they are and what may be done with them, and at one of them something
   goes wrong. FAULT_AT is the number of that call, from 1, and FAULT_HOW what
   happens there:

     full    from there on no call gets more room: ENOSPC
     half    the same, but first half of the bytes are written
     error   that call alone fails: EIO; reading is counted too
     before  the program is killed before the call
     after   the program is killed after the call
     lost    the machine stops after the call: what was not flushed is gone
     tell    nothing: every call is told

   Or it is the same of all calls, whatever their number:

     locks   the file system has no locks: ENOLCK
     owners  nobody may change whose a file is: EPERM

   What was hit is told on standard error. Nothing is really flushed, so that
   no test waits for a disk. */

#define _GNU_SOURCE
#include <errno.h>
#include <fcntl.h>
#include <signal.h>
#include <stdarg.h>
#include <stdio.h>
#include <stdlib.h>
#include <string.h>
#include <sys/stat.h>
#include <sys/syscall.h>
#include <unistd.h>

/* A file that was opened to be written: how much of it is on the disk. */
struct file {
    int fd;
    dev_t device;
    ino_t number;
    off_t flushed;
};

static struct file files[256];
static int count;
static long calls;
static int is_full;

static long fault_at(void) {
    const char *at = getenv("FAULT_AT");
    return at ? atol(at) : 0;
}

static int how(const char *name) {
    const char *asked = getenv("FAULT_HOW");
    return asked && strcmp(asked, name) == 0;
}

static void tell(const char *call, const char *path) {
    dprintf(2, "fault: %s %s\n", call, path);
}

static const char *path_of(int fd) {
    static char path[4096];
    char link[64];
    snprintf(link, sizeof link, "/proc/self/fd/%d", fd);
    ssize_t size = readlink(link, path, sizeof path - 1);
    path[size > 0 ? size : 0] = 0;
    return path;
}

/* The path of a name in a folder that is open. */
static const char *path_in(int folder, const char *name) {
    static char path[8192];
    if (folder == AT_FDCWD || name[0] == '/')
        return name;
    snprintf(path, sizeof path, "%s/%s", path_of(folder), name);
    return path;
}

static void die(const char *call, const char *path) {
    tell(call, path);
    syscall(SYS_kill, getpid(), SIGKILL);
}

/* Before a call: whether it fails. `grows` is for one that takes room. */
static int before(const char *call, const char *path, int grows) {
    /* The system's own are no files of a disk. */
    if (strncmp(path, "/proc/", 6) == 0)
        return 0;
    calls++;
    int hit = calls == fault_at();
    if (how("tell"))
        tell(call, path);
    if (hit && how("before"))
        die(call, path);
    if (hit && how("error")) {
        tell(call, path);
        errno = EIO;
        return 1;
    }
    if (fault_at() && calls >= fault_at() && (how("full") || how("half")) && grows) {
        if (!is_full)
            tell(call, path);
        is_full = 1;
        errno = ENOSPC;
        return 1;
    }
    return 0;
}

/* After a call. */
static void after(const char *call, const char *path) {
    if (calls != fault_at())
        return;
    if (how("after"))
        die(call, path);
    if (how("lost")) {
        for (int i = 0; i < count; i++) {
            struct stat found;
            if (fstat(files[i].fd, &found) == 0 && found.st_size > files[i].flushed)
                syscall(SYS_ftruncate, files[i].fd, files[i].flushed);
        }
        die(call, path);
    }
}

static int plain(int fd) {
    struct stat found;
    return fd > 2 && fstat(fd, &found) == 0 && S_ISREG(found.st_mode);
}

ssize_t write(int fd, const void *bytes, size_t size) {
    if (!plain(fd))
        return syscall(SYS_write, fd, bytes, size);
    if (how("half") && calls + 1 == fault_at() && size > 1) {
        calls++;
        return syscall(SYS_write, fd, bytes, size / 2);
    }
    if (before("write", path_of(fd), 1))
        return -1;
    ssize_t written = syscall(SYS_write, fd, bytes, size);
    after("write", path_of(fd));
    return written;
}

ssize_t read(int fd, void *bytes, size_t size) {
    if (how("error") && plain(fd) && before("read", path_of(fd), 0))
        return -1;
    return syscall(SYS_read, fd, bytes, size);
}

/* All that a file holds now is on the disk. */
static void on_disk(int fd) {
    struct stat found;
    if (fstat(fd, &found) != 0)
        return;
    for (int i = 0; i < count; i++)
        if (files[i].device == found.st_dev && files[i].number == found.st_ino)
            files[i].flushed = found.st_size;
}

static int flush(const char *call, int fd) {
    if (before(call, path_of(fd), 1))
        return -1;
    on_disk(fd);
    after(call, path_of(fd));
    return 0;
}

int fsync(int fd) { return flush("fsync", fd); }

int fdatasync(int fd) { return flush("fdatasync", fd); }

static int cut(const char *call, int fd, off_t size) {
    if (before(call, path_of(fd), 0))
        return -1;
    int answer = (int)syscall(SYS_ftruncate, fd, size);
    on_disk(fd);
    after(call, path_of(fd));
    return answer;
}

int ftruncate(int fd, off_t size) { return cut("ftruncate", fd, size); }

int ftruncate64(int fd, off64_t size) { return cut("ftruncate64", fd, size); }

int renameat(int folder, const char *from, int into, const char *to) {
    const char *path = path_in(into, to);
    if (before("rename", path, 1))
        return -1;
    int answer = (int)syscall(SYS_renameat, folder, from, into, to);
    after("rename", path);
    return answer;
}

int rename(const char *from, const char *to) {
    return renameat(AT_FDCWD, from, AT_FDCWD, to);
}

int unlinkat(int folder, const char *name, int flags) {
    const char *path = path_in(folder, name);
    if (before("unlink", path, 0))
        return -1;
    int answer = (int)syscall(SYS_unlinkat, folder, name, flags);
    int why = errno;
    after("unlink", path);
    errno = why;
    return answer;
}

int unlink(const char *path) { return unlinkat(AT_FDCWD, path, 0); }

int fchmod(int fd, mode_t mode) {
    if (before("fchmod", path_of(fd), 0))
        return -1;
    int answer = (int)syscall(SYS_fchmod, fd, mode);
    after("fchmod", path_of(fd));
    return answer;
}

int fchown(int fd, uid_t user, gid_t group) {
    if (before("fchown", path_of(fd), 0))
        return -1;
    if (how("owners")) {
        tell("fchown", path_of(fd));
        errno = EPERM;
        return -1;
    }
    int answer = (int)syscall(SYS_fchown, fd, user, group);
    after("fchown", path_of(fd));
    return answer;
}

ssize_t pread64(int fd, void *bytes, size_t size, off64_t at) {
    if (how("error") && plain(fd) && before("pread", path_of(fd), 0))
        return -1;
    return syscall(SYS_pread64, fd, bytes, size, at);
}

int mkdir(const char *path, mode_t mode) {
    if (before("mkdir", path, 1))
        return -1;
    int answer = (int)syscall(SYS_mkdirat, AT_FDCWD, path, mode);
    after("mkdir", path);
    return answer;
}

int flock(int fd, int operation) {
    if (before("flock", path_of(fd), 0))
        return -1;
    if (how("locks")) {
        tell("flock", path_of(fd));
        errno = ENOLCK;
        return -1;
    }
    int answer = (int)syscall(SYS_flock, fd, operation);
    after("flock", path_of(fd));
    return answer;
}

static int opened(const char *call, int folder, const char *name, int flags, mode_t mode) {
    const char *path = path_in(folder, name);
    /* One that is only looked at is as stat is. */
    int looks = (flags & O_PATH) != 0;
    if (!looks && before(call, path, (flags & O_CREAT) != 0))
        return -1;
    int fd = (int)syscall(SYS_openat, folder, name, flags, mode);
    if (looks)
        return fd;
    if (fd >= 0 && (flags & O_ACCMODE) != O_RDONLY && count < 256) {
        struct stat found;
        int kept = fcntl(fd, F_DUPFD_CLOEXEC, 300);
        if (kept >= 0 && fstat(fd, &found) == 0)
            files[count++] = (struct file){kept, found.st_dev, found.st_ino, found.st_size};
    }
    after(call, path);
    return fd;
}

#define OPENED(call, folder)                     \
    mode_t mode = 0;                             \
    if (flags & O_CREAT) {                       \
        va_list rest;                            \
        va_start(rest, flags);                   \
        mode = (mode_t)va_arg(rest, int);        \
        va_end(rest);                            \
    }                                            \
    return opened(call, folder, path, flags, mode)

int open(const char *path, int flags, ...) { OPENED("open", AT_FDCWD); }

int open64(const char *path, int flags, ...) { OPENED("open64", AT_FDCWD); }

int openat(int folder, const char *path, int flags, ...) { OPENED("openat", folder); }
