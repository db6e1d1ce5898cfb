/* Opens the two files of a database and hands them to the library. Nothing of this file is proved,
 * and what it owes is said at struct jumbetai_files in exports.h: nobody else has the files. */
#define _GNU_SOURCE /* F_OFD_SETLK, O_PATH, getentropy, syncfs */
#include "site.h"
#include <errno.h>
#include <fcntl.h>
#include <stdatomic.h>
#include <stdlib.h>
#include <string.h>
#include <sys/stat.h>
#include <unistd.h>

/* The status of the call of the system that just failed. */
static int failed(void) {
    return rattle_errno() == ENOMEM ? JUMBETAI_OUT_OF_MEMORY : JUMBETAI_SYSTEM;
}

/* SQLite's pending, reserved and shared locks. */
enum { FIRST = 1 << 30, LENGTH = 512 };

static struct flock whole_range(short type) {
    return (struct flock){.l_type = type, .l_whence = SEEK_SET, .l_start = FIRST, .l_len = LENGTH};
}

/* Locks all of them alone. The lock belongs to the open file, so that another opening in this
 * process is refused too. */
static int lock(int fd) {
    struct flock range = whole_range(F_WRLCK);
    if (!fcntl(fd, F_OFD_SETLK, &range)) return JUMBETAI_DONE;
    return errno == EAGAIN || errno == EACCES ? JUMBETAI_BUSY : failed();
}

/* Closes what is locked, or was in vain. A process that is just being started has copies of all
 * files: to close ours isn't enough. */
static void release(int fd) {
    struct flock range = whole_range(F_UNLCK);
    if (fd < 0) return;
    fcntl(fd, F_OFD_SETLK, &range);
    close(fd);
}

static int is_same(const struct stat *one, const struct stat *other) {
    return one->st_dev == other->st_dev && one->st_ino == other->st_ino;
}

/* Descriptors that aren't locked and mustn't be closed: as a process closes any one of a file, the
 * system drops all locks that SQLite's own library has on that file in the process. They serve
 * the next opening of the file. `owner` is the process, above, and the descriptor and 1 below, 0
 * for none: a forked process has copies, by which it would have the same lock. `inode` says which
 * is worth a look, since a descriptor is looked at by the one thread that took it alone. */
static struct { _Atomic uint64_t owner, inode; } kept[64];

enum { KEPT = sizeof kept / sizeof *kept };

static uint64_t of_this_process(int fd) { return (uint64_t)getpid() << 32 | ((uint32_t)fd + 1); }

static int is_of_this_process(uint64_t owner) { return owner >> 32 == (uint64_t)getpid(); }

/* Where all places are taken it is open for as long as the process runs. */
static void keep(int fd) {
    struct stat found;
    uint64_t inode = fstat(fd, &found) ? 0 : found.st_ino;
    for (int i = 0; i < KEPT; i++) {
        uint64_t owner = atomic_load(&kept[i].owner);
        if (is_of_this_process(owner)) continue;
        atomic_store(&kept[i].inode, inode);
        if (atomic_compare_exchange_strong(&kept[i].owner, &owner, of_this_process(fd))) return;
    }
}

/* The descriptor that was kept of what stands there; -1 where there is none. */
static int take_kept(const char *path) {
    struct stat named, found;
    if (lstat(path, &named)) return -1;
    for (int i = 0; i < KEPT; i++) {
        uint64_t owner = atomic_load(&kept[i].owner);
        int fd = (int)(uint32_t)owner - 1;
        if (!is_of_this_process(owner) || atomic_load(&kept[i].inode) != named.st_ino ||
            !atomic_compare_exchange_strong(&kept[i].owner, &owner, 0))
            continue;
        if (!fstat(fd, &found) && is_same(&found, &named)) return fd;
        keep(fd);
    }
    return -1;
}

/* Whether what is open is a regular file with one name, which stands there and is no link. */
static int is_its_own(int fd, const char *path) {
    struct stat found, named;
    return !fstat(fd, &found) && !lstat(path, &named) && is_same(&found, &named) &&
           S_ISREG(found.st_mode) && found.st_nlink == 1;
}

/* Opens a file while no standard stream is closed: what is meant for one must not land in it. */
static int open_above_streams(const char *path, int how, mode_t mode) {
    int streams[3], count = 0, error;
    int fd = open("/", O_PATH | O_CLOEXEC);
    while (fd >= 0 && fd <= 2 && count < 3) {
        streams[count++] = fd;
        fd = open("/", O_PATH | O_CLOEXEC);
    }
    if (fd >= 0) {
        close(fd);
        fd = open(path, how, mode);
    }
    if (fd >= 0 && fd <= 2) {
        /* Another thread closed a stream meanwhile. */
        int low = fd;
        fd = fcntl(low, F_DUPFD_CLOEXEC, 3);
        close(low);
    }
    error = errno;
    while (count)
        close(streams[--count]);
    errno = error;
    return fd;
}

/* Opens the file, or makes it with this mode. A link or a device that stands there isn't opened,
 * and none that is put there meanwhile makes the caller wait. */
static int open_or_make(const char *path, mode_t mode, int *to, int *is_new) {
    enum { HOW = O_RDWR | O_CLOEXEC | O_NOCTTY | O_NOFOLLOW };
    struct stat named;
    int fd = open_above_streams(path, HOW | O_CREAT | O_EXCL, mode);
    *is_new = fd >= 0;
    if (fd < 0 && errno == EEXIST) {
        if (lstat(path, &named)) return failed();
        if (!S_ISREG(named.st_mode)) return JUMBETAI_NO_FILE;
        fd = open_above_streams(path, HOW | O_NONBLOCK, 0);
        if (fd < 0 && (errno == ELOOP || errno == ENXIO)) return JUMBETAI_NO_FILE;
        if (fd < 0 && errno == EWOULDBLOCK) return JUMBETAI_BUSY;
        if (fd >= 0) fcntl(fd, F_SETFL, 0);
    }
    if (fd < 0) return failed();
    *to = fd;
    return JUMBETAI_DONE;
}

/* The same, locked. */
static int open_locked(const char *path, mode_t mode, int *to, int *is_new) {
    int fd = take_kept(path);
    *is_new = 0;
    int status = fd < 0 ? open_or_make(path, mode, &fd, is_new) : JUMBETAI_DONE;
    if (status) return status;
    int is_named = is_its_own(fd, path);
    status = lock(fd);
    if (status) {
        /* Whoever has the lock, another thread may have one by SQLite in the next moment. */
        keep(fd);
        return is_named ? status : JUMBETAI_NO_FILE;
    }
    /* It may have been moved, and another put there, before it was locked. */
    if (!is_its_own(fd, path)) {
        release(fd);
        return JUMBETAI_NO_FILE;
    }
    /* While it is locked nobody here has another lock on it, and the others can be closed. */
    for (int other = take_kept(path); other >= 0; other = take_kept(path))
        close(other);
    *to = fd;
    return JUMBETAI_DONE;
}

/* A path without links, which is given back by free; the file is made where it isn't there. */
static int resolve(const char *path, char **to) {
    int made = -1, is_new;
    *to = realpath(path, NULL);
    if (*to) return JUMBETAI_DONE;
    if (errno != ENOENT) return failed();
    int status = open_or_make(path, 0644, &made, &is_new);
    if (status) return status;
    keep(made);
    *to = realpath(path, NULL);
    return *to ? JUMBETAI_DONE : failed();
}

/* The path of what lies beside a file, under its name and some letters more. */
static char *beside(const char *path, const char *more) {
    char *to = malloc(strlen(path) + strlen(more) + 1);
    return to ? strcat(strcpy(to, path), more) : NULL;
}

/* A rollback journal that isn't there, is empty or begins with a zero has nothing to play back. */
static int look_for_journal(const char *path) {
    struct stat found;
    char first = 0;
    if (lstat(path, &found)) return errno == ENOENT ? JUMBETAI_DONE : failed();
    if (!S_ISREG(found.st_mode)) return JUMBETAI_JOURNAL;
    int fd = open(path, O_RDONLY | O_CLOEXEC | O_NOCTTY | O_NOFOLLOW | O_NONBLOCK);
    if (fd < 0) return errno == ELOOP || errno == ENXIO ? JUMBETAI_JOURNAL : failed();
    int status = fstat(fd, &found) ? failed() : JUMBETAI_DONE;
    if (!status && !S_ISREG(found.st_mode)) status = JUMBETAI_JOURNAL;
    if (!status && read(fd, &first, 1) < 0) status = failed();
    if (!status && first) status = JUMBETAI_JOURNAL;
    close(fd);
    return status;
}

/* Gives a log that was made the mode, the group and the owner of the database file, where this
 * process may. */
static int take_access(int log, int db) {
    struct stat of;
    if (fstat(db, &of)) return failed();
    if (fchown(log, (uid_t)-1, of.st_gid) && errno != EPERM) return failed();
    if (fchown(log, of.st_uid, (gid_t)-1) && errno != EPERM) return failed();
    return fchmod(log, of.st_mode & 0777) ? failed() : JUMBETAI_DONE;
}

/* What the disk has is what the file has, and what a read gives is what the disk has: pages of an
 * earlier process whose sync failed may be other. */
static int settle(int fd) {
    if (fsync(fd)) return failed();
    return posix_fadvise(fd, 0, 0, POSIX_FADV_DONTNEED) ? JUMBETAI_SYSTEM : JUMBETAI_DONE;
}

/* The names that were made are on the disk. `path` is one without links. A folder that can't be
 * read, or not synced by itself, is synced with the whole file system of the database. */
static int settle_folder(char *path, int db) {
    char *slash = strrchr(path, '/');
    if (!slash) return JUMBETAI_SYSTEM;
    char after = slash[1];
    slash[1] = 0;
    int fd = open(path, O_RDONLY | O_DIRECTORY | O_CLOEXEC);
    slash[1] = after;
    int is_settled = fd >= 0 && !fsync(fd);
    if (!is_settled && (errno == EACCES || errno == EINVAL)) is_settled = !syncfs(db);
    int status = is_settled ? JUMBETAI_DONE : failed();
    if (fd >= 0) close(fd);
    return status;
}

/* Opens what lies at a path without links. Where it isn't done, nothing is open. */
static int open_both(char *path, struct jumbetai_files *files) {
    char *journal = beside(path, "-journal"), *log = beside(path, "-wal");
    int status = journal && log ? JUMBETAI_DONE : JUMBETAI_OUT_OF_MEMORY;
    int is_new = 0;
    files->log = files->db = -1;
    if (!status) status = open_locked(path, 0644, &files->db, &is_new);
    if (!status) status = look_for_journal(journal);
    if (!status) status = open_locked(log, 0600, &files->log, &is_new);
    if (!status && is_new) status = take_access(files->log, files->db);
    if (!status) status = settle(files->log);
    if (!status) status = settle(files->db);
    if (!status) status = settle_folder(path, files->db);
    if (!status && (getentropy(&files->key, sizeof files->key) ||
                    getentropy(&files->seed, sizeof files->seed)))
        status = JUMBETAI_NO_RANDOM;
    if (status) {
        release(files->log);
        release(files->db);
    }
    free(journal);
    free(log);
    return status;
}

void jumbetai_unlock(int locks[2]) {
    release(locks[0]);
    release(locks[1]);
}

int jumbetai_open_files(const char *path, struct jumbetai_files *files, int locks[2]) {
    char *real;
    int status = resolve(path, &real);
    if (status) return status;
    status = open_both(real, files);
    free(real);
    if (status) return status;
    locks[0] = fcntl(files->log, F_DUPFD_CLOEXEC, 3);
    locks[1] = locks[0] < 0 ? -1 : fcntl(files->db, F_DUPFD_CLOEXEC, 3);
    if (locks[1] >= 0) return JUMBETAI_DONE;
    status = failed();
    jumbetai_unlock(locks);
    release(files->log);
    release(files->db);
    return status;
}
