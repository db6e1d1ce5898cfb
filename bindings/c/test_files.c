/* How files.c opens and locks the two files of a database, without the proved part: what another
 * lock of this process becomes, a file that is moved while it is opened, what isn't a regular file,
 * a refusal behind the lock, folders that can't be read or synced. Linked with files.c and
 * -Wl,--wrap=fcntl,--wrap=fsync,--wrap=syncfs,--wrap=open. The last line is 'N passed, M failed'.
 */
#define _GNU_SOURCE
#include "site.h"
#include "test.h"
#include <dirent.h>
#include <errno.h>
#include <fcntl.h>
#include <signal.h>
#include <stdarg.h>
#include <stdio.h>
#include <stdlib.h>
#include <string.h>
#include <sys/stat.h>
#include <sys/wait.h>
#include <unistd.h>

/* What comes between two calls of the system: it is done once, and answers the error that the call
 * has then, or 0 where the call is made. */
static int (*before_lock)(void), (*before_copy)(void), (*before_sync)(void);
static int (*before_open)(void), (*before_folder)(void), (*before_folder_sync)(void);
/* The end of the path before whose opening `before_open` is done, and how often syncfs was called.
 */
static const char *opened_path = "";
static int syncs_of_all, error_of_all;

static int is_stopped(int (**before)(void)) {
    int (*it)(void) = *before;
    *before = NULL;
    return it && (errno = it()) != 0;
}

static int ends_with(const char *path, const char *end) {
    size_t length = strlen(path), wanted = strlen(end);
    return length >= wanted && !strcmp(path + length - wanted, end);
}

int __real_fcntl(int fd, int command, ...);
int __wrap_fcntl(int fd, int command, ...);
int __real_fsync(int fd);
int __wrap_fsync(int fd);
int __real_syncfs(int fd);
int __wrap_syncfs(int fd);
int __real_open(const char *path, int how, ...);
int __wrap_open(const char *path, int how, ...);

int __wrap_fcntl(int fd, int command, ...) {
    va_list more;
    va_start(more, command);
    void *argument = va_arg(more, void *);
    va_end(more);
    if (command == F_OFD_SETLK && is_stopped(&before_lock)) return -1;
    if (command == F_DUPFD_CLOEXEC && is_stopped(&before_copy)) return -1;
    return __real_fcntl(fd, command, argument);
}

int __wrap_fsync(int fd) {
    struct stat of;
    int is_folder = !fstat(fd, &of) && S_ISDIR(of.st_mode);
    if (is_stopped(is_folder ? &before_folder_sync : &before_sync)) return -1;
    return __real_fsync(fd);
}

int __wrap_syncfs(int fd) {
    syncs_of_all++;
    errno = error_of_all;
    return error_of_all ? -1 : __real_syncfs(fd);
}

int __wrap_open(const char *path, int how, ...) {
    va_list more;
    va_start(more, how);
    mode_t mode = va_arg(more, mode_t);
    va_end(more);
    if (how & O_DIRECTORY && is_stopped(&before_folder)) return -1;
    if (!(how & O_CREAT) && ends_with(path, opened_path) && is_stopped(&before_open)) return -1;
    return __real_open(path, how, mode);
}

static int descriptors(void) {
    int count = 0;
    DIR *folder = opendir("/proc/self/fd");
    while (folder && readdir(folder))
        count++;
    if (folder) closedir(folder);
    return count;
}

static int opens(const char *path, struct jumbetai_files *files, int locks[2]) {
    *files = (struct jumbetai_files){.log = -1, .db = -1};
    return jumbetai_open_files(path, files, locks);
}

static void close_all(struct jumbetai_files *files, int locks[2]) {
    close(files->log), close(files->db);
    jumbetai_unlock(locks);
}

/* What is answered where the files are opened and, where that is done, closed. */
static int opened(const char *path) {
    struct jumbetai_files files;
    int locks[2];
    int status = opens(path, &files, locks);
    if (!status) close_all(&files, locks);
    return status;
}

/* The status of what another process does. */
static int elsewhere(int (*what)(const char *), const char *path) {
    int status = -1;
    pid_t child = fork();
    if (child == 0) _exit(what(path));
    waitpid(child, &status, 0);
    return WIFEXITED(status) ? WEXITSTATUS(status) : -1;
}

/* Locks a part of what SQLite locks as SQLite does, for the process, and keeps it: 0, or 1 where
 * somebody else has it. */
static int lock_as_sqlite(const char *path, short type, off_t from, off_t length) {
    struct flock range = {
        .l_type = type, .l_whence = SEEK_SET, .l_start = (1 << 30) + from, .l_len = length};
    int fd = __real_open(path, O_RDWR | O_CLOEXEC);
    if (fd < 0) return 2;
    return __real_fcntl(fd, F_SETLK, &range) ? 1 : 0;
}

static int lock_exclusive(const char *path) { return lock_as_sqlite(path, F_WRLCK, 0, 512); }
static int lock_shared(const char *path) { return lock_as_sqlite(path, F_RDLCK, 2, 510); }

/* A process that does something and then waits until it is ended; whether it was done. */
static int started(int (*what)(const char *), const char *path, pid_t *child) {
    int ends[2];
    char said = 0;
    if (pipe(ends)) return 0;
    *child = fork();
    if (*child == 0) {
        said = what(path) ? 'n' : 'y';
        if (write(ends[1], &said, 1) == 1) pause();
        _exit(1);
    }
    close(ends[1]);
    if (read(ends[0], &said, 1) != 1) said = 0;
    close(ends[0]);
    return said == 'y';
}

static void end(pid_t child) {
    kill(child, SIGKILL);
    waitpid(child, NULL, 0);
}

static int hold_open(const char *path) {
    struct jumbetai_files files;
    int locks[2];
    return opens(path, &files, locks);
}

static void write_file(const char *path, const char *bytes) {
    FILE *file = fopen(path, "w");
    if (!file) return;
    fputs(bytes, file);
    fclose(file);
}

/* In a process of its own, since its locks end with it. */
static int keeps_exclusive(const char *path) {
    if (lock_exclusive(path)) return 10;
    int had = descriptors();
    if (opened(path) != JUMBETAI_BUSY) return 11;
    int status = elsewhere(lock_exclusive, path);
    if (status != 1) return status == 0 ? 12 : 13;
    /* However often it is asked, one descriptor stays. */
    for (int i = 0; i < 100; i++)
        if (opened(path) != JUMBETAI_BUSY) return 14;
    return descriptors() > had + 1 ? 15 : elsewhere(lock_exclusive, path) == 1 ? 0 : 16;
}

static int keeps_shared(const char *path) {
    if (lock_shared(path)) return 10;
    if (opened(path) != JUMBETAI_BUSY) return 11;
    return elsewhere(lock_exclusive, path) == 1 ? 0 : 12;
}

/* The same where another process has a shared lock too, which came before or behind ours. */
static int keeps_shared_beside(const char *path) {
    for (int is_first = 0; is_first < 2; is_first++) {
        pid_t child = 0;
        if (is_first && lock_shared(path)) return 10;
        if (!started(lock_shared, path, &child)) return 11;
        if (!is_first && lock_shared(path)) return 12;
        int status = opened(path);
        end(child);
        if (status != JUMBETAI_BUSY) return 13;
        if (elsewhere(lock_exclusive, path) != 1) return is_first ? 14 : 15;
    }
    return 0;
}

/* A lock of the file is kept where it is opened by another of its names, which is refused. */
static int keeps_of_second_name(const char *path) {
    if (link(path, "second.db") || lock_exclusive(path)) return 10;
    int status = opened("second.db");
    unlink("second.db");
    if (status != JUMBETAI_NO_FILE) return 11;
    return elsewhere(lock_exclusive, path) == 1 ? 0 : 12;
}

/* With standard input closed, for which a file isn't opened. */
static int keeps_without_streams(const char *path) {
    struct jumbetai_files files;
    int locks[2];
    close(0);
    if (opens(path, &files, locks)) return 10;
    if (files.log <= 2 || files.db <= 2 || locks[0] <= 2 || locks[1] <= 2) return 11;
    close_all(&files, locks);
    if (fcntl(0, F_GETFD) != -1) return 12;
    int fd = __real_open("/", O_RDONLY);
    if (fd != 0 || lock_exclusive(path)) return 13;
    close(0);
    if (opened(path) != JUMBETAI_BUSY) return 14;
    return elsewhere(lock_exclusive, path) == 1 ? 0 : 15;
}

/* What stays open of a refused opening is what a later one locks, and no forked process has it. */
static int opens_again(const char *path) {
    struct jumbetai_files files;
    int locks[2], ends[2], status = -1, had = descriptors();
    char go = 0;
    int fd = __real_open(path, O_RDWR | O_CLOEXEC);
    struct flock range = {
        .l_type = F_WRLCK, .l_whence = SEEK_SET, .l_start = 1 << 30, .l_len = 512};
    if (fd < 0 || __real_fcntl(fd, F_SETLK, &range)) return 10;
    if (opened(path) != JUMBETAI_BUSY) return 11;
    range.l_type = F_UNLCK;
    if (__real_fcntl(fd, F_SETLK, &range) || pipe(ends)) return 12;
    close(fd);
    pid_t child = fork();
    if (child == 0) {
        close(ends[1]);
        _exit(read(ends[0], &go, 1) == 0 ? opened(path) : 100);
    }
    close(ends[0]);
    if (opens(path, &files, locks)) return 13;
    close(ends[1]);
    waitpid(child, &status, 0);
    if (!WIFEXITED(status) || WEXITSTATUS(status) != JUMBETAI_BUSY) return 14;
    close_all(&files, locks);
    return descriptors() == had ? 0 : 15;
}

/* Where another has the file for itself one descriptor stays open, however often it is tried. */
static int keeps_one_of_anothers(const char *path) {
    pid_t child = 0;
    int had = descriptors();
    for (int is_sqlite = 0; is_sqlite < 2; is_sqlite++) {
        if (!started(is_sqlite ? lock_exclusive : hold_open, path, &child)) return 10;
        int status = opened(path);
        end(child);
        if (status != JUMBETAI_BUSY) return 11;
    }
    return descriptors() == had + 1 ? 0 : 12;
}

static void try_locks(void) {
    IS(opened("a.db"), JUMBETAI_DONE);
    IS(elsewhere(keeps_exclusive, "a.db"), 0);
    IS(elsewhere(keeps_shared, "a.db"), 0);
    IS(elsewhere(keeps_shared_beside, "a.db"), 0);
    IS(elsewhere(keeps_of_second_name, "a.db"), 0);
    IS(elsewhere(keeps_without_streams, "a.db"), 0);
    IS(elsewhere(opens_again, "a.db"), 0);
    IS(elsewhere(keeps_one_of_anothers, "a.db"), 0);
    IS(opened("a.db"), JUMBETAI_DONE);
}

static int move_away(void) {
    if (rename("a.db", "moved.db")) return EIO;
    write_file("a.db", "");
    return 0;
}

static void try_moved(void) {
    struct jumbetai_files files;
    int locks[2];
    before_lock = move_away;
    IS(opens("a.db", &files, locks), JUMBETAI_NO_FILE);
    IS(before_lock == NULL, 1);
    IS(opened("moved.db"), JUMBETAI_DONE);
    IS(elsewhere(opened, "moved.db"), JUMBETAI_DONE);
    IS(opened("a.db"), JUMBETAI_DONE);
}

static int put_fifo_journal(void) { return unlink("a.db-journal") || mkfifo("a.db-journal", 0600); }
static int put_fifo_log(void) { return unlink("a.db-wal") || mkfifo("a.db-wal", 0600); }
static int put_link(void) { return unlink("a.db") || symlink("moved.db", "a.db"); }

/* What isn't a regular file neither makes the caller wait nor is followed, whenever it comes. */
static void try_kinds(void) {
    alarm(20);
    write_file("a.db-journal", "");
    IS(opened("a.db"), JUMBETAI_DONE);
    before_open = put_fifo_journal, opened_path = "-journal";
    IS(opened("a.db"), JUMBETAI_JOURNAL);
    IS(before_open == NULL, 1);
    IS(opened("a.db"), JUMBETAI_JOURNAL);
    unlink("a.db-journal");
    before_open = put_fifo_log, opened_path = "-wal";
    IS(opened("a.db"), JUMBETAI_NO_FILE);
    IS(before_open == NULL, 1);
    IS(opened("a.db"), JUMBETAI_NO_FILE);
    unlink("a.db-wal");
    IS(opened("a.db"), JUMBETAI_DONE);
    before_open = put_link, opened_path = "/a.db";
    IS(opened("a.db"), JUMBETAI_NO_FILE);
    IS(before_open == NULL, 1);
    unlink("a.db");
    IS(mkfifo("a.db", 0600), 0);
    IS(opened("a.db"), JUMBETAI_NO_FILE);
    unlink("a.db");
    IS(opened("a.db"), JUMBETAI_DONE);
    alarm(0);
}

static pid_t copies;

/* A process that has copies of all descriptors until it is ended. */
static int copy_all(void) {
    copies = fork();
    if (copies == 0) {
        pause();
        _exit(0);
    }
    return EIO;
}

static int too_many(void) { return EMFILE; }
static int none_left(void) { return ENOMEM; }
static int second_too_many(void) {
    before_copy = too_many;
    return 0;
}

/* A refusal behind the lock leaves nothing open and nothing locked. */
static void try_refusals(void) {
    int had = descriptors();
    before_sync = copy_all;
    IS(opened("a.db"), JUMBETAI_SYSTEM);
    IS(before_sync == NULL, 1);
    IS(opened("a.db"), JUMBETAI_DONE);
    end(copies);
    struct {
        int (*before)(void), status;
    } rows[] = {{too_many, JUMBETAI_SYSTEM},
                {none_left, JUMBETAI_OUT_OF_MEMORY},
                {second_too_many, JUMBETAI_SYSTEM}};
    for (size_t i = 0; i < sizeof rows / sizeof *rows; i++) {
        before_copy = rows[i].before;
        IS(opened("a.db"), rows[i].status);
        IS(before_copy == NULL, 1);
        IS(descriptors(), had);
        IS(elsewhere(opened, "a.db"), JUMBETAI_DONE);
    }
}

static int unreadable(void) { return EACCES; }
static int unsupported(void) { return EINVAL; }
static int broken(void) { return EIO; }

/* Opens as somebody who may write in a folder and not read it. */
static int opened_by_other(const char *path) {
    if (setgid(65534) || setuid(65534)) return 100;
    return opened(path);
}

static void try_folders(void) {
    syncs_of_all = 0;
    IS(opened("a.db"), JUMBETAI_DONE);
    IS(syncs_of_all, 0);
    before_folder = unreadable;
    IS(opened("a.db"), JUMBETAI_DONE);
    IS(syncs_of_all, 1);
    before_folder_sync = unsupported;
    IS(opened("a.db"), JUMBETAI_DONE);
    IS(syncs_of_all, 2);
    before_folder = broken;
    IS(opened("a.db"), JUMBETAI_SYSTEM);
    before_folder_sync = broken;
    jumbetai_begin();
    IS(jumbetai_end(opened("a.db")), JUMBETAI_SYSTEM);
    IS(jumbetai_why(), EIO);
    IS(syncs_of_all, 2);
    before_folder_sync = unsupported, error_of_all = EIO;
    IS(opened("a.db"), JUMBETAI_SYSTEM);
    error_of_all = 0;
    jumbetai_begin();
    IS(jumbetai_why(), 0);
    before_folder_sync = unsupported;
    IS(jumbetai_end(opened("a.db")), JUMBETAI_DONE);
    IS(jumbetai_why(), 0);
    /* Where everybody may go. */
    char folder[] = "/dev/shm/test-files-XXXXXX", file[80], log[90];
    if (geteuid() || !mkdtemp(folder)) return;
    snprintf(file, sizeof file, "%s/a.db", folder);
    snprintf(log, sizeof log, "%s-wal", file);
    IS(chmod(folder, 0300) || chown(folder, 65534, 65534), 0);
    IS(elsewhere(opened_by_other, file), JUMBETAI_DONE);
    unlink(file), unlink(log), rmdir(folder);
}

int main(void) {
    char folder[] = "test-files-XXXXXX";
    if (!mkdtemp(folder) || chdir(folder)) return 2;
    try_locks();
    try_moved();
    try_kinds();
    try_refusals();
    try_folders();
    printf("%d passed, %d failed\n", passed, failed);
    return failed > 0;
}
