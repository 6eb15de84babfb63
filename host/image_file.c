/* The file under an image: see zitskvoze_file.h. */
#define _GNU_SOURCE
#include "zitskvoze_file.h"

#include <errno.h>
#include <fcntl.h>
#include <libgen.h>
#include <limits.h>
#include <pthread.h>
#include <sched.h>
#include <signal.h>
#include <stdarg.h>
#include <stdatomic.h>
#include <stdint.h>
#include <stdio.h>
#include <stdlib.h>
#include <string.h>
#include <sys/file.h>
#include <sys/mman.h>
#include <sys/stat.h>
#include <sys/uio.h>
#include <time.h>
#include <unistd.h>

#include "device.h"

#ifndef MAP_SHARED_VALIDATE
#define MAP_SHARED_VALIDATE 0x03
#endif
#ifndef MAP_SYNC
#define MAP_SYNC 0x80000
#endif
#ifndef sigev_notify_thread_id
#define sigev_notify_thread_id _sigev_un._tid
#endif

_Static_assert(sizeof ((zkv_file *)NULL)->made == PATH_MAX, "the names of a new file have the length that the system allows");

static uint8_t no_bytes[ZKV_LINE_BYTES];

__attribute__((format(printf, 1, 2))) static const char *wrong(const char *format, ...)
{
    static _Thread_local char text[PATH_MAX + 256];
    va_list arguments;
    va_start(arguments, format);
    vsnprintf(text, sizeof text, format, arguments);
    va_end(arguments);
    return text;
}

/* ---- the open files, as signal handlers need them */

struct open_file {
    struct open_file *next;
    int descriptor;             /* no two open files have the same */
    const uint8_t *image;
    size_t bytes;               /* 0: not mapped yet */
    const char *name;
    pid_t process;              /* that opened it: a child of it has the list too, but not the file to remove */
    char made[PATH_MAX];        /* of a new file without its name: what it was made under; else empty */
};

static struct open_file *open_files;
static atomic_flag list_held = ATOMIC_FLAG_INIT;

/* The list is held for a moment, and with every signal blocked: so no handler runs in the thread that holds it, and a
 * handler may wait for it. */
static void hold_list(sigset_t *before)
{
    sigset_t all;
    sigfillset(&all);
    pthread_sigmask(SIG_BLOCK, &all, before);
    while (atomic_flag_test_and_set_explicit(&list_held, memory_order_acquire)) {
        sched_yield();
    }
}

static void let_list_go(const sigset_t *before)
{
    atomic_flag_clear_explicit(&list_held, memory_order_release);
    pthread_sigmask(SIG_SETMASK, before, NULL);
}

/* A fork takes the list along: it is to be nobody's in the child, which has none of the other threads. */
static _Thread_local sigset_t before_fork;

static void hold_for_fork(void)
{
    hold_list(&before_fork);
}

static void let_go_after_fork(void)
{
    let_list_go(&before_fork);
}

static void watch_forks(void)
{
    pthread_atfork(hold_for_fork, let_go_after_fork, let_go_after_fork);
}

static void list_as_it_is(struct open_file *o, const zkv_file *f)
{
    o->descriptor = f->descriptor;
    o->image = f->image;
    o->bytes = f->bytes;
    o->name = f->name;
    o->process = getpid();
    strcpy(o->made, f->made);
}

/* Puts an open file on the list, in memory that the caller got and forget_file frees. */
static void add_to_list(struct open_file *o, const zkv_file *f)
{
    list_as_it_is(o, f);
    o->next = open_files;
    open_files = o;
}

/* What the list has of an open file becomes what it is now. */
static void list_anew(const zkv_file *f)
{
    sigset_t before;
    hold_list(&before);
    for (struct open_file *o = open_files; o != NULL; o = o->next) {
        if (o->descriptor == f->descriptor) {
            list_as_it_is(o, f);
        }
    }
    let_list_go(&before);
}

static void forget_file(int descriptor)
{
    struct open_file *found = NULL;
    sigset_t before;
    hold_list(&before);
    for (struct open_file **o = &open_files; *o != NULL && found == NULL;) {
        if ((*o)->descriptor == descriptor) {
            found = *o;
            *o = found->next;
        } else {
            o = &(*o)->next;
        }
    }
    let_list_go(&before);
    free(found);
}

/* ---- signals and descriptors. What runs in a handler makes system calls alone. */

static _Atomic(const char *) the_program = "host";
static struct sigaction bus_before;         /* what the host did at SIGBUS before zkv_file_guard */

/* With the list held. */
static void remove_nameless(void)
{
    for (const struct open_file *o = open_files; o != NULL; o = o->next) {
        if (o->made[0] != 0 && o->process == getpid()) {
            unlink(o->made);
        }
    }
}

static void act_by_default(int signal)
{
    struct sigaction usual = {.sa_handler = SIG_DFL};
    sigaction(signal, &usual, NULL);
}

/* A fault outside the images is none of ours: it goes to the handler that the host had. */
static void pass_on(int signal, siginfo_t *info, void *context)
{
    if (bus_before.sa_flags & SA_SIGINFO) {
        bus_before.sa_sigaction(signal, info, context);
    } else if (bus_before.sa_handler != SIG_DFL && bus_before.sa_handler != SIG_IGN) {
        bus_before.sa_handler(signal);
    } else if (info->si_code > 0) {
        act_by_default(signal);             /* the access is made again, and ends the program */
    } else if (bus_before.sa_handler == SIG_DFL) {
        act_by_default(signal);
        raise(signal);
    }
}

static struct iovec part(const char *text)
{
    return (struct iovec){.iov_base = (char *)(uintptr_t)text, .iov_len = strlen(text)};
}

static void on_bus_error(int signal, siginfo_t *info, void *context)
{
    const struct open_file *found = NULL;
    sigset_t before;
    hold_list(&before);
    for (const struct open_file *o = open_files; o != NULL && info->si_code > 0; o = o->next) {
        if ((uintptr_t)info->si_addr - (uintptr_t)o->image < o->bytes) {
            found = o;
        }
    }
    if (found == NULL) {
        let_list_go(&before);
        pass_on(signal, info, context);
        return;
    }
    struct iovec message[] = {
        part(atomic_load(&the_program)), part(": "), part(found->name),
        part(": the system has no page for a part of the file: the disk is full, or the file was cut while it was in use\n")};
    ssize_t written = writev(STDERR_FILENO, message, sizeof message / sizeof *message);
    (void)written;
    remove_nameless();
    _exit(2);
}

/* The program ends by the signal as if there were no handler. The list stays held: no other thread makes a file now. */
static void on_end(int signal)
{
    sigset_t before, this_one;
    hold_list(&before);
    remove_nameless();
    act_by_default(signal);
    raise(signal);
    sigemptyset(&this_one);
    sigaddset(&this_one, signal);
    pthread_sigmask(SIG_UNBLOCK, &this_one, NULL);
    _exit(128 + signal);                    /* the first process of a container does not end by its own signals */
}

static bool at_default(int signal)
{
    struct sigaction found;
    return sigaction(signal, NULL, &found) == 0 && !(found.sa_flags & SA_SIGINFO) && found.sa_handler == SIG_DFL;
}

static bool guard_pages(void)
{
    struct sigaction found, bus = {.sa_sigaction = on_bus_error, .sa_flags = SA_SIGINFO}, ignored = {.sa_handler = SIG_IGN};
    sigset_t needed;                        /* a parent may have blocked it */
    sigemptyset(&needed);
    sigaddset(&needed, SIGBUS);
    if (sigaction(SIGBUS, NULL, &found) != 0) {
        return false;
    }
    if (!(found.sa_flags & SA_SIGINFO) || found.sa_sigaction != on_bus_error) {
        bus_before = found;
    }
    bus.sa_flags |= found.sa_flags & SA_ONSTACK;
    return sigaction(SIGBUS, &bus, NULL) == 0 && sigaction(SIGXFSZ, &ignored, NULL) == 0 &&
           pthread_sigmask(SIG_UNBLOCK, &needed, NULL) == 0;
}

int zkv_file_guard(const char *program)
{
    static const int ends[] = {SIGINT, SIGTERM, SIGHUP};
    static pthread_once_t watched = PTHREAD_ONCE_INIT;
    struct sigaction end = {.sa_handler = on_end};
    pthread_once(&watched, watch_forks);
    for (int d = 0; d <= 2; d++) {
        /* The lowest free number is d: reading fails where writing is meant, and writing where reading is. */
        if (fcntl(d, F_GETFD) < 0 && (errno != EBADF || open("/dev/null", d == 0 ? O_WRONLY : O_RDONLY) != d)) {
            return 0;
        }
    }
    for (size_t i = 0; i < sizeof ends / sizeof *ends; i++) {
        if (at_default(ends[i]) && sigaction(ends[i], &end, NULL) != 0) {
            return 0;
        }
    }
    if (program != NULL) {
        atomic_store(&the_program, program);
    }
    return guard_pages();
}

/* ---- locks */

static int tick_signal;         /* 0: there is none to be had */

static void on_tick(int signal)
{
    (void)signal;
}

/* A real-time signal that the host does nothing at: it is kept from then on, so that no wait ends another's. */
static void choose_tick_signal(void)
{
    struct sigaction tick = {.sa_handler = on_tick};
    for (int signal = SIGRTMAX - 1; signal >= SIGRTMIN && tick_signal == 0; signal--) {
        if (at_default(signal) && sigaction(signal, &tick, NULL) == 0) {
            tick_signal = signal;
        }
    }
}

struct ticks {
    timer_t timer;
    sigset_t before;
};

/* From here on a signal each second gets this thread, and no other, out of a system call. */
static bool begin_ticks(struct ticks *t)
{
    static pthread_once_t chosen = PTHREAD_ONCE_INIT;
    struct itimerspec each_second = {{1, 0}, {1, 0}};
    pthread_once(&chosen, choose_tick_signal);
    if (tick_signal == 0) {
        errno = EAGAIN;
        return false;
    }
    struct sigevent to_this_thread = {.sigev_notify = SIGEV_THREAD_ID, .sigev_signo = tick_signal};
    sigset_t ticking;                       /* threads of a host often block every signal */
    to_this_thread.sigev_notify_thread_id = gettid();
    sigemptyset(&ticking);
    sigaddset(&ticking, tick_signal);
    if (timer_create(CLOCK_MONOTONIC, &to_this_thread, &t->timer) != 0) {
        return false;
    }
    pthread_sigmask(SIG_UNBLOCK, &ticking, &t->before);
    timer_settime(t->timer, 0, &each_second, NULL);
    return true;
}

static void end_ticks(const struct ticks *t)
{
    timer_delete(t->timer);
    pthread_sigmask(SIG_SETMASK, &t->before, NULL);
}

static double seconds_now(void)
{
    struct timespec t;
    clock_gettime(CLOCK_MONOTONIC, &t);
    return (double)t.tv_sec + 1e-9 * (double)t.tv_nsec;
}

/* Waits in the kernel's queue; a tick each second gets out of it, to say so and to look at the bound. */
static const char *lock(int descriptor, int kind, const char *name, zkv_file_wait wait, double begin)
{
    if (flock(descriptor, kind | LOCK_NB) == 0) {
        return NULL;
    }
    struct ticks ticks;
    bool ticking = wait.seconds >= 0 || wait.notice != NULL, told = false, late = false;
    if (ticking && !begin_ticks(&ticks)) {
        return wrong("is locked by another program, and cannot be waited for: %s", strerror(errno));
    }
    int status = -1;
    do {
        double waited = seconds_now() - begin;
        late = wait.seconds >= 0 && waited >= (double)wait.seconds;
        if (!late) {
            if (waited >= 1 && !told && wait.notice != NULL) {
                wait.notice(name);
                told = true;
            }
            status = flock(descriptor, kind);
        }
    } while (!late && status != 0 && errno == EINTR);
    int number = errno;
    if (ticking) {
        end_ticks(&ticks);
    }
    if (late) {
        return wrong("is locked by another program; waited %ld s", wait.seconds);
    }
    return status == 0 ? NULL : wrong("cannot be locked: %s", strerror(number));
}

/* ---- mapping */

enum { PAGE = 4096 };

/* Whether it is the length of an image with chunks of either size. */
static bool length_allowed(int64_t bytes)
{
    int64_t chunk = bytes <= ZKV_CHUNKS_MAX * ZKV_CHUNK_BYTES ? ZKV_CHUNK_BYTES : ZKV_LARGE_CHUNK_BYTES;
    return bytes % chunk == 0 && bytes >= ZKV_CHUNKS_MIN * chunk && bytes <= ZKV_CHUNKS_MAX * chunk;
}

/* With MAP_SYNC, so that a line written back is durable; else its pages are synced at each fence. */
static const char *map(zkv_file *f, size_t bytes, bool writing)
{
    int protection = writing ? PROT_READ | PROT_WRITE : PROT_READ;
    void *at = mmap(NULL, bytes, protection, MAP_SHARED_VALIDATE | MAP_SYNC, f->descriptor, 0);
    f->by_pages = at == MAP_FAILED;
    if (f->by_pages) {
        at = mmap(NULL, bytes, protection, MAP_SHARED, f->descriptor, 0);
    }
    if (at == MAP_FAILED) {
        return wrong("cannot be mapped: %s", strerror(errno));
    }
    f->image = at;
    f->bytes = bytes;
    f->how = best_write_back();
    list_anew(f);
    return NULL;
}

/* A file with holes needs space at its first stores, when it is too late to say no. */
static const char *reserve(int descriptor, size_t bytes)
{
    int number = posix_fallocate(descriptor, 0, (off_t)bytes);
    return number == 0 ? NULL : wrong("cannot get its %zu bytes: %s", bytes, strerror(number));
}

/* Pages of the system's cache need no write-back of lines: the sync takes them as the processor sees them. */
static const char *settle(const zkv_file *f)
{
    if (f->by_pages) {
        return fsync(f->descriptor) == 0 ? NULL : wrong("cannot be made durable: %s", strerror(errno));
    }
    for (size_t at = 0; at < f->bytes; at += ZKV_LINE_BYTES) {
        write_back_line((enum write_back)f->how, f->image + at);
    }
    store_fence();
    return NULL;
}

void zkv_file_flush(void *file, const uint8_t *line)
{
    zkv_file *f = file;
    write_back_line((enum write_back)f->how, line);
    f->page[(size_t)(line - f->image) / PAGE] = 1;
}

int zkv_file_fence(void *file)
{
    zkv_file *f = file;
    store_fence();
    size_t pages = f->by_pages ? f->bytes / PAGE : 0, end;
    for (size_t p = 0; p < pages; p = end + 1) {
        end = p;
        while (end < pages && f->page[end]) {           /* those beside each other by one call */
            end++;
        }
        if (end > p && msync(f->image + p * PAGE, (end - p) * PAGE, MS_SYNC) != 0) {
            return -1;
        }
        memset(f->page + p, 0, end - p);
    }
    return 0;
}

/* ---- key tables */

enum { HUGE_PAGE = 1 << 21, SHORTEST_ENTRY = 16, WORDS_PER_KEY = 4 };

uint64_t *zkv_table_new(size_t bytes, size_t *words)
{
    size_t all = bytes / SHORTEST_ENTRY * WORDS_PER_KEY;
    *words = all < ZKV_TABLE_WORDS_MAX ? all : ZKV_TABLE_WORDS_MAX;
    size_t length = 8 * *words + (*words == 0), room = length > HUGE_PAGE / 2 ? length + HUGE_PAGE : length;
    uint8_t *at = mmap(NULL, room, PROT_READ | PROT_WRITE, MAP_PRIVATE | MAP_ANONYMOUS, -1, 0);
    if (at == MAP_FAILED) {
        return NULL;
    }
    if (room > length) {
        /* A table of about a huge page begins where one may lie; what is before and behind it goes back. */
        size_t before = (HUGE_PAGE - (uintptr_t)at % HUGE_PAGE) % HUGE_PAGE;
        size_t kept = (length + PAGE - 1) / PAGE * PAGE;
        if (before > 0) {
            munmap(at, before);
        }
        at += before;
        if (room - before > kept) {
            munmap(at + kept, room - before - kept);
        }
        madvise(at, kept, MADV_HUGEPAGE);
    }
    return (uint64_t *)(void *)at;
}

void zkv_table_free(uint64_t *table, size_t words)
{
    if (table != NULL) {
        munmap(table, 8 * words + (words == 0));
    }
}

/* ---- opening */

static void nothing_mapped(zkv_file *f, const char *name, enum zkv_file_use use)
{
    memset(f, 0, sizeof *f);
    f->name = name;
    f->descriptor = -1;
    f->use = use;
    f->image = no_bytes;
}

static bool is_file(const zkv_file *f, const struct stat *about)
{
    return about->st_dev == f->device && about->st_ino == f->inode;
}

/* Notes what the open file is. */
static bool look_at(zkv_file *f, struct stat *about)
{
    if (fstat(f->descriptor, about) != 0) {
        return false;
    }
    f->length = about->st_size;
    f->device = about->st_dev;
    f->inode = about->st_ino;
    f->owner = about->st_uid;
    f->group = about->st_gid;
    f->mode = about->st_mode & 07777;
    return true;
}

/* Opens and locks the file that has the name, both then and when the lock is got. */
static const char *open_locked(zkv_file *f, zkv_file_wait wait)
{
    double begin = seconds_now();
    for (;;) {
        struct stat about;
        /* Without waiting: a FIFO would wait for its other end. */
        f->descriptor = open(f->name, (f->use == ZKV_FILE_READ ? O_RDONLY : O_RDWR) | O_CLOEXEC | O_NONBLOCK | O_NOCTTY);
        if (f->descriptor < 0 || !look_at(f, &about)) {
            return errno == EISDIR ? "is a folder, no regular file" : wrong("cannot be opened: %s", strerror(errno));
        }
        if (!S_ISREG(about.st_mode)) {
            return "is no regular file";
        }
        const char *text = lock(f->descriptor, f->use == ZKV_FILE_READ ? LOCK_SH : LOCK_EX, f->name, wait, begin);
        if (text != NULL) {
            return text;
        }
        if (!look_at(f, &about)) {
            return wrong("cannot be looked at: %s", strerror(errno));
        }
        if (stat(f->name, &about) == 0 && is_file(f, &about)) {
            return NULL;
        }
        close(f->descriptor);
    }
}

static const char *open_mapped(zkv_file *f, zkv_file_wait wait)
{
    const char *text = open_locked(f, wait);
    if (text != NULL || !length_allowed(f->length)) {
        return text;
    }
    size_t bytes = (size_t)f->length;
    struct open_file *listed = malloc(sizeof *listed);
    if (listed == NULL) {
        return "no memory";
    }
    sigset_t before;
    hold_list(&before);
    add_to_list(listed, f);
    let_list_go(&before);
    if (f->use == ZKV_FILE_WRITE) {
        text = reserve(f->descriptor, bytes);
    }
    if (text == NULL) {
        text = map(f, bytes, f->use == ZKV_FILE_WRITE);
    }
    return text != NULL ? text : settle(f);
}

/* What failed leaves nothing open. */
static const char *or_close(zkv_file *f, const char *text)
{
    if (text != NULL) {
        zkv_file_close(f);
    }
    return text;
}

const char *zkv_file_open(zkv_file *f, const char *name, enum zkv_file_use use, zkv_file_wait wait)
{
    nothing_mapped(f, name, use);
    return or_close(f, open_mapped(f, wait));
}

const char *zkv_file_confirm(const zkv_file *f)
{
    struct stat now;
    if (fstat(f->descriptor, &now) != 0) {
        return wrong("cannot be looked at: %s", strerror(errno));
    }
    if (now.st_size != f->length) {
        return wrong("was %jd bytes long and is %jd now: it was cut or stretched while it was in use", (intmax_t)f->length,
                     (intmax_t)now.st_size);
    }
    if (f->use == ZKV_FILE_WRITE && (stat(f->name, &now) != 0 || !is_file(f, &now))) {
        return "was exchanged for another file, or removed, while it was in use: what was written went to the file before";
    }
    return NULL;
}

/* ---- new files */

/* The name that a chain of symbolic links ends in: the new file is made beside that one, and that folder is synced. */
static bool behind_links(const char *name, char found[PATH_MAX])
{
    char target[PATH_MAX], folder[PATH_MAX];
    if (snprintf(found, PATH_MAX, "%s", name) >= PATH_MAX) {
        errno = ENAMETOOLONG;
        return false;
    }
    for (int links = 0; links < 40; links++) {
        ssize_t length = readlink(found, target, sizeof target - 1);
        if (length < 0) {
            return errno == EINVAL || errno == ENOENT;
        }
        target[length] = 0;
        strcpy(folder, found);
        int all = target[0] == '/' ? snprintf(found, PATH_MAX, "%s", target)
                                   : snprintf(found, PATH_MAX, "%s/%s", dirname(folder), target);
        if (all >= PATH_MAX) {
            errno = ENAMETOOLONG;
            return false;
        }
    }
    errno = ELOOP;
    return false;
}

/* Makes the file, locked: it is this host's alone already when it gets its name. From here on a signal that ends the
 * program removes it. */
static const char *make_locked(zkv_file *f)
{
    struct open_file *listed = malloc(sizeof *listed);
    if (listed == NULL) {
        f->made[0] = 0;
        return "no memory";
    }
    sigset_t before;
    hold_list(&before);
    f->descriptor = mkostemp(f->made, O_CLOEXEC);          /* of mode 0600 */
    int number = errno;
    if (f->descriptor >= 0) {
        add_to_list(listed, f);
    }
    let_list_go(&before);
    if (f->descriptor < 0) {
        free(listed);
        f->made[0] = 0;
        return wrong("no file can be made beside it: %s", strerror(number));
    }
    return flock(f->descriptor, LOCK_EX | LOCK_NB) == 0 ? NULL : wrong("cannot be locked: %s", strerror(errno));
}

static const char *new_mapped(zkv_file *f, size_t bytes)
{
    if (!behind_links(f->name, f->wanted)) {
        return wrong("its place cannot be found: %s", strerror(errno));
    }
    if (snprintf(f->made, sizeof f->made, "%s.new-XXXXXX", f->wanted) >= (int)sizeof f->made) {
        f->made[0] = 0;
        return "its name is too long";
    }
    const char *text = make_locked(f);
    if (text == NULL) {
        text = reserve(f->descriptor, bytes);
    }
    struct stat about;
    if (text == NULL && !look_at(f, &about)) {
        text = wrong("cannot be looked at: %s", strerror(errno));
    }
    return text != NULL ? text : map(f, bytes, true);
}

const char *zkv_file_new(zkv_file *f, const char *name, size_t bytes)
{
    nothing_mapped(f, name, ZKV_FILE_WRITE);
    return or_close(f, new_mapped(f, bytes));
}

/* The new name, unless a file has it already. */
static int rename_to_nobodys(const char *from, const char *to)
{
    int status = renameat2(AT_FDCWD, from, AT_FDCWD, to, RENAME_NOREPLACE);
    if (status != 0 && (errno == EINVAL || errno == ENOSYS)) {     /* not on this file system */
        status = link(from, to);
        if (status == 0) {
            unlink(from);
        }
    }
    return status;
}

/* The name, given to a file that is durable, in a folder that can be synced: a name lasts only once its folder is. */
static const char *rename_in(int folder, zkv_file *f, const zkv_file *old)
{
    struct stat named;
    if (folder < 0 || fsync(folder) != 0) {
        return wrong("its folder cannot be synced: %s", strerror(errno));
    }
    if (old != NULL && (stat(old->name, &named) != 0 || !is_file(old, &named))) {
        return "was exchanged for another file, or removed, meanwhile; that is left as it is";
    }
    if ((old != NULL ? rename(f->made, f->wanted) : rename_to_nobodys(f->made, f->wanted)) != 0) {
        return errno == EEXIST ? "has been made by another program meanwhile; it is left as it is"
                               : wrong("the new file cannot get its name: %s", strerror(errno));
    }
    f->made[0] = 0;
    list_anew(f);
    return fsync(folder) == 0 ? NULL : wrong("is there, but its folder could not be synced, so that a power cut may take it back: %s",
                                             strerror(errno));
}

const char *zkv_file_take_name(zkv_file *f, const zkv_file *old)
{
    if (old != NULL && (fchown(f->descriptor, old->owner, old->group) != 0 || fchmod(f->descriptor, old->mode) != 0)) {
        return wrong("the new file cannot get the old one's owner and mode: %s", strerror(errno));
    }
    const char *text = settle(f);
    if (text != NULL) {
        return text;
    }
    struct stat about;
    if (fsync(f->descriptor) != 0 || fstat(f->descriptor, &about) != 0) {
        return wrong("cannot be made durable: %s", strerror(errno));
    }
    if (about.st_size != f->length) {
        return "was cut or stretched before it had its name";
    }
    char place[PATH_MAX];
    strcpy(place, f->wanted);
    int folder = open(dirname(place), O_RDONLY | O_DIRECTORY | O_CLOEXEC);
    text = rename_in(folder, f, old);
    if (folder >= 0) {
        close(folder);
    }
    return text;
}

void zkv_file_close(zkv_file *f)
{
    if (f->made[0] != 0) {
        unlink(f->made);
    }
    if (f->descriptor >= 0) {
        forget_file(f->descriptor);         /* before its address and number may be another's */
    }
    if (f->bytes > 0) {
        munmap(f->image, f->bytes);
    }
    if (f->descriptor >= 0) {
        close(f->descriptor);
    }
    f->descriptor = -1;
    f->image = no_bytes;
    f->bytes = 0;
    f->made[0] = 0;
}
