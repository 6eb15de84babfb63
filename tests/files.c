/* A host with threads, signal handlers and several files against zitskvoze_file.h. tests/library.sh runs it.
 *
 * files TEST       one test, in an empty folder that it is started in; exit status 1 and a message at the first thing
 *                  that is not as the header says, 2 where there is no such test */
#define _GNU_SOURCE
#include <dirent.h>
#include <errno.h>
#include <fcntl.h>
#include <pthread.h>
#include <signal.h>
#include <stdatomic.h>
#include <stdbool.h>
#include <stdio.h>
#include <stdlib.h>
#include <string.h>
#include <sys/mman.h>
#include <sys/prctl.h>
#include <sys/stat.h>
#include <sys/syscall.h>
#include <sys/time.h>
#include <sys/wait.h>
#include <time.h>
#include <unistd.h>

#include "zitskvoze_file.h"

enum { BYTES = ZKV_CHUNKS_MIN * ZKV_CHUNK_BYTES, WORDS = 1024 };

static const zkv_file_wait at_once = {0, NULL};
static char child_says[4096];

static void not_so(int line, const char *what)
{
    fprintf(stderr, "files: line %d: not so: %s\n%s", line, what, child_says);
    exit(1);
}

#define HOLD(what) ((what) ? (void)0 : not_so(__LINE__, #what))

static bool says(const char *text, const char *part)
{
    return text != NULL && strstr(text, part) != NULL;
}

/* Files in the folder that the test runs in. */
static int files_here(void)
{
    int count = 0;
    DIR *here = opendir(".");
    HOLD(here != NULL);
    for (struct dirent *e = readdir(here); e != NULL; e = readdir(here)) {
        count += e->d_name[0] != '.';
    }
    closedir(here);
    return count;
}

static bool is_there(const char *name)
{
    struct stat about;
    return lstat(name, &about) == 0;
}

/* ---- the folder's sync, which a test may have fail */

static int folder_syncs_to_do = -1;         /* then one fails; below 0: none does */

int fsync(int descriptor)
{
    struct stat about;
    if (fstat(descriptor, &about) == 0 && S_ISDIR(about.st_mode) && folder_syncs_to_do >= 0 && folder_syncs_to_do-- == 0) {
        errno = EIO;
        return -1;
    }
    return (int)syscall(SYS_fsync, descriptor);
}

/* ---- registers */

static void format(zkv_file *f)
{
    static _Thread_local zkv_record record;
    static _Thread_local uint64_t table[WORDS];
    zkv_report r = zkv_format(&record, f->image, f->bytes, table, WORDS, ZKV_POWER_SMALL, 0, 0, 0, 0);
    r = zkv_finish(&record, f->image, f->bytes, table, WORDS, r, zkv_file_flush, zkv_file_fence, f);
    HOLD(r.kind == ZKV_END);
}

static void make(const char *name)
{
    zkv_file f;
    HOLD(zkv_file_new(&f, name, BYTES) == NULL);
    format(&f);
    HOLD(zkv_file_take_name(&f, NULL) == NULL);
    zkv_file_close(&f);
}

/* ---- locks */

/* A host that formats and goes on on the same zkv_file is alone, from before the file has its name. */
static void test_locked(void)
{
    zkv_file f, old, other;
    HOLD(zkv_file_new(&f, "a.img", BYTES) == NULL);
    HOLD(says(zkv_file_open(&other, f.made, ZKV_FILE_READ, at_once), "locked"));
    format(&f);
    HOLD(zkv_file_take_name(&f, NULL) == NULL);
    HOLD(says(zkv_file_open(&other, "a.img", ZKV_FILE_WRITE, at_once), "locked"));
    HOLD(says(zkv_file_open(&other, "a.img", ZKV_FILE_READ, at_once), "locked"));
    HOLD(zkv_file_confirm(&f) == NULL);
    zkv_file_close(&f);

    HOLD(zkv_file_open(&old, "a.img", ZKV_FILE_REPLACE, at_once) == NULL);
    HOLD(zkv_file_new(&f, "a.img", BYTES) == NULL);
    format(&f);
    HOLD(zkv_file_take_name(&f, &old) == NULL);
    zkv_file_close(&old);
    HOLD(says(zkv_file_open(&other, "a.img", ZKV_FILE_WRITE, at_once), "locked"));
    zkv_file_close(&f);
    HOLD(zkv_file_open(&other, "a.img", ZKV_FILE_WRITE, at_once) == NULL);
    zkv_file_close(&other);
    HOLD(files_here() == 1);
}

/* What fails leaves no descriptor open, and so no lock, though nobody closes it. */
static void test_failures(void)
{
    zkv_file holder, f;
    make("a.img");
    HOLD(mkdir("folder", 0700) == 0 && mkfifo("fifo", 0600) == 0);
    HOLD(zkv_file_open(&holder, "a.img", ZKV_FILE_WRITE, at_once) == NULL);
    int free_number = dup(0);
    close(free_number);
    for (int i = 0; i < 20; i++) {
        HOLD(says(zkv_file_open(&f, "a.img", ZKV_FILE_WRITE, at_once), "locked"));
        HOLD(zkv_file_open(&f, "fifo", ZKV_FILE_WRITE, at_once) != NULL);
        HOLD(zkv_file_open(&f, "folder", ZKV_FILE_READ, at_once) != NULL);
        HOLD(zkv_file_open(&f, "none", ZKV_FILE_READ, at_once) != NULL);
        HOLD(zkv_file_new(&f, "nowhere/a.img", BYTES) != NULL);
        HOLD(zkv_file_new(&f, "b.img", (size_t)1 << 62) != NULL);
        HOLD(f.bytes == 0 && f.made[0] == 0);
    }
    zkv_file_close(&f);
    int number = dup(0);
    HOLD(number == free_number);
    close(number);
    HOLD(files_here() == 3);
    zkv_file_close(&holder);
}

/* ---- waits */

struct waiter {
    const char *name;
    zkv_file_wait wait;
    bool blocked;               /* the thread blocks every signal */
    bool expected;              /* to get the lock */
    atomic_bool done;
    double seconds;
};

static atomic_int notices, alarms;

static void notice(const char *name)
{
    HOLD(strcmp(name, "a.img") == 0);
    notices++;
}

static void on_alarm(int signal)
{
    (void)signal;
    alarms++;
}

static double now(void)
{
    struct timespec t;
    clock_gettime(CLOCK_MONOTONIC, &t);
    return (double)t.tv_sec + 1e-9 * (double)t.tv_nsec;
}

static void *wait_for_lock(void *waiter)
{
    struct waiter *w = waiter;
    zkv_file f;
    sigset_t all, after;
    sigfillset(&all);
    if (w->blocked) {
        pthread_sigmask(SIG_SETMASK, &all, NULL);
    }
    double begin = now();
    const char *text = zkv_file_open(&f, w->name, ZKV_FILE_WRITE, w->wait);
    w->seconds = now() - begin;
    HOLD(w->expected ? text == NULL : says(text, "is locked by another program; waited"));
    zkv_file_close(&f);
    pthread_sigmask(SIG_SETMASK, NULL, &after);
    HOLD(sigismember(&after, SIGRTMAX - 1) == w->blocked);
    w->done = true;
    return NULL;
}

/* Sleeps so long, or until the waiter is done. */
static void sleep_for(double seconds, const struct waiter *w)
{
    for (double end = now() + seconds; now() < end && !w->done;) {
        usleep(10000);
    }
}

/* Waits in threads of their own are over in time, while the main thread gets every signal that is anybody's; the host's
 * own timer and its handler are left alone. */
static void test_waits(void)
{
    struct waiter w[] = {{.name = "a.img", .wait = {1, NULL}}, {.name = "a.img", .wait = {2, notice}, .blocked = true}};
    struct sigaction alarm = {.sa_handler = on_alarm}, found;
    struct itimerval often = {{0, 50000}, {0, 50000}}, left;
    zkv_file holder;
    pthread_t thread[4];
    make("a.img");
    HOLD(zkv_file_open(&holder, "a.img", ZKV_FILE_WRITE, at_once) == NULL);
    HOLD(sigaction(SIGALRM, &alarm, NULL) == 0 && setitimer(ITIMER_REAL, &often, NULL) == 0);
    for (int i = 0; i < 2; i++) {
        HOLD(pthread_create(&thread[i], NULL, wait_for_lock, &w[i]) == 0);
    }
    sleep_for(10, &w[0]);
    sleep_for(10, &w[1]);
    HOLD(w[0].done && w[0].seconds >= 1 && w[0].seconds < 4);
    HOLD(w[1].done && w[1].seconds >= 2 && w[1].seconds < 5);
    HOLD(notices == 1);
    HOLD(sigaction(SIGALRM, NULL, &found) == 0 && found.sa_handler == on_alarm);
    HOLD(getitimer(ITIMER_REAL, &left) == 0 && left.it_interval.tv_usec == 50000 && alarms > 5);

    /* Waits that are not over get the lock when it is given back. */
    struct waiter late[] = {{.name = "a.img", .wait = {30, NULL}, .expected = true}, {.name = "a.img", .wait = {-1, NULL}, .expected = true}};
    for (int i = 0; i < 2; i++) {
        HOLD(pthread_create(&thread[2 + i], NULL, wait_for_lock, &late[i]) == 0);
    }
    sleep_for(1.2, &late[0]);
    HOLD(!late[0].done && !late[1].done);
    zkv_file_close(&holder);
    sleep_for(10, &late[0]);
    sleep_for(10, &late[1]);
    HOLD(late[0].done && late[0].seconds < 10 && late[1].done && late[1].seconds < 10);
    for (int i = 0; i < 4; i++) {
        HOLD(pthread_join(thread[i], NULL) == 0);
    }
}

/* ---- faults and signals: each in a child, whose standard error is read here */

static int in_child(void (*play)(void))
{
    int ends[2], status;
    HOLD(pipe(ends) == 0);
    fflush(stderr);
    pid_t child = fork();
    HOLD(child >= 0);
    if (child == 0) {
        dup2(ends[1], STDERR_FILENO);
        close(ends[0]);
        close(ends[1]);
        alarm(20);
        play();
        _exit(0);
    }
    close(ends[1]);
    size_t length = 0;
    for (ssize_t n = 1; n > 0; length += (size_t)n) {
        n = read(ends[0], child_says + length, sizeof child_says - 1 - length);
        n = n > 0 ? n : 0;
    }
    child_says[length] = 0;
    close(ends[0]);
    HOLD(waitpid(child, &status, 0) == child);
    return status;
}

static bool exited(int status, int with)
{
    return WIFEXITED(status) && WEXITSTATUS(status) == with;
}

static bool ended_by(int status, int signal)
{
    return WIFSIGNALED(status) && WTERMSIG(status) == signal;
}

static const char *cut_name;

static void touch(const uint8_t *at)
{
    (void)*(const volatile uint8_t *)at;
}

static void touch_cut_image(void)
{
    zkv_file a, b, made;
    HOLD(zkv_file_guard("files"));
    HOLD(zkv_file_open(&a, "a.img", ZKV_FILE_READ, at_once) == NULL);
    HOLD(zkv_file_open(&b, "b.img", ZKV_FILE_READ, at_once) == NULL);
    HOLD(zkv_file_new(&made, "c.img", BYTES) == NULL);
    HOLD(truncate(cut_name, 0) == 0);
    touch((strcmp(cut_name, "a.img") == 0 ? a : b).image + BYTES - 1);
}

/* The host's own memory: a file's page that the file no longer has. */
static void touch_own_page(void)
{
    int own = open("own", O_RDWR | O_CREAT, 0600);
    HOLD(own >= 0 && ftruncate(own, ZKV_CHUNK_BYTES) == 0);
    uint8_t *at = mmap(NULL, ZKV_CHUNK_BYTES, PROT_READ, MAP_SHARED, own, 0);
    HOLD(at != MAP_FAILED && ftruncate(own, 0) == 0 && unlink("own") == 0);
    touch(at);
}

static void on_own_fault(int signal, siginfo_t *info, void *context)
{
    (void)signal;
    (void)context;
    _exit(info->si_addr != NULL ? 7 : 8);
}

static void on_own_fault_simply(int signal)
{
    (void)signal;
    _exit(9);
}

static void set_handler(int signal, void (*handler)(int))
{
    struct sigaction act = {.sa_handler = handler};
    HOLD(sigaction(signal, &act, NULL) == 0);
}

static void guarded_with_image(void)
{
    static zkv_file f;
    HOLD(zkv_file_guard("files") && zkv_file_guard("files"));
    HOLD(zkv_file_open(&f, "a.img", ZKV_FILE_READ, at_once) == NULL);
}

static void own_fault_own_handler(void)
{
    struct sigaction act = {.sa_sigaction = on_own_fault, .sa_flags = SA_SIGINFO};
    HOLD(sigaction(SIGBUS, &act, NULL) == 0);
    guarded_with_image();
    touch_own_page();
}

static void own_fault_simple_handler(void)
{
    set_handler(SIGBUS, on_own_fault_simply);
    guarded_with_image();
    touch_own_page();
}

static void own_fault_no_handler(void)
{
    guarded_with_image();
    touch_own_page();
}

static void own_fault_ignored(void)
{
    set_handler(SIGBUS, SIG_IGN);
    guarded_with_image();
    raise(SIGBUS);              /* is ignored: a signal that a process sends is no fault */
    touch_own_page();
}

static void sent_signal(void)
{
    guarded_with_image();
    raise(SIGBUS);
}

/* The message names the file that has no page; other faults are the host's. */
static void test_faults(void)
{
    make("a.img");
    make("b.img");
    for (int i = 0; i < 2; i++) {
        cut_name = i == 0 ? "a.img" : "b.img";
        HOLD(exited(in_child(touch_cut_image), 2));
        char begin[64];
        snprintf(begin, sizeof begin, "files: %s: the system has no page", cut_name);
        HOLD(strncmp(child_says, begin, strlen(begin)) == 0 && strchr(child_says, '\n')[1] == 0);
        HOLD(files_here() == 2);
        HOLD(unlink(cut_name) == 0);
        make(cut_name);
    }
    HOLD(exited(in_child(own_fault_own_handler), 7));
    HOLD(exited(in_child(own_fault_simple_handler), 9));
    HOLD(ended_by(in_child(own_fault_no_handler), SIGBUS) && child_says[0] == 0);
    HOLD(ended_by(in_child(own_fault_ignored), SIGBUS) && child_says[0] == 0);
    HOLD(ended_by(in_child(sent_signal), SIGBUS) && child_says[0] == 0);
}

static int the_signal;

static void end_with_new_files(void)
{
    zkv_file a, b;
    HOLD(zkv_file_guard("files"));
    HOLD(zkv_file_new(&a, "a.img", BYTES) == NULL && zkv_file_new(&b, "b.img", BYTES) == NULL);
    HOLD(files_here() == 2);
    raise(the_signal);
    HOLD(!"the signal ends the program");
}

static void ignore_with_new_file(void)
{
    zkv_file a;
    set_handler(the_signal, SIG_IGN);
    HOLD(zkv_file_guard("files"));
    HOLD(zkv_file_new(&a, "a.img", BYTES) == NULL);
    raise(the_signal);
    HOLD(is_there(a.made));
    HOLD(zkv_file_take_name(&a, NULL) == NULL);
    zkv_file_close(&a);
}

static void handle_with_new_file(void)
{
    zkv_file a;
    set_handler(the_signal, on_alarm);
    HOLD(zkv_file_guard("files"));
    HOLD(zkv_file_new(&a, "a.img", BYTES) == NULL);
    raise(the_signal);
    HOLD(alarms == 1 && is_there(a.made));
    zkv_file_close(&a);
}

/* A file that has its name stays. */
static void end_with_named_file(void)
{
    zkv_file a;
    HOLD(zkv_file_guard("files"));
    HOLD(zkv_file_new(&a, "a.img", BYTES) == NULL);
    HOLD(zkv_file_take_name(&a, NULL) == NULL);
    raise(the_signal);
}

/* The child of a host with a new file ends by a signal: the file is not the child's to remove. */
static void end_child_of_child(void)
{
    zkv_file a;
    int status;
    HOLD(zkv_file_guard("files"));
    HOLD(zkv_file_new(&a, "a.img", BYTES) == NULL);
    pid_t child = fork();
    if (child == 0) {
        raise(the_signal);
        _exit(0);
    }
    HOLD(waitpid(child, &status, 0) == child && ended_by(status, the_signal));
    HOLD(is_there(a.made));
    zkv_file_close(&a);
}

static void test_signals(void)
{
    static const int ends[] = {SIGINT, SIGTERM, SIGHUP};
    for (size_t i = 0; i < sizeof ends / sizeof *ends; i++) {
        the_signal = ends[i];
        HOLD(ended_by(in_child(end_with_new_files), the_signal));
        HOLD(files_here() == 0);
        HOLD(exited(in_child(ignore_with_new_file), 0));
        HOLD(files_here() == 1 && unlink("a.img") == 0);
        HOLD(exited(in_child(handle_with_new_file), 0));
        HOLD(exited(in_child(end_child_of_child), 0));
        HOLD(files_here() == 0);
        HOLD(ended_by(in_child(end_with_named_file), the_signal));
        HOLD(files_here() == 1 && unlink("a.img") == 0);
    }
}

/* Children that are forked while other threads make files, and end by a signal at once, do end, and remove nothing. */
static atomic_bool forked_enough;

static void *make_and_close(void *name)
{
    while (!forked_enough) {
        zkv_file f;
        HOLD(zkv_file_new(&f, name, BYTES) == NULL);
        HOLD(is_there(f.made));
        HOLD(zkv_file_take_name(&f, NULL) == NULL && unlink(name) == 0);
        zkv_file_close(&f);
    }
    return NULL;
}

static void test_forks(void)
{
    enum { FORKS = 300 };
    char names[2][8] = {"a.img", "b.img"};
    pthread_t thread[2];
    HOLD(zkv_file_guard("files"));
    for (int i = 0; i < 2; i++) {
        HOLD(pthread_create(&thread[i], NULL, make_and_close, names[i]) == 0);
    }
    for (int i = 0; i < FORKS; i++) {
        int status;
        pid_t child = fork();
        if (child == 0) {
            prctl(PR_SET_PDEATHSIG, SIGKILL);
            raise(SIGTERM);
            _exit(0);
        }
        alarm(20);                          /* a child that does not end ends this test */
        HOLD(waitpid(child, &status, 0) == child && ended_by(status, SIGTERM));
        alarm(0);
    }
    forked_enough = true;
    for (int i = 0; i < 2; i++) {
        HOLD(pthread_join(thread[i], NULL) == 0);
    }
    HOLD(files_here() == 0);
}

/* ---- names */

/* A file that was cut or stretched, and a folder that cannot be synced, are seen before the name is taken. */
static void test_names(void)
{
    zkv_file f, old;
    static const off_t lengths[] = {BYTES - ZKV_CHUNK_BYTES, BYTES + ZKV_CHUNK_BYTES};
    for (int i = 0; i < 2; i++) {
        HOLD(zkv_file_new(&f, "a.img", BYTES) == NULL);
        format(&f);
        HOLD(truncate(f.made, lengths[i]) == 0);
        HOLD(says(zkv_file_take_name(&f, NULL), "cut or stretched"));
        HOLD(!is_there("a.img"));
        zkv_file_close(&f);
        HOLD(files_here() == 0);
    }
    HOLD(zkv_file_new(&f, "a.img", BYTES) == NULL);
    format(&f);
    folder_syncs_to_do = 0;
    HOLD(says(zkv_file_take_name(&f, NULL), "folder"));
    HOLD(!is_there("a.img"));
    zkv_file_close(&f);
    HOLD(files_here() == 0);

    make("a.img");
    HOLD(zkv_file_open(&old, "a.img", ZKV_FILE_REPLACE, at_once) == NULL);
    HOLD(zkv_file_new(&f, "a.img", BYTES) == NULL);
    folder_syncs_to_do = 0;
    HOLD(says(zkv_file_take_name(&f, &old), "folder"));
    HOLD(zkv_file_confirm(&old) == NULL && is_there(f.made));
    /* The sync behind the name may still fail: then the text says that the name is there. */
    folder_syncs_to_do = 1;
    HOLD(says(zkv_file_take_name(&f, &old), "is there, but its folder could not be synced"));
    HOLD(f.made[0] == 0);
    zkv_file_close(&old);
    zkv_file_close(&f);
    HOLD(files_here() == 1);
}

/* ---- threads, for a build that looks for data races */

enum { THREADS = 4, ROUNDS = 30 };

static void *work_alone(void *number)
{
    char name[32], other[32];
    zkv_file f, g;
    snprintf(name, sizeof name, "own-%d.img", *(const int *)number);
    snprintf(other, sizeof other, "none-%d.img", *(const int *)number);
    for (int i = 0; i < ROUNDS; i++) {
        HOLD(zkv_file_new(&f, name, BYTES) == NULL);
        format(&f);
        HOLD(zkv_file_new(&g, other, BYTES) == NULL);
        HOLD(zkv_file_take_name(&f, NULL) == NULL && zkv_file_confirm(&f) == NULL);
        zkv_file_close(&g);
        zkv_file_close(&f);
        HOLD(zkv_file_open(&f, name, ZKV_FILE_READ, at_once) == NULL && zkv_file_open(&g, name, ZKV_FILE_READ, at_once) == NULL);
        zkv_file_close(&f);
        zkv_file_close(&g);
        HOLD(zkv_file_open(&f, other, ZKV_FILE_WRITE, at_once) != NULL);
        HOLD(unlink(name) == 0);
    }
    return NULL;
}

static void *work_in_turn(void *shared)
{
    zkv_file f;
    int *count = shared;
    for (int i = 0; i < ROUNDS; i++) {
        HOLD(zkv_file_open(&f, "a.img", ZKV_FILE_WRITE, (zkv_file_wait){60, NULL}) == NULL);
        f.image[BYTES - 1]++;
        ++*count;
        zkv_file_flush(&f, f.image + BYTES - ZKV_LINE_BYTES);
        HOLD(zkv_file_fence(&f) == 0);
        zkv_file_close(&f);
    }
    return NULL;
}

static void test_threads(void)
{
    pthread_t alone[THREADS], in_turn[THREADS];
    int number[THREADS], count[THREADS] = {0};
    HOLD(zkv_file_guard("files"));
    make("a.img");
    for (int i = 0; i < THREADS; i++) {
        number[i] = i;
        HOLD(pthread_create(&alone[i], NULL, work_alone, &number[i]) == 0);
        HOLD(pthread_create(&in_turn[i], NULL, work_in_turn, &count[i]) == 0);
    }
    for (int i = 0; i < THREADS; i++) {
        HOLD(pthread_join(alone[i], NULL) == 0 && pthread_join(in_turn[i], NULL) == 0);
        HOLD(count[i] == ROUNDS);
    }
    HOLD(files_here() == 1);
}

int main(int count, char **argument)
{
    static const struct {
        const char *name;
        void (*play)(void);
    } tests[] = {{"locked", test_locked}, {"failures", test_failures}, {"waits", test_waits}, {"faults", test_faults},
                 {"signals", test_signals}, {"forks", test_forks}, {"names", test_names}, {"threads", test_threads}};
    for (size_t i = 0; i < sizeof tests / sizeof *tests; i++) {
        if (count == 2 && strcmp(argument[1], tests[i].name) == 0) {
            tests[i].play();
            return 0;
        }
    }
    fputs("usage: files locked|failures|waits|faults|signals|forks|names|threads\n", stderr);
    return 2;
}
