/* Runs the collector's pack over an old pack: kills it before each of its calls of the system, lets each of them fail,
   limits the size of its files, changes a file that it reads, and lets two runs meet. Whatever comes, the pack that
   stands in place is whole. To be run in an empty folder. */
#define _GNU_SOURCE
#include "calls.h"
#include "runs.h"
#include <errno.h>
#include <fcntl.h>
#include <signal.h>
#include <sys/mman.h>
#include <sys/resource.h>
#include <sys/stat.h>
#include <sys/wait.h>

#define FILES 12
static char *const pack[] = {"collector", "pack", "~a ~d ~d ~d ~x ~a~{ ~a~}~%", "files", "new.pack", NULL};
static struct bytes old, new;
/* the greatest file of a run */
static rlim_t most = RLIM_INFINITY;

/* A run in a child process. */
struct child {
    pid_t number;
    int said;
};

static struct child start(char *const *words, enum plan its_plan, size_t number)
{
    const struct rlimit limit = {most, RLIM_INFINITY};
    struct child child;
    int ends[2], count = 0;
    while (words[count] != NULL)
        count++;
    memset(calls, 0, sizeof *calls);
    if (fflush(stdout) != 0 || pipe(ends) != 0 || (child.number = fork()) < 0)
        exit(2);
    if (child.number == 0) {
        if (dup2(ends[1], STDOUT_FILENO) < 0 || dup2(ends[1], STDERR_FILENO) < 0 || close(ends[0]) != 0 ||
            close(ends[1]) != 0 || setrlimit(RLIMIT_FSIZE, &limit) != 0)
            _exit(99);
        planned = number;
        plan = its_plan;
        exit(collector_main(count, (char **)words));
    }
    close(ends[1]);
    child.said = ends[0];
    return child;
}

static struct answer end(struct child child)
{
    struct answer answer = {0, ""};
    size_t length = 0;
    ssize_t taken;
    int status;
    while ((taken = read(child.said, answer.said + length, sizeof answer.said - 1 - length)) > 0)
        length += (size_t)taken;
    if (taken < 0 || waitpid(child.number, &status, 0) != child.number)
        exit(2);
    close(child.said);
    answer.status = WIFEXITED(status) ? WEXITSTATUS(status) : 256 + WTERMSIG(status);
    return answer;
}

static struct answer run(char *const *words, enum plan its_plan, size_t number)
{
    return end(start(words, its_plan, number));
}

static int stands(struct bytes which)
{
    const struct bytes bytes = read_whole("new.pack");
    const int same = bytes.length == which.length && memcmp(bytes.at, which.at, which.length) == 0;
    free(bytes.at);
    return same;
}

static void make_file(size_t i, const char *folder)
{
    char path[64], text[4096];
    int length = snprintf(text, sizeof text, "station %zu\tof %s\n", i, folder);
    snprintf(path, sizeof path, "%s/file-%02zu", folder, i);
    memset(text + length, 'a' + (int)i % 26, sizeof text - (size_t)length);
    write_whole(path, text, i == 3 ? 0 : (size_t)length + i * 211 % 3000);
}

/* The new pack is that of a folder, and the old one of the same folder with one file more. */
static void make_packs(void)
{
    struct answer answer;
    expect(mkdir("files", 0700) == 0, "the folder is empty", 0, NULL);
    for (size_t i = 0; i <= FILES; i++)
        make_file(i, "files");
    answer = run(pack, PLAIN, 0);
    expect(answer.status == 0, "the old pack", 0, &answer);
    old = read_whole("new.pack");
    expect(unlink("files/file-12") == 0, "one file less", 0, NULL);
    answer = run(pack, PLAIN, 0);
    expect(answer.status == 0, "the new pack", 0, &answer);
    new = read_whole("new.pack");
    expect(new.length > 12000 && !stands(old), "packs of several pages that differ", 0, NULL);
}

static void expect_whole(size_t of)
{
    char *const check[] = {"collector", "check", "new.pack", NULL};
    const struct answer answer = run(check, PLAIN, 0);
    expect(answer.status == 0, "a whole pack", of, &answer);
}

/* The room for a line is taken once where the vet counts, and taken again where it cannot and the line is long. */
static void size_lines(void)
{
    char *const plain[] = {"collector", "pack", "~3000a", "files", "long.pack", NULL};
    char *const other[] = {"collector", "pack", "~3000a~0*", "files", "long.pack", NULL};
    struct answer answer = run(plain, SHORT, 0);
    expect(answer.status == 0 && strcmp(calls->order, "mwsrf") == 0, "room that is taken once", 0, &answer);
    answer = run(other, SHORT, 0);
    expect(answer.status == 0 && strcmp(calls->order, "mwmwsrf") == 0, "room that grows", 0, &answer);
}

/* What a killed run leaves stays there for the next one. */
static void kill_runs(void)
{
    size_t kept = 0, replaced = 0;
    calls->came = 1;
    for (size_t i = 0; calls->came; i++) {
        write_whole("new.pack", old.at, old.length);
        const struct answer answer = run(pack, KILLED, i);
        expect(answer.status == (calls->came ? 256 + SIGKILL : 0), "killed or done", i, &answer);
        expect(stands(old) || stands(new), "the old pack or the new one", i, &answer);
        expect(calls->came || stands(new), "the new pack after a whole run", i, &answer);
        *(stands(old) ? &kept : &replaced) += 1;
    }
    expect(kept > 100 && replaced > 2, "killed before and after the new pack was in place", kept, NULL);
    printf("tests/collector/faults.c: killed at %zu moments, %zu of them before the new pack was in place\n",
           kept + replaced - 1, kept);
}

static void fail_calls(void)
{
    size_t left_out = 0, failed = 0;
    calls->came = 1;
    for (size_t i = 0; calls->came; i++) {
        write_whole("new.pack", old.at, old.length);
        const struct answer answer = run(pack, FAILING, i);
        const int came = calls->came;
        if (answer.status == 0) {
            expect(stands(new), "done, and new", i, &answer);
        } else if (answer.status == 1) {
            expect(says(&answer, "left out: Input/output error"), "a file left out", i, &answer);
            expect(!stands(old), "the pack of the others", i, &answer);
            expect_whole(i);
            left_out++;
        } else {
            const int late = says(&answer, "is new and whole") || says(&answer, "standard output");
            expect(answer.status == 2, "a status", i, &answer);
            expect(stands(late ? new : old), "the old pack, or a new one that is told", i, &answer);
            failed++;
        }
        expect(!says(&answer, "no other run"), "the cause, where there is no other run", i, &answer);
        /* without the lock it may be the file of another run */
        expect(access("new.pack.new", F_OK) != 0 || says(&answer, "cannot lock"), "nothing is left behind", i, &answer);
        calls->came = came;
    }
    expect(left_out >= 4 * FILES && failed > FILES, "files that were left out, and runs that failed", left_out, NULL);
    printf("tests/collector/faults.c: %zu failing calls left a file out, %zu stopped the run\n", left_out, failed);
}

static void limit_size(void)
{
    for (most = 0; most < new.length; most += 509) {
        write_whole("new.pack", old.at, old.length);
        const struct answer answer = run(pack, PLAIN, 0);
        expect(answer.status == 2 && says(&answer, "cannot write new.pack.new: File too large"), "a limit that is told",
               most, &answer);
        expect(stands(old) && access("new.pack.new", F_OK) != 0, "the old pack, and nothing else", most, &answer);
    }
    most = new.length;
    expect(run(pack, PLAIN, 0).status == 0 && stands(new), "a limit that is large enough", most, NULL);
    most = RLIM_INFINITY;
}

/* A file that changes is left out, and told; the others are packed. Its time is an old one before, since a coarse clock
   may not go on between two writes. */
static void change_file(enum plan its_plan, const char *why)
{
    const struct timespec times[2] = {{.tv_sec = 1000000000}, {.tv_sec = 1000000000}};
    char told[128];
    expect(utimensat(AT_FDCWD, "files/" FILE_IN_PLAN, times, 0) == 0, "an old time", its_plan, NULL);
    struct answer answer = run(pack, its_plan, 0);
    snprintf(told, sizeof told, "collector: \"%s\": left out: %s\n", FILE_IN_PLAN, why);
    expect(answer.status == 1 && strncmp(answer.said, told, strlen(told)) == 0, "told", its_plan, &answer);
    expect(says(&answer, ": 11 members, ") && says(&answer, ", 1 left out\n"), "counted", its_plan, &answer);
    expect_whole(its_plan);
    make_file(5, "files");
    answer = run(pack, PLAIN, 0);
    expect(answer.status == 0 && stands(new), "the whole folder again", its_plan, &answer);
}

/* A file that another takes the place of, whole, is packed as the other. */
static void replace_file(void)
{
    struct answer answer = run(pack, REPLACED, 0);
    expect(answer.status == 0 && !stands(new), "the file that is there now", 0, &answer);
    expect_whole(0);
    make_file(5, "files");
    answer = run(pack, PLAIN, 0);
    expect(answer.status == 0 && stands(new), "the whole folder again", 0, &answer);
}

/* A run that is stopped with the new pack open keeps others away; one that is killed does not. */
static void meet(void)
{
    struct answer answer;
    struct stat unfinished;
    write_whole("new.pack", old.at, old.length);
    /* as a run leaves it that is killed before the new name */
    write_whole("new.pack.new", old.at, old.length);
    expect(chmod("new.pack.new", 0644) == 0, "a file that is left", 0, NULL);
    const struct child first = start(pack, STOPPED, 60);
    int status;
    expect(waitpid(first.number, &status, WUNTRACED) == first.number && WIFSTOPPED(status), "stopped", 0, NULL);
    expect(stat("new.pack.new", &unfinished) == 0, "stopped while it writes", 0, NULL);
    expect((unfinished.st_mode & 0777) == 0600, "its owner's alone until it is whole", 0, NULL);
    answer = run(pack, PLAIN, 0);
    expect(answer.status == 2 && says(&answer, "cannot lock new.pack.new: try again"), "one at a time", 0, &answer);
    expect(stands(old), "the old pack", 0, &answer);
    kill(first.number, SIGCONT);
    answer = end(first);
    expect(answer.status == 0 && stands(new), "the first ends well", 0, &answer);
    write_whole("new.pack", old.at, old.length);
    answer = run(pack, RACED, 0);
    expect(answer.status == 2 && says(&answer, "cannot lock new.pack.new: try again"), "raced", 0, &answer);
    expect(stands(old) && unlink("other.pack") == 0, "the old pack, and what the other run put in place", 0, &answer);
}

/* What another user left is neither written on nor removed. */
static void leave_others(void)
{
    write_whole("new.pack", old.at, old.length);
    write_whole("new.pack.new", "theirs", 6);
    const struct answer answer = run(pack, OTHERS, 0);
    const struct bytes theirs = read_whole("new.pack.new");
    expect(answer.status == 2 && says(&answer, "new.pack.new is no file that a run of yours left"), "told", 0, &answer);
    expect(theirs.length == 6 && memcmp(theirs.at, "theirs", 6) == 0, "as it was", 0, &answer);
    expect(stands(old) && unlink("new.pack.new") == 0, "the old pack", 0, &answer);
    free(theirs.at);
}

static void show_progress(void)
{
    char *const many[] = {"collector", "pack", "~a", "many", "new.pack", NULL};
    char path[32];
    struct answer answer;
    expect(mkdir("many", 0700) == 0, "a folder", 0, NULL);
    for (size_t i = 0; i < 1100; i++) {
        snprintf(path, sizeof path, "many/%04zu", i);
        write_whole(path, path, 4);
    }
    answer = run(many, TERMINAL, 0);
    expect(strcmp(answer.said, "\r1000 of 1100\r\033[Knew.pack: 1100 members, 39626 bytes\n") == 0, "progress", 0,
           &answer);
    answer = run(many, PLAIN, 0);
    expect(strcmp(answer.said, "new.pack: 1100 members, 39626 bytes\n") == 0, "no progress", 0, &answer);
}

int main(void)
{
    calls = mmap(NULL, sizeof *calls, PROT_READ | PROT_WRITE, MAP_SHARED | MAP_ANONYMOUS, -1, 0);
    if (calls == MAP_FAILED)
        return 2;
    make_packs();
    run(pack, SHORT, 0);
    expect(stands(new), "short reads", 0, NULL);
    /* all is written before the file is on the disk, then comes the new name, and then the folder */
    expect(strcmp(calls->order, "mwsrf") == 0, "the order", 0, NULL);
    size_lines();
    kill_runs();
    fail_calls();
    limit_size();
    change_file(GROWN, "it changed while it was read");
    change_file(SHRUNK, "it changed while it was read");
    change_file(TOUCHED, "it changed while it was read");
    change_file(CUT, "it changed while it was read");
    replace_file();
    change_file(GONE, "No such file or directory");
    change_file(UNREADABLE, "Permission denied");
    meet();
    leave_others();
    show_progress();
    printf("tests/collector/faults.c: %zu checks\n", checks);
    free(old.at);
    free(new.at);
    return 0;
}
