// What is left of a server when it decides nothing: the programs of a chain of builds are started with pipes and waited for, directories are
// made and removed, and as much is committed by the C library's SQLite. `scripts/bench/all` runs it beside the server.
//
// usage: bare TYPES DIRECTORY ROUNDS BUILDS     (TYPES has the programs check and in; BUILDS is of one round)
//
// It prints how many builds it made, and the seconds that they took.
#define _GNU_SOURCE
#include <dlfcn.h>
#include <fcntl.h>
#include <signal.h>
#include <spawn.h>
#include <stdio.h>
#include <stdlib.h>
#include <string.h>
#include <sys/stat.h>
#include <sys/wait.h>
#include <time.h>
#include <unistd.h>

extern char **environ;

static int (*open_database)(const char *, void **);
static int (*execute)(void *, const char *, void *, void *, char **);
static void *database;

static void fail(const char *what) {
    perror(what);
    exit(1);
}

static void must(int failed, const char *what) {
    if (failed) fail(what);
}

static void commit(const char *sql) { must(execute(database, sql, 0, 0, 0), "commit"); }

// Starts a program in a directory, gives it its input, takes what it prints, and waits for it.
static void launch(char **words, const char *directory, const char *input) {
    int in[2], out[2], status;
    char printed[8192];
    pid_t child;
    posix_spawn_file_actions_t actions;
    must(pipe2(in, O_CLOEXEC) || pipe2(out, O_CLOEXEC), "pipe");
    posix_spawn_file_actions_init(&actions);
    posix_spawn_file_actions_adddup2(&actions, in[0], 0);
    posix_spawn_file_actions_adddup2(&actions, out[1], 1);
    posix_spawn_file_actions_addchdir_np(&actions, directory);
    must(posix_spawnp(&child, words[0], &actions, NULL, words, environ), words[0]);
    posix_spawn_file_actions_destroy(&actions);
    close(in[0]);
    close(out[1]);
    // A program may end without reading its input.
    if (write(in[1], input, strlen(input)) < 0) status = 0;
    close(in[1]);
    while (read(out[0], printed, sizeof printed) > 0) continue;
    close(out[0]);
    must(waitpid(child, &status, 0) < 0, "wait");
}

static void build(const char *in, const char *directory, long number) {
    char place[1000], artifact[1100];
    snprintf(place, sizeof place, "%s/bare-%ld", directory, number);
    snprintf(artifact, sizeof artifact, "%s/a", place);
    char *get[] = {(char *)in, artifact, NULL}, *task[] = {"sh", "-c", "true", NULL};
    commit("INSERT INTO t(x) VALUES('as long as a version')");
    must(mkdir(place, 0777) || mkdir(artifact, 0777), "mkdir");
    launch(get, artifact, "{\"source\":{},\"version\":{\"n\":\"1\"}}");
    launch(task, place, "");
    commit("INSERT INTO t(x) VALUES('as long as a version')");
    must(rmdir(artifact) || rmdir(place), "rmdir");
}

static void open_new(const char *directory) {
    char path[1000];
    void *library = dlopen("libsqlite3.so.0", RTLD_NOW);
    if (!library) fail("libsqlite3.so.0");
    open_database = dlsym(library, "sqlite3_open");
    execute = dlsym(library, "sqlite3_exec");
    snprintf(path, sizeof path, "%s/bare.db", directory);
    must(open_database(path, &database), path);
    commit("PRAGMA journal_mode = WAL; PRAGMA synchronous = FULL; CREATE TABLE IF NOT EXISTS t(id INTEGER PRIMARY KEY, x TEXT)");
}

int main(int count, char **words) {
    char check[1000], in[1000];
    struct timespec begun, ended;
    if (count != 5) return 2;
    int rounds = atoi(words[3]), builds = atoi(words[4]);
    long made = 0;
    signal(SIGPIPE, SIG_IGN);
    snprintf(check, sizeof check, "%s/check", words[1]);
    snprintf(in, sizeof in, "%s/in", words[1]);
    open_new(words[2]);
    char *checking[] = {check, NULL};
    clock_gettime(CLOCK_MONOTONIC, &begun);
    for (int round = 0; round < rounds; round++) {
        launch(checking, words[2], "{\"source\":{}}");
        commit("INSERT INTO t(x) VALUES('as long as a version')");
        for (int each = 0; each < builds; each++) build(in, words[2], made++);
    }
    clock_gettime(CLOCK_MONOTONIC, &ended);
    printf("%ld %.6f\n", made, (ended.tv_sec - begun.tv_sec) + (ended.tv_nsec - begun.tv_nsec) / 1e9);
}
