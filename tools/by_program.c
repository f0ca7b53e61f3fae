// The functions of c/lifecrib.h by a program that reads a script and writes its result, for tools/try-c-examples where the library is not built,
// and for `tools/package-c --unproved`:
//
//     cc -shared -fPIC -DPROGRAM='"/path/of/oauth2_run"' -I c tools/by_program.c -o liblifecrib.so.0
//
// Without PROGRAM it is oauth2_run in the folder of the library. With KINDS, a text, the library has lifecrib_version and lifecrib_kinds too.
#define _GNU_SOURCE
#include <dlfcn.h>
#include <limits.h>
#include <spawn.h>
#include <stdio.h>
#include <stdlib.h>
#include <string.h>
#include <sys/wait.h>
#include <unistd.h>

#include "lifecrib.h"

static void need(int holds) {
    if (holds)
        return;
    fputs("lifecrib: the program that runs scripts does not run\n", stderr);
    exit(125);
}

static char *program(void) {
#ifdef PROGRAM
    return PROGRAM;
#else
    static __thread char path[PATH_MAX];
    Dl_info here;
    need(dladdr((void *)lifecrib_run, &here) && realpath(here.dli_fname, path));
    char *name = strrchr(path, '/') + 1;
    need(name + sizeof "oauth2_run" <= path + sizeof path);
    strcpy(name, "oauth2_run");
    return path;
#endif
}

int32_t lifecrib_run(const uint8_t *script, size_t script_length, uint8_t *output, size_t output_length, size_t *length) {
    FILE *given = tmpfile(), *found = tmpfile();
    posix_spawn_file_actions_t streams;
    char *words[] = {program(), NULL}, *none[] = {NULL};
    pid_t process;
    int status;
    need(given && found && fwrite(script, 1, script_length, given) == script_length && fflush(given) == 0);
    rewind(given);
    need(posix_spawn_file_actions_init(&streams) == 0);
    need(posix_spawn_file_actions_adddup2(&streams, fileno(given), 0) == 0);
    need(posix_spawn_file_actions_adddup2(&streams, fileno(found), 1) == 0);
    need(posix_spawn(&process, words[0], &streams, NULL, words, none) == 0);
    need(waitpid(process, &status, 0) == process && WIFEXITED(status));
    posix_spawn_file_actions_destroy(&streams);
    *length = (size_t)lseek(fileno(found), 0, SEEK_END);
    if (*length <= output_length)
        need(pread(fileno(found), output, *length, 0) == (ssize_t)*length);
    fclose(given);
    fclose(found);
    return WEXITSTATUS(status);
}

#ifdef KINDS
static void put(const char *text, uint8_t *output, size_t output_length, size_t *length) {
    *length = strlen(text);
    if (*length <= output_length)
        memcpy(output, text, *length);
}

void lifecrib_version(uint8_t *output, size_t output_length, size_t *length) {
    put(LIFECRIB_VERSION, output, output_length, length);
}

void lifecrib_kinds(uint8_t *output, size_t output_length, size_t *length) {
    put(KINDS, output, output_length, length);
}
#endif
