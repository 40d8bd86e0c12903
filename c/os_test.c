/* Tests each function of c/os.c. It is called with the words 'one' and '', and makes a folder below the current one. */
#include "os.c"

#include <stdint.h>
#include <stdio.h>
#include <string.h>
#include <sys/stat.h>

static int passed, failed;
static void *volatile refused;

static void expect(int holds, const char *words) {
    if (holds) {
        passed++;
        return;
    }
    failed++;
    printf("os: failed: %s\n", words);
}

static void test_heap(void) {
    struct tried got = rattle_alloc(100, 16);
    expect(got.ok && got.p != NULL && (uintptr_t)got.p % 16 == 0, "a block, aligned");
    memset(got.p, 7, 100);
    got = rattle_realloc(got.p, 100, 100000, 16);
    expect(got.ok && ((char *)got.p)[0] == 7 && ((char *)got.p)[99] == 7, "a larger block keeps its bytes");
    got = rattle_realloc(got.p, 10, 0, 8);
    expect(got.ok && got.p != NULL, "a block of no bytes, made of another");
    rattle_dealloc(got.p);
    got = rattle_alloc(0, 1);
    expect(got.ok && got.p != NULL, "a block of no bytes");
    rattle_dealloc(got.p);
    got = rattle_alloc((size_t)PTRDIFF_MAX, 1);
    refused = got.p; /* a compiler takes a block that nobody uses for one that is there */
    expect(!got.ok && got.p != NULL, "a block that is refused");
}

static void test_texts(void) {
    char out[64];
    memset(out, '~', sizeof out);
    expect(rattle_arg(1, out, sizeof out) == 3 && memcmp(out, "one~", 4) == 0, "an argument");
    expect(rattle_arg(2, out, sizeof out) == 0 && rattle_arg(2, out, 0) == 0 && out[0] == 'o', "an empty argument");
    expect(rattle_arg(3, out, sizeof out) == -1 && rattle_arg(SIZE_MAX, out, sizeof out) == -1, "no argument");
    expect(rattle_arg(1, out, 3) == 3 && rattle_arg(1, out, 2) == -2, "an argument in less room");
    setenv("TI_OS_TEST", "value", 1);
    memset(out, '~', sizeof out);
    expect(rattle_env("TI_OS_TEST", out, sizeof out) == 5 && memcmp(out, "value~", 6) == 0, "a variable");
    memset(out, '~', sizeof out);
    expect(rattle_env("TI_OS_TEST", out, 4) == -2 && memcmp(out, "valu~", 5) == 0, "a variable in less room");
    expect(rattle_env("TI_OS_TEST_OTHER", out, sizeof out) == -1, "no variable");
}

static void test_environment(void) {
    char first[] = "A=1", second[] = "B=", out[8];
    char *entries[] = {first, second, NULL}, **before = environ;
    environ = entries;
    expect(rattle_env_at(0, out, sizeof out) == 3 && memcmp(out, "A=1", 3) == 0, "the first entry");
    expect(rattle_env_at(1, out, sizeof out) == 2 && rattle_env_at(1, out, 1) == -2, "the second entry");
    expect(rattle_env_at(2, out, sizeof out) == -1 && rattle_env_at(9, out, sizeof out) == -1, "no entry");
    environ = NULL;
    expect(rattle_env_at(0, out, sizeof out) == -1, "no environment");
    environ = before;
}

static void test_directories(void) {
    rattle_set_errno(EINTR);
    expect(rattle_errno() == EINTR && errno == EINTR, "errno is set");
    rattle_set_errno(0);
    expect(mkdir("os_test.d", 0700) == 0 && symlink("os_test.d", "os_test.l") == 0, "a directory and a link are made");
    int top = rattle_open_dir_at(AT_FDCWD, "."), below = rattle_open_dir_at(top, "os_test.d");
    expect(top >= 0 && below >= 0 && (fcntl(below, F_GETFD) & FD_CLOEXEC) != 0, "a directory below another");
    expect(rattle_open_dir_at(top, "os_test.l") == -1 && (rattle_errno() == ENOTDIR || rattle_errno() == ELOOP), "no link");
    expect(rattle_open_dir_at(top, "os_test.n") == -1 && rattle_errno() == ENOENT, "no directory");
    expect(close(creat("os_test.d/f", 0600)) == 0 && rattle_open_dir_at(below, "f") == -1 && rattle_errno() == ENOTDIR, "no file");
    expect(unlink("os_test.d/f") == 0 && unlink("os_test.l") == 0 && rmdir("os_test.d") == 0, "they are removed");
}

int main(void) {
    test_heap();
    test_texts();
    test_environment();
    test_directories();
    printf("os: %d passed, %d failed\n", passed, failed);
    return failed != 0;
}
