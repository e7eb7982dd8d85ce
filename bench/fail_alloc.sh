#!/bin/bash
# Runs `dp check`, `dp account` and `dp replay` of the census with the Nth growth of memory refused, for each N from 1
# until none is. Each run has to end with the status 9, its line on the error output and a front of the whole lines that
# are written else, or as it ends else. Needs gcc: what refuses is a library that stands before the C library. It is no
# part of the gate. The last line is `N passed, M failed`.
set -u
here=$(cd "$(dirname "$0")/.." && pwd)
# The launcher builds the program where it is not built or is older than a source.
"$here/dp" >/dev/null 2>&1
dp=$here/crates/dp/out/dp
work=$(mktemp -d) || exit 1
trap 'rm -rf "$work"' EXIT

cat >"$work/refuse.c" <<'C'
#define _GNU_SOURCE
#include <dlfcn.h>
#include <fcntl.h>
#include <stdlib.h>
#include <unistd.h>

static long calls;

/* Whether this growth is the one that is refused. A file tells that it came. */
static int refused(void)
{
    const char *number = getenv("REFUSED_GROWTH");
    if (number == 0 || ++calls != atol(number))
        return 0;
    close(open(getenv("REFUSED_MARK"), O_CREAT | O_WRONLY, 0600));
    return 1;
}

void *malloc(size_t size)
{
    static void *(*next)(size_t);
    if (next == 0)
        next = (void *(*)(size_t))dlsym(RTLD_NEXT, "malloc");
    return refused() ? 0 : next(size);
}

void *realloc(void *old, size_t size)
{
    static void *(*next)(void *, size_t);
    if (next == 0)
        next = (void *(*)(void *, size_t))dlsym(RTLD_NEXT, "realloc");
    return refused() ? 0 : next(old, size);
}
C
gcc -shared -fPIC -O2 -o "$work/refuse.so" "$work/refuse.c" -ldl || exit 1

cd "$work" || exit 1
cp "$here"/examples/census.json "$here"/examples/queries.txt .
cat >census-c.json <<'JSON'
{"version":1,"columns":["sex","age","district"],"header":true,"ratio":[9,10],"distance":1,"root":["filter",20],
"plans":{"women":[["filter","sex","F"],["count"],["geometric",1,0,12]]}}
JSON
printf '%s\n' sex,age,district F,34,North M,51,South F,7,North F,68,East M,29,North M,12x,South F,45,South F,81,North \
    M,17,East F,22,North M,66,South F,39,East >census.csv
cat >census-queries <<'JSON'
{"node":0,"ask":"women"}
{"node":0,"ask":[["select","age"],["cast"],["dropnone"],["bins",[18,40,65]],["histogram"],["geometric",2,0,4]]}
{"node":0,"ask":[["select","district"],["categories",["North","South","East"]],["histogram"],["choice",1,0,10]]}
JSON
echo '12 3 9 0 0 0 0 0 0 0 0 0 0 5 0 0 0 0 50 90 0 0 0 150 80 81 0 0 18 99 99 99 99 2305843009213693952' >census-draws

passed=0
failed=0
# refusals WORD..: each growth of a run with these words refused in turn.
refusals() {
    local growth=0 status
    "$dp" "$@" >whole 2>whole-err </dev/null
    local wanted=$?
    while :; do
        growth=$((growth + 1))
        rm -f mark
        LD_PRELOAD=$work/refuse.so REFUSED_GROWTH=$growth REFUSED_MARK=$work/mark "$dp" "$@" >out 2>err </dev/null
        status=$?
        if [ ! -e mark ]; then
            break
        fi
        if { [ $status -eq 9 ] && [ "$(cat err)" = 'dp: no memory' ] && cmp -s -n "$(stat -c %s out)" out whole &&
            { [ ! -s out ] || [ -z "$(tail -c 1 out)" ]; }; } ||
            { [ $status -eq $wanted ] && cmp -s out whole && cmp -s err whole-err; }; then
            passed=$((passed + 1))
        else
            failed=$((failed + 1))
            echo "fail_alloc: $1, growth $growth: FAILED, status $status"
        fi
    done
    if [ $status -ne $wanted ] || ! cmp -s out whole; then
        failed=$((failed + 1))
        echo "fail_alloc: $1, with no growth refused: FAILED, status $status"
    fi
    echo "$1: $((growth - 1)) growths of memory"
}

refusals check census.json
refusals account census.json queries.txt
refusals replay census-c.json census.csv census-queries census-draws
echo "$passed passed, $failed failed"
[ $failed -eq 0 ]
