#!/usr/bin/env bash
# Runs the commands of every console block of README.md and docs/GUIDE.md on the built program, in a copy of examples/,
# and compares all that each writes. In a block that begins with ```console varies the draws are the system's, and of an
# answer's numbers only the places are compared. Looks whether each rust block of docs/LIBRARY.md stands, line by line,
# in the file of its functions. A word names a program to be run in place of the built one. The last line is
# `N passed, M failed`.
cd "$(dirname "$0")/.." || exit 1
here=$(pwd)
work=$(mktemp -d) || exit 1
trap 'rm -rf "$work"' EXIT
passed=0
failed=0

if [ -n "$1" ]; then
    dp=$1
else
    # The launcher builds the program where it is not built or is older than a source.
    "$here/dp" >/dev/null 2>&1
    dp=$here/crates/dp/out/dp
fi
if [ ! -x "$dp" ]; then
    echo "guide: there is no built program"
    echo "0 passed, 1 failed"
    exit 1
fi

# What is compared of a text: all of it, or N in place of each number of an answer.
form() {
    if [ "$kind" != varies ]; then
        cat
        return
    fi
    awk '{ from = index($0, " answer "); to = index($0, " cost ")
        if (from > 0 && to > from) {
            answer = substr($0, from, to - from)
            gsub(/-?[0-9]+/, "N", answer)
            $0 = substr($0, 1, from - 1) answer substr($0, to)
        }
        print }'
}

# Runs the command that was read, if there is one, and compares what it writes with the lines that follow it.
try_command() {
    if [ -z "$command" ]; then return; fi
    (cd "$work/files" && eval "(exit $status); $command") >"$work/out" 2>&1 </dev/null
    status=$?
    if form <"$work/wanted" | cmp -s - <(form <"$work/out"); then
        passed=$((passed + 1))
    else
        failed=$((failed + 1))
        echo "guide: $page: FAILED, status $status: $command"
        diff <(form <"$work/wanted") <(form <"$work/out") | sed 's/^/    /'
    fi
    command=
}

# Goes through a page line by line.
read_page() {
    local inside= line
    rm -rf "$work/files"
    mkdir "$work/files" && cp -r "$here/examples" "$work/files/examples" && ln -s "$dp" "$work/files/dp" || exit 1
    command=
    status=0
    while IFS= read -r line; do
        if [ -n "$inside" ] && [ "$line" = '```' ]; then
            try_command
            inside=
        elif [ -n "$inside" ] && [ "${line:0:2}" = '$ ' ]; then
            try_command
            command=${line:2}
            : >"$work/wanted"
        elif [ -n "$inside" ]; then
            printf '%s\n' "$line" >>"$work/wanted"
        elif [ "$line" = '```console' ] || [ "$line" = '```console varies' ]; then
            inside=yes
            kind=${line#'```console'}
            kind=${kind# }
        fi
    done <"$page"
}

# Looks whether the lines of the block that was read stand in the source, one after another.
try_block() {
    if [ -n "$block" ] && [[ $source == *$'\n'"$block"* ]]; then
        passed=$((passed + 1))
    else
        failed=$((failed + 1))
        echo "guide: $page: FAILED, not in $functions: ${block%%$'\n'*}"
    fi
}

# Goes through the rust blocks of a page.
read_blocks() {
    local inside= line
    source=$'\n'$(cat "$functions")$'\n'
    while IFS= read -r line; do
        if [ -n "$inside" ] && [ "$line" = '```' ]; then
            try_block
            inside=
        elif [ -n "$inside" ]; then
            block+=$line$'\n'
        elif [ "$line" = '```rust' ]; then
            block=
            inside=yes
        fi
    done <"$page"
}

for page in README.md docs/GUIDE.md; do
    read_page
done

page=docs/LIBRARY.md
functions=crates/dp_session/src/tests/library.rt
read_blocks

echo "$passed passed, $failed failed"
[ "$failed" -eq 0 ] && [ "$passed" -gt 0 ]
