#!/usr/bin/env bash
# Runs the built program on real files and streams, and compares its status and all that it writes. It is for what no
# contract can say: what a file, a pipe or a closed stream gives and takes. Its last line is `N passed, M failed`.
cd "$(dirname "$0")/.." || exit 1
here=$(pwd)
work=$(mktemp -d) || exit 1
trap 'rm -rf "$work"' EXIT
passed=0
failed=0

# case_of NAME STATUS OUTPUT ERROR COMMAND: what COMMAND, in the folder of the files, has to end with and to write. OUTPUT
# and ERROR are without their last line feed.
case_of() {
    (eval "$5") >"$work/out" 2>"$work/err" </dev/null
    local status=$?
    local wanted_out=$3 wanted_err=$4
    if [ -n "$3" ]; then wanted_out+=$'\n'; fi
    if [ -n "$4" ]; then wanted_err+=$'\n'; fi
    if [ "$status" -eq "$2" ] && printf '%s' "$wanted_out" | cmp -s - "$work/out" &&
        printf '%s' "$wanted_err" | cmp -s - "$work/err"; then
        passed=$((passed + 1))
    else
        failed=$((failed + 1))
        echo "program: $1: FAILED, status $status"
        sed 's/^/    out: /' "$work/out"
        sed 's/^/    err: /' "$work/err"
    fi
}

# The launcher builds the program where it is not built or is older than a source.
"$here/dp" >/dev/null 2>&1
dp=$here/crates/dp/out/dp
if [ ! -x "$dp" ]; then
    echo "program: there is no built program"
    echo "0 passed, 1 failed"
    exit 1
fi

mkdir "$work/files" && cd "$work/files" || exit 1
printf 'a\nb\nc\n' >data
printf '0 0 0 0 0 0\n' >draws
printf '0 0 0 0 0\n' >few
mkdir folder
mkfifo fifo
truncate -s 67108865 long
truncate -s 67108864 large
cp "$here/examples/census.json" census
stages='root rows 3 symmetric 1
budget filter 20
plan women
filter rows 3 symmetric 1
count int 0 1073741824 absolute 1
geometric draws 13 loss 1
accepted'
printf '{"version":1' >cut
printf '{"version":1,"header":false,"ratio":[1,2],"distance":1,"root":["odometer"],"plans":{}}' >columnless
printf '{"version":1,"columns":["sex"],"header":false,"ratio":[2,2],"distance":1,"root":["odometer"],"plans":{}}' >even
truncate -s 1048577 lengthy
cp "$here/examples/queries.txt" queries
verdicts='1 admitted draws 13 cost 1 spent 1
2 node cost 4 spent 5
3 admitted draws 13 cost 1 spent 5
4 refused 7 budget 16 15
end 4 spent 5'
printf '%s\n' '{"node":0,"ask":"p"}' '{"node":0,"ask":[["count"],["geometric",1,0,5]]}' \
    '{"node":0,"ask":[["truncate",0],["count"],["geometric",1,0,5]]}' \
    '{"node":0,"ask":[["filter","item","y"],["truncate",1],["count"],["geometric",1,0,5]]}' >of_persons
printf '%s' '{"version":1,"columns":["id","item"],"header":false,"user":"id","ratio":[1,2],"distance":1,' \
    '"root":["odometer"],"plans":{"p":[["truncate",2],["count"],["geometric",1,0,5]]}}' >persons
persons='1 admitted draws 6 cost 4 spent 4
2 refused 4 construction 2
3 refused 4 construction 3
4 admitted draws 6 cost 2 spent 6
end 4 spent 6'
printf '{"version":1,"columns":["sex","age"],"header":false,"ratio":[1,2],"distance":1,"root":["odometer"],"plans":{}}' >plain
printf '%s\n' '{"node":0,"ask":[["select","sex"],["clamp",0,1],["sum"],["geometric",1,0,1]]}' \
    '{"node":0,"ask":[["select","age"],["cast"],["impute",0],["resize",2,0],["resize",2,0],["sum"],["geometric",1,0,1]]}' \
    '{"node":0,"ask":[["select","age"],["cast"],["impute",0],["clamp",5,4],["sum"],["geometric",1,0,1]]}' >not_made
refusals='1 refused 4 construction 1
2 refused 4 construction 2
3 refused 4 construction 3
end 3 spent 0'
cp "$here/examples/town.json" town
cp "$here/examples/town.csv" people
cp "$here/examples/town-queries.txt" asked
cp "$here/examples/town-draws.txt" drawn
transcript='1 answer 104 cost 5 spent 5
2 answer 90 cost 5 spent 10
3 answer [41,52,53,56] cost 5 spent 15
4 answer #0 cost 5 spent 20
5 node cost 10 spent 30
6 answer 44 cost 5 spent 30
7 answer 37 cost 5 spent 30
end 7 spent 30'
printf '{"node":0,"ask":[["count"],["geometric",1,0,0]]}\n' >always_zero
# Plans of the one answer 0, of more draws for 17 groups than a release may take, and of more units than the root has.
printf '%s' '{"version":1,"columns":["sex","age","district"],"header":true,"ratio":[1,2],"distance":1,"root":["filter",5],' \
    '"plans":{"none":[["count"],["geometric",1,0,0]],"wide":[["count"],["geometric",1,0,65535]],' \
    '"dear":[["count"],["geometric",6,0,0]]}}' >zero
# The draws of one query, and all but the last of the next.
head -n 2 drawn | head -c -2 >too_few
{ head -n 1 asked; head -c 65537 /dev/zero | tr '\0' ' '; } >wide_asked
{ head -n 1 queries; head -c 65537 /dev/zero | tr '\0' ' '; } >wide
head -c 1048576 /dev/zero | tr '\0' '\n' >most
{ cat most; echo; } >more

# The statuses and their lines.
case_of 'an answer' 0 'answer 3' '' '"$dp" count data draws 0 5'
case_of 'no words' 2 '' 'dp: usage' '"$dp"'
case_of 'words of no form' 2 '' 'dp: usage' '"$dp" count data draws 5 0'
case_of 'a word that is no text' 2 '' 'dp: usage' '"$dp" count data draws 0 $'"'"'\xff'"'"
case_of 'too few draws' 6 '' 'dp: draw fault' '"$dp" count data few 0 5'
case_of 'a file of draws that is too long' 7 '' 'dp: too long' '"$dp" count data long 0 5'
case_of 'too little memory' 9 '' 'dp: no memory' 'ulimit -v 60000; "$dp" count large draws 0 5'

# Pipelines.
case_of 'the stages of a pipeline' 0 "$stages" '' '"$dp" check census'
case_of 'a pipeline on the standard input' 0 "$stages" '' '"$dp" check - <census'
case_of 'no pipeline' 2 '' 'dp: usage' '"$dp" check'
case_of 'two pipelines' 2 '' 'dp: usage' '"$dp" check census census'
case_of 'a pipeline without a name' 2 '' 'dp: usage' '"$dp" check ""'
case_of 'a pipeline that is no JSON text' 3 '' 'dp: pipeline refused 6' '"$dp" check cut'
case_of 'an empty pipeline' 3 '' 'dp: pipeline refused 6' '"$dp" check /dev/null'
case_of 'a pipeline without columns' 3 '' 'dp: pipeline refused 7' '"$dp" check columnless'
case_of 'a pipeline with a ratio of one' 3 '' 'dp: pipeline refused 8' '"$dp" check even'
case_of 'a pipeline that is too long' 3 '' 'dp: pipeline refused 9' '"$dp" check lengthy'
case_of 'a missing pipeline' 4 '' 'dp: read fault' '"$dp" check missing'
case_of 'a folder as a pipeline' 4 '' 'dp: read fault' '"$dp" check folder'
case_of 'stages for an output that is full' 5 '' 'dp: write fault' '"$dp" check census >/dev/full'
case_of 'stages for a closed output' 5 '' 'dp: write fault' '"$dp" check census >&-'
case_of 'a refusal for an error output that is full' 3 '' '' '"$dp" check cut 2>/dev/full'

# Queries.
case_of 'the verdicts of queries' 0 "$verdicts" '' '"$dp" account census queries'
case_of 'the verdicts of queries on persons' 0 "$persons" '' '"$dp" account persons of_persons'
case_of 'releases that are not made' 0 "$refusals" '' '"$dp" account plain not_made'
case_of 'queries on the standard input' 0 "$verdicts" '' '"$dp" account census - <queries'
case_of 'queries in pieces' 0 "$verdicts" '' '{ head -c 30 queries; sleep 0.1; tail -c +31 queries | head -c 100; sleep 0.1; tail -c +131 queries; } | "$dp" account census -'
case_of 'no queries' 0 'end 0 spent 0' '' '"$dp" account census /dev/null'
case_of 'no file of queries' 2 '' 'dp: usage' '"$dp" account census'
case_of 'a query line that is too long' 8 "${verdicts%%$'\n'*}" 'dp: query limit' '"$dp" account census wide'
case_of 'as many query lines as there may be' 0 'end 1048576 spent 0' '' '"$dp" account census most >all; status=$?; tail -n 1 all; exit $status'
case_of 'one query line too many' 8 '1048576 refused 1 malformed' 'dp: query limit' '"$dp" account census more >all; status=$?; tail -n 1 all; exit $status'
case_of 'queries on a pipeline that is refused' 3 '' 'dp: pipeline refused 6' '"$dp" account cut missing'
case_of 'missing queries' 4 '' 'dp: read fault' '"$dp" account census missing'
case_of 'a folder as queries' 4 '' 'dp: read fault' '"$dp" account census folder'
case_of 'verdicts for an output that is full' 5 '' 'dp: write fault' '"$dp" account census queries >/dev/full'

# Queries on data.
case_of 'a replay' 0 "$transcript" '' '"$dp" replay town people asked drawn'
case_of 'a replay of data on the standard input' 0 "$transcript" '' '"$dp" replay town - asked drawn <people'
case_of 'a replay of queries in pieces' 0 "$transcript" '' '{ head -c 30 asked; sleep 0.1; tail -c +31 asked; } | "$dp" replay town people - drawn'
case_of 'a replay without queries' 0 'end 0 spent 0' '' '"$dp" replay town people /dev/null drawn'
case_of 'a replay of no records' 0 $'1 answer 0 cost 1 spent 1\nend 1 spent 1' '' '"$dp" replay town /dev/null always_zero draws'
case_of 'a replay whose draws run out' 6 "${transcript%%$'\n'*}" 'dp: draw fault' '"$dp" replay town people asked too_few'
case_of 'a replay of draws that are too long' 7 '' 'dp: too long' '"$dp" replay town people asked long'
case_of 'a replay of a query line that is too long' 8 "${transcript%%$'\n'*}" 'dp: query limit' '"$dp" replay town people wide_asked drawn'
case_of 'a replay under a pipeline that is refused' 3 '' 'dp: pipeline refused 6' '"$dp" replay cut missing missing missing'
case_of 'a replay of missing data' 4 '' 'dp: read fault' '"$dp" replay town missing asked drawn'
case_of 'a replay of missing queries' 4 '' 'dp: read fault' '"$dp" replay town people missing drawn'
case_of 'a replay for an output that is full' 5 '' 'dp: write fault' '"$dp" replay town people asked drawn >/dev/full'
case_of 'a replay for a closed output' 5 '' 'dp: write fault' '"$dp" replay town people asked drawn >&-'
case_of 'a rehearsal, twice the same' 0 'rehearsal' '' '"$dp" rehearse town people asked 7 >one && "$dp" rehearse town people asked 7 | cmp one && head -n 1 one'
case_of 'a rehearsal of missing queries' 4 'rehearsal' 'dp: read fault' '"$dp" rehearse town people missing 7'
case_of 'a rehearsal by a seed that is no number' 2 '' 'dp: usage' '"$dp" rehearse town people asked x7'
case_of 'a run' 0 $'1 answer 0 cost 1 spent 1\nend 1 spent 1' '' '"$dp" run town people always_zero'
case_of 'a run of seven queries' 0 'end 7 spent 30' '' '"$dp" run town people asked >all; status=$?; tail -n 1 all; exit $status'
case_of 'runs whose draws differ' 1 '' '' '"$dp" run town people asked >one && "$dp" run town people asked >other && cmp -s one other'
case_of 'a run of two files' 2 '' 'dp: usage' '"$dp" run town people'
case_of 'a run of missing queries' 4 '' 'dp: read fault' '"$dp" run town people missing'
case_of 'a run for an output that is full' 5 '' 'dp: write fault' '"$dp" run town people asked >/dev/full'

# One release of a plan. Of an answer of several numbers the form is compared, since the draws are the system's.
numbers_as_n() { sed 's/-*[0-9][0-9]*\([],;)]\)/N\1/g' "$1"; }
case_of 'a release on the records of each text' 0 $'1 answer (N;N;N) cost 5 spent 5\nend 1 spent 5' '' '"$dp" group town people women district North South East >all; status=$?; numbers_as_n all; exit $status'
case_of 'vectors on the records of each text' 0 $'1 answer ([N,N,N,N];[N,N,N,N]) cost 5 spent 5\nend 1 spent 5' '' '"$dp" group town people ages sex F M >all; status=$?; numbers_as_n all; exit $status'
case_of 'a release on the records of one text' 0 $'1 answer 0 cost 1 spent 1\nend 1 spent 1' '' '"$dp" group zero people none district ""'
case_of 'a release of data on the standard input' 0 $'1 answer (0;0) cost 1 spent 1\nend 1 spent 1' '' '"$dp" group zero - none district North South <people'
case_of 'as many texts as there may be' 0 'end 1 spent 5' '' '"$dp" group town people women district $(seq 1023) >all; status=$?; tail -n 1 all; exit $status'
case_of 'one text too many' 2 '' 'dp: usage' '"$dp" group town people women district $(seq 1024)'
case_of 'no text' 2 '' 'dp: usage' '"$dp" group town people women district'
case_of 'a text that is given twice' 0 $'1 refused 4 construction 3\nend 1 spent 0' '' '"$dp" group town people women district North South North'
case_of 'groups where a person is the unit' 0 $'1 refused 4 construction 2\nend 1 spent 0' '' '"$dp" group persons people p item x y'
case_of 'groups by a column that is not there' 0 $'1 refused 1 malformed\nend 1 spent 0' '' '"$dp" group town people women county North'
case_of 'groups of a plan that is not there' 0 $'1 refused 1 malformed\nend 1 spent 0' '' '"$dp" group town people men district North'
case_of 'more draws than a release may take' 0 $'1 refused 4 construction 5\nend 1 spent 0' '' '"$dp" group zero people wide district $(seq 17)'
case_of 'a release over the budget' 0 $'1 refused 7 budget 6 5\nend 1 spent 0' '' '"$dp" group zero people dear district North'
case_of 'groups under a pipeline that is refused' 3 '' 'dp: pipeline refused 6' '"$dp" group cut missing women district North'
case_of 'groups of missing data' 4 '' 'dp: read fault' '"$dp" group town missing women district North'
case_of 'groups for an output that is full' 5 '' 'dp: write fault' '"$dp" group town people women district North >/dev/full'
case_of 'a release that is changed' 0 $'1 answer [N,N,N,N] cost 5 spent 5\nend 1 spent 5' '' '"$dp" post town people ages cumulate floor >all; status=$?; numbers_as_n all; exit $status'
case_of 'as many changes as there may be' 0 $'1 answer 0 cost 1 spent 1\nend 1 spent 1' '' '"$dp" post zero people none $(yes floor | head -n 16)'
case_of 'one change too many' 2 '' 'dp: usage' '"$dp" post zero people none $(yes floor | head -n 17)'
case_of 'no change' 2 '' 'dp: usage' '"$dp" post town people ages'
case_of 'a word that is no change' 2 '' 'dp: usage' '"$dp" post town people ages floor ceiling'
case_of 'a change of a plan that is not there' 0 $'1 refused 1 malformed\nend 1 spent 0' '' '"$dp" post town people "" floor'
case_of 'a change over the budget' 0 $'1 refused 7 budget 6 5\nend 1 spent 0' '' '"$dp" post zero people dear floor'
case_of 'a change under a pipeline that is refused' 3 '' 'dp: pipeline refused 6' '"$dp" post cut missing ages floor'
case_of 'a change of missing data' 4 '' 'dp: read fault' '"$dp" post town missing ages floor'
case_of 'a change for an output that is full' 5 '' 'dp: write fault' '"$dp" post town people ages floor >/dev/full'
case_of 'releases whose draws differ' 1 '' '' '"$dp" post town people ages floor >one && "$dp" post town people ages floor >other && cmp -s one other'

# Records that are made.
sampled='records 1000
1 answer 5 cost 1 spent 1
2 answer 49 cost 1 spent 2
3 answer #0 cost 3 spent 5
end 3 spent 5'
largest='records 1000000
1 answer 5000 cost 1 spent 1
2 answer 49500 cost 1 spent 2
3 answer #0 cost 3 spent 5
end 3 spent 5'
case_of 'a thousand records' 0 "$sampled" '' '"$dp" sample 1000'
case_of 'a million records' 0 "$largest" '' '"$dp" sample 1000000'
case_of 'no records' 2 '' 'dp: usage' '"$dp" sample 0'
case_of 'more than a million records' 2 '' 'dp: usage' '"$dp" sample 1000001'
case_of 'records for an output that is full' 5 '' 'dp: write fault' '"$dp" sample 1000 >/dev/full'

# Files.
case_of 'a missing file of records' 4 '' 'dp: read fault' '"$dp" count missing draws 0 5'
case_of 'a missing file of draws' 4 '' 'dp: read fault' '"$dp" count data missing 0 5'
case_of 'a folder' 4 '' 'dp: read fault' '"$dp" count folder draws 0 5'
case_of 'an empty file' 0 'answer 0' '' '"$dp" count /dev/null draws 0 5'
case_of 'a named pipe' 0 'answer 3' '' 'cat data >fifo & "$dp" count fifo draws 0 5'
touch secret && chmod 000 secret
if [ -r secret ]; then
    echo "program: an unreadable file: left out, since this user reads every file"
else
    case_of 'an unreadable file' 4 '' 'dp: read fault' '"$dp" count secret draws 0 5'
fi

# The standard input.
case_of 'the standard input' 0 'answer 3' '' '"$dp" count - draws 0 5 <data'
case_of 'a file named -' 0 'answer 3' '' 'printf "x\n" >-; "$dp" count - draws 0 5 <data'
case_of 'draws on the standard input' 0 'answer 3' '' '"$dp" count data - 0 5 <draws'
case_of 'a pipe in pieces' 0 'answer 4' '' '{ printf "a\nb"; sleep 0.1; printf "\nc\n"; sleep 0.1; printf "d\n"; } | "$dp" count - draws 0 5'
case_of 'a closed standard input' 4 '' 'dp: read fault' '"$dp" count - draws 0 5 <&-'
case_of 'draws on a closed standard input' 4 '' 'dp: read fault' '"$dp" count data - 0 5 <&-'
case_of 'a closed standard input that is not read' 0 'answer 3' '' '"$dp" count data draws 0 5 <&-'
case_of 'a folder as the standard input' 4 '' 'dp: read fault' '"$dp" count - draws 0 5 <folder'
case_of 'a standard input for writing alone' 4 '' 'dp: read fault' '"$dp" count - draws 0 5 0>written'

# The outputs.
case_of 'an output that is full' 5 '' 'dp: write fault' '"$dp" count data draws 0 5 >/dev/full'
case_of 'a closed output' 5 '' 'dp: write fault' '"$dp" count data draws 0 5 >&-'
case_of 'an output for reading alone' 5 '' 'dp: write fault' '"$dp" count data draws 0 5 1<data'
case_of 'a closed error output' 4 '' '' '"$dp" count missing draws 0 5 2>&-'
case_of 'a closed error output that is not needed' 0 'answer 3' '' '"$dp" count data draws 0 5 2>&-'
case_of 'an error output that is full' 2 '' '' '"$dp" 2>/dev/full'
case_of 'all streams closed' 5 '' '' '"$dp" count data draws 0 5 <&- >&- 2>&-'
case_of 'a pipe that its reader closed' 5 '' 'dp: write fault' '{ sleep 0.5; "$dp" count data draws 0 5; echo $? >status; } | true; exit $(cat status)'
case_of 'the files are as they were' 0 'a b c 0 0 0 0 0 0' '' 'echo $(cat data draws)'

echo "$passed passed, $failed failed"
[ "$failed" -eq 0 ]
