#!/bin/sh
# Runs records of a list that `rows.py plan` has put into the folder OUT, one after the other: solves each, has its
# certificate checked, and writes what came of it. A record that is done already isn't run again.
#
#   examples/batch/one.sh OUT NUMBER ..
#
# The program is that of this repository, or the one that the variable LINE names. A result is in two files: the
# certificate OUT/certs/KEY.cert, once its check has passed, and then OUT/rows/KEY. Each is written under another name
# in OUT/work and renamed when whole. A failure is told in OUT/rows/KEY.failed and on standard error, and ends the
# script.
#
# Exit codes: 0, or 1 where a record was stopped by its units. Those of the program where a record failed: 2 words,
# 3 input, 4 reading, 5 writing, 6 memory, 7 and 8 of the check. 4 also where the record that it begins from isn't done.
# Above 126 the program couldn't be run, or a signal ended it.
set -euf
[ $# -ge 2 ] || { echo "examples/batch/one.sh OUT NUMBER .." >&2; exit 2; }
program=${LINE:-$("$(dirname "$0")/../../tools/program" 2> /dev/null || echo "$(dirname "$0")/../../bin/line")}
case $program in
    /*) ;;
    */*) program=$PWD/$program ;;
esac
command -v "$program" > /dev/null || { echo "one.sh: $program isn't there; ./line --version builds it" >&2; exit 127; }
out=$(cd "$1" 2> /dev/null && pwd) && [ -r "$out/plan.mk" ] || { echo "one.sh: $1 has no plan" >&2; exit 2; }
shift
IFS= read -r list < "$out/list"
cd "${list%/*}/"

# Ends the script with a code and the line that tells why; the line goes into the record's failure too, if it can.
fail() {
    { printf 'status %s\ncode %s\nend\n' "$2" "$1" > "$work.failed" && mv "$work.failed" "$row.failed"; } \
        2> /dev/null || :
    echo "record $number: $2" >&2
    exit "$1"
}

# The job of the record.
read_job() {
    after=
    while IFS= read -r entry; do
        value=${entry#* }
        case $entry in
            'command '*) command=$value ;;
            'file '*) file=$value ;;
            'limit '*) limit=$value ;;
            'line '*) kind=$value ;;
            'words '*) words=$value ;;
            'after '*) after=$value ;;
        esac
    done < "$out/jobs/$key"
}

# Whether the record of a key is done: its row is whole, and its certificate is the one that was checked. Its exit code
# is then in `code`.
is_done() {
    code='' sum='' entry=''
    [ -f "$out/rows/$1" ] && [ -f "$out/certs/$1.cert" ] || return 1
    while read -r entry value; do
        case $entry in
            code) code=$value ;;
            sum) sum=$value ;;
            end) break ;;
        esac
    done < "$out/rows/$1"
    [ "$entry" = end ] && [ -n "$sum" ] && [ "$(cksum < "$out/certs/$1.cert")" = "$sum" ]
}

# The program with these words. What it prints goes to a file, its exit code to `code`, and when it ended to `ended`.
call() {
    true 2> /dev/null > "$work.text" || fail 5 "$work.text can't be written"
    "$program" "$@" > "$work.text" 2>&1 &
    child=$! code=0
    wait "$child" || code=$?
    child='' ended=$(date +%s%N)
}

# The line of the program that tells why it failed.
said() {
    if [ "$code" -gt 128 ]; then
        echo "ended by signal $((code - 128))"
    elif [ -s "$work.text" ]; then
        grep -m 1 '^stopped' "$work.text" || head -n 1 "$work.text"
    elif [ "$code" = 5 ]; then
        echo "a file or the output could not be written"
    else
        echo "ended with status $code"
    fi
}

# The search, from the certificate of the record before it in its chain.
solve() {
    # shellcheck disable=SC2086
    set -- "$command" "$file" "$limit" "line=$kind" $words "cert=$work.cert"
    if [ -n "$after" ]; then
        is_done "$after" || fail 4 "the record that it begins from isn't done"
        set -- "$@" "warm=$out/certs/$after.cert"
    fi
    begun=$(date +%s%N)
    call "$@"
    [ "$code" -le 1 ] || fail "$code" "$(said)"
    status=''
    while [ -z "$status" ] && IFS= read -r answer; do
        case $answer in
            optimal*) status=optimal ;;
            stopped* | infeasible*) status=$answer ;;
        esac
    done < "$work.text"
    [ -n "$status" ] || fail 7 "no answer: $(said)"
    solve_code=$code solve_took=$((ended - begun)) begun=$ended
}

# The check of the certificate: the bounds and the units that it accepts.
check() {
    set -- check "$file" "$work.cert"
    for word in $words; do
        case $word in
            apart=*) set -- "$@" "$word" ;;
        esac
    done
    call "$@"
    [ "$code" = 0 ] || fail "$code" "check: $(said)"
    check_took=$((ended - begun))
    lower='' upper='' units=''
    IFS= read -r verdict < "$work.text" || verdict=''
    case $verdict in
        *' lower '*) lower=${verdict##* lower } upper=${verdict##* upper } units=${verdict##* units } ;;
    esac
    lower=${lower%% *} upper=${upper%% *}
}

# What came of the record, as lines of a name and a value.
values() {
    # The tasks, the stations of the balance and the entries, as the certificate tells them.
    claims=$(awk '$1 ~ /^(tasks|balance|entries)$/ { of[$1] = $2 } $1 == "entries" { exit }
        END { print of["tasks"] " " of["balance"] " " of["entries"] " " }' "$work.cert")
    lemmas=${claims#* * } stations=${claims#* } sum=$(cksum < "$work.cert") cycle=${limit#cycle=}
    case $limit in
        stations=*) cycle=$upper stations=${limit#stations=} ;;
    esac
    printf '%s %s\n' tasks "${claims%% *}" cycle "$cycle" lower "$lower" upper "$upper" status "$status" \
        stations "${stations%% *}" units "$units" lemmas "${lemmas%% *}" bytes "${sum#* }" code "$solve_code" sum "$sum"
    # Nanoseconds as seconds.
    printf '%s %d.%03d\n' solve_seconds $((solve_took / 1000000000)) $((solve_took / 1000000 % 1000)) \
        check_seconds $((check_took / 1000000000)) $((check_took / 1000000 % 1000))
    echo end
}

# The record of a number. Whoever is at work on it is waited for.
run() {
    number=$1 key=''
    case $number in
        *[!0-9]* | 0* | '') ;;
        *) key=$(sed -n "${number}{p;q}" "$out/keys") ;;
    esac
    [ -n "$key" ] || { echo "one.sh: no record $number" >&2; exit 2; }
    [ -w "$out/jobs/$key" ] && [ -w "$out/work" ] || { echo "one.sh: $out can't be written" >&2; exit 5; }
    exec 9<> "$out/jobs/$key"
    flock 9 || { echo "one.sh: $out can't be locked" >&2; exit 5; }
    work=$out/work/$key row=$out/rows/$key
    if is_done "$key"; then
        solve_code=$code
    else
        read_job
        solve
        check
        text=$(values)
        printf '%s\n' "$text" 2> /dev/null > "$work.row" || fail 5 "$work.row can't be written"
        mv "$work.cert" "$out/certs/$key.cert" && mv "$work.row" "$row" || fail 5 "$row can't be written"
        echo "record $number: $status"
    fi
    clean "$row.failed"
    work=''
}

# Removes what is left under other names, and the files that are named.
clean() {
    [ -z "$work" ] || rm -f "$work.cert" "$work.text" "$work.row" "$work.failed" "$@"
}

# The end of the script: code 1 is a result, and so never that of a command of this script that failed.
finish() {
    ended=$?
    clean
    [ "$ended" != 1 ] || [ -n "$through" ] || exit 5
}

# Ends the program too.
stop() {
    [ -z "$child" ] || { kill "$child"; wait "$child"; } 2> /dev/null || :
    exit 143
}

work='' child='' worst=0 through=''
trap finish EXIT
trap stop HUP INT TERM
for number in "$@"; do
    run "$number"
    [ "$solve_code" = 0 ] || worst=1
done
through=yes
exit "$worst"
