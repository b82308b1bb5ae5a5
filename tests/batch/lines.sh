# shellcheck shell=sh disable=SC2034,SC2154
# Generated lines with their list, and what the trials of examples/batch share; read by the scripts beside this file.

batch=$(cd "$here/../../examples/batch" && pwd)
. "$here/../../bench/lines.sh"
wrong=0

# Tells what is wrong, and goes on.
find_fault() {
    echo "WRONG: $*" >&2
    wrong=$((wrong + 1))
}

# Makes the folder `lines` with generated lines, and their list in lines/list.csv: 66 records in 60 chains. The variable
# UNITS says how many units a record has; the line of `longest` has five times as many.
longest=tree-49
make_lines() {
    units=${UNITS:-600000}
    mkdir -p lines
    echo file,cycle,line,words > lines/list.csv
    for tasks in $(seq 31 60); do
        for order in tree sparse; do
            generate "$order" "$tasks" > "lines/$order-$tasks.in2"
            kind=straight
            [ $((tasks % 3)) -ne 0 ] || kind=u
            words=units=$units
            [ "$order-$tasks" != "$longest" ] || words=units=$((units * 5))
            echo "$order-$tasks.in2,1500,$kind,$words" >> lines/list.csv
            [ "$order" = sparse ] || [ $((tasks % 5)) -ne 0 ] ||
                echo "$order-$tasks.in2,1600,$kind,$words" >> lines/list.csv
        done
    done
}

# A table without its seconds.
plain() {
    sed 's/,[0-9]*\.[0-9]\{3\},[0-9]*\.[0-9]\{3\},/,,,/' "$1"
}

# Whether a table is another one but for its seconds.
same_table() {
    plain "$1" > table-1
    plain "$2" > table-2
    cmp -s table-1 table-2
}

# Goes through what OUT has: each record with a row has a certificate that the check accepts, and the bounds of its row.
each_row_holds() {
    checked=0
    for row in "$1"/rows/*; do
        case $row in
            *.failed | "$1/rows/*") continue ;;
        esac
        key=${row##*/}
        file=$(sed -n 's/^file //p' "$1/jobs/$key")
        verdict=$("$LINE" check "lines/$file" "$1/certs/$key.cert") || find_fault "$key: $verdict"
        told=$(sed -n '/^lower \|^upper \|^units /p' "$row" | paste -s -d ' ')
        [ "${verdict#* lower }" = "${told#lower }" ] || find_fault "$key: $verdict, and its row $told"
        checked=$((checked + 1))
    done
}

# Ends a trial.
conclude() {
    [ "$wrong" = 0 ] || { echo "$wrong wrong" >&2; exit 1; }
    echo "nothing wrong"
}
