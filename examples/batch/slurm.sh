#!/bin/sh
# Submits the records of a list to Slurm as a job array, a record a task, by one.sh. Where the list has one file at
# several cycle times, one task does that chain, the longest first. A record that is done isn't run again, so a task
# that is requeued goes on where it was. More tasks than an array may have (MaxArraySize) are several arrays.
#
#   examples/batch/slurm.sh LIST OUT [WORD ..]     the words are for sbatch, such as --partition=night --wait
#
# OUT must be seen by all nodes under the same path. Each task asks for one processor, 512 MB and 20 minutes for each
# record of the longest chain; words such as --mem=4G ask for something else. What tasks print is in OUT/slurm. Prints
# what sbatch prints. Afterwards `rows.py table LIST OUT` joins the rows. Exit codes: those of rows.py, of `line` and of
# sbatch; 0 where all arrays are submitted.
set -eu

# What a task of the array does: the chain of its number.
if [ "${1:-}" = --task ]; then
    here=$2 out=$3 chain=$(($4 + SLURM_ARRAY_TASK_ID)) code=0
    # shellcheck disable=SC2046
    "$here/one.sh" "$out" $(sed -n "${chain}p" "$out/chains") || code=$?
    [ "$code" = 1 ] || exit "$code"
    exit 0
fi

here=$(cd "$(dirname "$0")" && pwd)
[ $# -ge 2 ] || { echo "examples/batch/slurm.sh LIST OUT [WORD ..]" >&2; exit 2; }
"${LINE:-$here/../../line}" --version > /dev/null
"$here/rows.py" plan "$1" "$2"
out=$(cd "$2" && pwd)
shift 2
mkdir -p "$out/slurm"
chains=$(wc -l < "$out/chains")
longest=$(awk 'NF > most { most = NF } END { print most }' "$out/chains")
most=$(scontrol show config | sed -n 's/^MaxArraySize *= *//p')
begun=0
while [ "$begun" -lt "$chains" ]; do
    tasks=$((chains - begun))
    [ "$tasks" -lt "$most" ] || tasks=$((most - 1))
    sbatch --job-name=line --cpus-per-task=1 --mem=512M --time=$((20 * longest)) --requeue \
        --output="$out/slurm/%A_%a" "$@" --array="1-$tasks" "$0" --task "$here" "$out" "$begun"
    begun=$((begun + tasks))
done
