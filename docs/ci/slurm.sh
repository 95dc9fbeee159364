#!/bin/sh
# Stored cases as an array of Slurm: slurm.sh PARTS OUT DIR; OUT and DIR are at one place on each node. A part whose node
# is lost is queued again. The last job waits for all.
runall=${RUNALL:-vindaesk-runall}
mkdir -p "$2"
array=$(sbatch --parsable --requeue --array="1-$1" --output="$2/%a.log" --wrap \
    "exec $runall $3 --jobs 1 --shard \$SLURM_ARRAY_TASK_ID/$1 --junit $2/\$SLURM_ARRAY_TASK_ID.xml")
sbatch --wait --dependency="afterany:$array" --output="$2/merge.log" --wrap \
    "exec $runall --merge $2/*.xml --of $3 --junit $2.xml"
status=$?
tail -n 1 "$2/merge.log"
exit $status
