#!/bin/sh
#SBATCH --job-name=mpdbg
#SBATCH --cpus-per-task=1
# One piece of a check: the number of the task is that of the piece. Status 1 says that the piece has a deadlock or a trap.
N=$SLURM_ARRAY_TASK_ID
./mpdbg check examples/two_each.mpd --split 2 --workers 1 --piece "$N" --witness > "tasks/$N"
[ $? -le 1 ]
