#!/bin/bash
# Makes a link of a month, that of the task's number in `make links`, and the files of it that are named (README.md).
#SBATCH --requeue
link=$(make -s links | sed -n "${SLURM_ARRAY_TASK_ID}p")
exec make "$link" "${@/#/"$link/"}"
