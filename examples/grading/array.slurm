#!/usr/bin/env bash
#SBATCH --job-name=mta_lab
#SBATCH --cpus-per-task=1
#SBATCH --mem=1G
#SBATCH --time=01:00:00
# judges a part of the submissions by every schedule: as many parts as the array has tasks, or PARTS where a task alone is
# started again; the results of each part go to a file of its own, and a task goes on where it stopped (docs/GRADING.md)
set -eu
part=$SLURM_ARRAY_TASK_ID
parts=${PARTS:-$SLURM_ARRAY_TASK_COUNT}
status=0
mta_lab grade --explore --seconds 120 --memory 500 --jobs 1 --expect wanted.expect \
  --part "$part/$parts" --results "part.$part.jsonl" submissions/*.asm >"part.$part.txt" || status=$?
# 0, 3, 4 and 5 say how the submissions are; else the task has failed: an error of yours, a full disk, or mta_lab was killed
case $status in 0 | 3 | 4 | 5) ;; *) exit "$status" ;; esac
