#!/bin/bash
# Task 7 of an array of Slurm runs line 7 of commands.txt:
#
#     mkdir -p rows && sbatch --array="1-$(wc -l < commands.txt)" with_slurm.sbatch
#
# What it prints is then in rows/0007.out. All nodes must see this folder, and `overlay` must be on the PATH that
# `sbatch` is called with. `--array=1-500%64` would run at most 64 tasks at once.
#
# Slurm itself starts a task again whose node is lost. If some failed, submit the array again: a task whose rows are
# there ends at once. The rows get their name only when the command has ended well.
#SBATCH --job-name=sweep --requeue
#SBATCH --ntasks=1 --cpus-per-task=1
#SBATCH --output=rows/%4a.log
set -euo pipefail
rows=rows/$(printf %04d "$SLURM_ARRAY_TASK_ID").out
[[ ! -e $rows ]] || exit 0
bash -c "$(sed -n "${SLURM_ARRAY_TASK_ID}p" commands.txt)" > "$rows.part"
mv "$rows.part" "$rows"
