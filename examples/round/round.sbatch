#!/usr/bin/env bash
#
# A deck on the machines of a Slurm cluster, one part for each task of an array:
#
#   snomon-deck split monday.deck parts
#   sbatch --array=1-$(ls parts/*.deck | wc -l) --wait examples/round/round.sbatch parts &&
#       snomon-deck join parts -o monday.out
#
# A part gets its output only where its run ends with the status 0; `snomon-deck join` tells which one is missing.
#SBATCH --job-name=snomon
#SBATCH --cpus-per-task=1
set -euo pipefail

part=$1/$SLURM_ARRAY_TASK_ID
"${SNOMON:-snomon}" --slots "${SLOTS:-4}" <"$part.deck" >"$part.new"
mv -- "$part.new" "$part.out"
