#!/bin/sh
# A long panel on a cluster with Slurm: twenty tasks, each of which takes every twentieth block of households.
#
#   sbatch --wait slurm.sh LONG VERDICTS      then   rp-panel-long --gather 20 VERDICTS
#
# A task that did not end goes on from what it left: submit the same again, or its number alone (sbatch --array=7 ..).
# RP_PANEL_LONG is where rp-panel-long stands, in a folder that every node sees.
#SBATCH --job-name=rp-panel-long
#SBATCH --array=1-20
#SBATCH --cpus-per-task=4
#SBATCH --mem=2G
#SBATCH --requeue
#SBATCH --output=rp-panel-long-%a.log
exec "${RP_PANEL_LONG:-rp-panel-long}" --processes "${SLURM_CPUS_PER_TASK:-1}" --part "$SLURM_ARRAY_TASK_ID/20" "$@"
