#!/bin/sh
#SBATCH --job-name=monitor
#SBATCH --array=1-64%16
#SBATCH --cpus-per-task=1
#SBATCH --mem=512M
#SBATCH --time=02:00:00
#SBATCH --output=/dev/null
# The fleet as an array of Slurm, a task for each line of the file sites.txt; `%16` lets sixteen run at a time.
#
#   ls -d "$PWD"/sites/*/ > sites.txt
#   job=$(sbatch --parsable --array="1-$(wc -l < sites.txt)%16" fleet.slurm)
#   sbatch --dependency="afterany:$job" --wrap 'python3 gather.py sites'
#
# The folder of the sites is one that all machines see. The lock on a store holds for processes of one machine, so a site belongs to
# one task at a time: don't submit a second array before the first has ended.
site=$(sed -n "${SLURM_ARRAY_TASK_ID}p" "${SITES_LIST:-sites.txt}")
[ -n "$site" ] || exit 64
cd "$site" || exit 66
exec "${SITE_RUN:-/usr/lib/monitor/monitor-site}" --init --if-new
