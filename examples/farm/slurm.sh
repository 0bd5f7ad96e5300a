#!/usr/bin/env bash
# slurm.sh GRAPH SIZE: has Slurm render the pieces of a graph's range as an array of jobs, on nodes that share this folder.
# A job that may be tried again is put back into the queue. It wants Slurm; where there is none, it says so.
set -eu
here=$(cd "$(dirname "${BASH_SOURCE[0]}")" && pwd)

if ! command -v sbatch >/dev/null; then
  echo "slurm.sh: there is no Slurm here (on Debian: apt-get install slurm-wlm)"
  exit 0
fi
"$here/chunks.sh" "$1" "$2" >chunks.txt
sbatch --array="1-$(wc -l <chunks.txt)" --requeue --open-mode=append --output=render.%a.log <<JOB
#!/usr/bin/env bash
read -r first last < <(sed -n "\${SLURM_ARRAY_TASK_ID}p" chunks.txt)
"$here/piece.sh" "$1" "\$first" "\$last"
status=\$?
[ \$status -eq 75 ] && [ "\${SLURM_RESTART_COUNT:-0}" -lt 3 ] && scontrol requeue "\$SLURM_ARRAY_JOB_ID"_"\$SLURM_ARRAY_TASK_ID"
exit \$status
JOB
