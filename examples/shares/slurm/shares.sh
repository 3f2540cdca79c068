#!/bin/sh
# shares.sh [OPTION OF SBATCH ..]: gives the shares in shares/1, shares/2 and so on of this folder to Slurm as an array,
# and prints its number. All machines see this folder and $NANOCUBE by the same names. Options of sbatch come last, so
# they win: `shares.sh --array=4 --mem=16G` gives share 4 alone, with so much memory.
if [ ! -d shares/1 ] || [ ! -x "${NANOCUBE:-}" ]; then
  echo "use: shares.sh [OPTION OF SBATCH ..], in the folder that has shares/1, where NANOCUBE names the program" >&2
  exit 2
fi
here=$(cd "$(dirname "$0")/.." && pwd)
count=$(find shares -mindepth 1 -maxdepth 1 -type d | wc -l)
memory=$("$here/share_memory" shares/*/records.csv) || exit
export RUN_SHARE="$here/run_share"
# A share whose machine dies is queued again (--requeue). Its log then has both machines.
exec sbatch --parsable --job-name=share --array="1-$count" --mem="${memory}M" --cpus-per-task=2 --requeue \
  --output=shares/%a/slurm.log --open-mode=append "$@" << 'END'
#!/bin/sh
echo "share $SLURM_ARRAY_TASK_ID on $SLURMD_NODENAME"
scontrol update JobId="${SLURM_ARRAY_JOB_ID}_$SLURM_ARRAY_TASK_ID" JobName="share-$SLURM_ARRAY_TASK_ID"
exec "$RUN_SHARE" "shares/$SLURM_ARRAY_TASK_ID"
END
