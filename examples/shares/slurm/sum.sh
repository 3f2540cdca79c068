#!/bin/sh
# sum.sh ARRAY ..: waits until no share of these arrays of shares.sh is queued or runs, adds the replies of all shares
# of this folder, and prints the sum, which it leaves in sum.txt too. Where a share failed, the one line printed names
# it, and the status is not 0.
if [ $# = 0 ] || [ ! -d shares/1 ] || [ ! -x "${ADD_REPLIES:-}" ]; then
  echo "use: sum.sh ARRAY .., in the folder that has shares/1, where ADD_REPLIES names the program" >&2
  exit 2
fi
ADD_SHARES=$(cd "$(dirname "$0")/.." && pwd)/add_shares
export ADD_SHARES
rm -f sum.txt
# `afterany`, not `afterok`: after a share that failed the sum is tried too, and says which one it was.
sbatch --wait --job-name=sum --mem=1G --dependency="afterany$(printf ':%s' "$@")" --output=sum.log << 'END' >&2
#!/bin/sh
exec "$ADD_SHARES" shares > sum.txt
END
status=$?
[ ! -f sum.txt ] || cat sum.txt
exit $status
