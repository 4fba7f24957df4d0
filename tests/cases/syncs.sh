# Each emptying of a file, each wait for the disk, and each question which file it is, refused in turn: a file that cannot be emptied or
# synced is status 5, one that is not known is 4 or 5, and what stands is a first part of what was due.
. "$top/tests/lib.sh"
. "$top/tests/refusing.sh"

each ftruncate EIO 5 encode knapsack.opb n.cnf n.proof
each fsync EIO 5 encode knapsack.opb n.cnf n.proof
each fsync ENOSPC 5 bench 10 7 n.bench

# A device has nothing to empty and nothing to wait for, and says that this is invalid: that alone is passed over, and of it alone.
for call in ftruncate fsync; do
    each $call EIO 5 encode knapsack.opb /dev/null n.proof
    each $call EINVAL 5 encode knapsack.opb n.cnf n.proof
done

# A file that the system does not identify.
each statx EIO '4 5' encode knapsack.opb n.cnf n.proof
each statx EIO 4 refute pigeons.opb pigeons.cnf pigeons.proof pigeons.lrat
