. "$(dirname "$0")/../play.sh"
# Replaces a result: a fresh directory, a run, a judgement, and only behind a yes the move.
printf 'The dog saw the cat.\n' > today.txt
mkdir fresh
./mapred seq --job words --out fresh today.txt
# done: 1 files, 5 pairs, 0 left out
./mapred check --job words --out fresh today.txt && rm -rf current && mv fresh current
# yes: 5 pairs, 0 left out
cat current/part-00000
# cat	1
# dog	1
# saw	1
# the	2
