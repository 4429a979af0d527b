. "$(dirname "$0")/../play.sh"
printf 'The cat saw the dog.\n' > a.txt
printf 'The dog saw nothing.\n' > b.txt
mkdir first second both
./mapred seq --job words --parts 2 --out first a.txt
# done: 2 files, 5 pairs, 0 left out
./mapred check --job words --parts 2 --out first --verdict first/verdict a.txt
# yes: 5 pairs, 0 left out
./mapred seq --job words --parts 2 --out second b.txt
# done: 2 files, 4 pairs, 0 left out
./mapred check --job words --parts 2 --out second --verdict second/verdict b.txt
# yes: 4 pairs, 0 left out
sha256sum a.txt b.txt > inputs
./mapred merge --out both --inputs inputs first/verdict second/verdict
# merged: 2 files, 9 pairs, 0 left out
cat both/part-00001
# cat	1
# dog	2
./mapred verify both/verdict
# verified: 2 files, 9 pairs, 0 left out

engines/shards.py --out all --job words --parts 2 a.txt b.txt
# merged: 2 files, 9 pairs, 0 left out

cat a.txt b.txt > large.txt
engines/shards.py --out cut --job words --parts 2 --shard-size 30 large.txt
# merged: 2 files, 9 pairs, 0 left out
cmp cut/part-00001 both/part-00001
