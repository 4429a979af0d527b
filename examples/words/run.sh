. "$(dirname "$0")/../play.sh"
# Counts words into two partitions, and judges the result.
printf 'The cat saw the dog.\nThe dog saw nothing.\n' > book.txt
mkdir counts
./mapred seq --job words --parts 2 --out counts book.txt
# done: 2 files, 9 pairs, 0 left out
cat counts/part-00000
# nothing	1
# saw	2
# the	3
cat counts/part-00001
# cat	1
# dog	2
./mapred check --job words --parts 2 --out counts book.txt
# yes: 9 pairs, 0 left out
