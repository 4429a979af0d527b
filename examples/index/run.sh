. "$(dirname "$0")/../play.sh"
# Tells the files of each word, by their numbers in the order of the line, and judges the result.
printf 'The cat saw the dog.\n' > first.txt
printf 'The dog saw nothing.\n' > second.txt
mkdir places
./mapred seq --job index --out places first.txt second.txt
# done: 1 files, 9 pairs, 0 left out
cat places/part-00000
# cat	0
# dog	0,1
# nothing	1
# saw	0,1
# the	0,1
./mapred check --job index --out places first.txt second.txt
# yes: 9 pairs, 0 left out
