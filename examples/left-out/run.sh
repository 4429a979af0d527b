. "$(dirname "$0")/../play.sh"
# Leaves the second line out, by its name: record 1 of split 0. The judge tells what a result leaves out.
printf 'The cat saw the dog.\nThe dog saw nothing.\n' > pages.txt
mkdir without
./mapred seq --job words --skips 0:1 --max-skips 1 --out without pages.txt
# done: 1 files, 5 pairs, 1 left out
cat without/part-00000
# cat	1
# dog	1
# saw	1
# the	2
./mapred check --job words --max-skips 1 --out without pages.txt
# yes: 5 pairs, 1 left out
# left out 0 1
./mapred check --job words --out without pages.txt
# no: TooManySkips listed 1
