. "$(dirname "$0")/../play.sh"
# Finds the lines that hold a literal, in either case, and tells the file and the place of each.
printf 'The cat saw the dog.\nThe dog saw nothing.\n' > lines.txt
mkdir found
./mapred seq --job grep --literal THE --fold --out found lines.txt
# done: 1 files, 2 pairs, 0 left out
cat found/part-00000
# The cat saw the dog.	0:0
# The dog saw nothing.	0:21
