. "$(dirname "$0")/../play.sh"
# Somebody changes one byte of a result; the judge tells where.
printf 'The cat saw the dog.\nThe dog saw nothing.\n' > story.txt
mkdir spoiled
./mapred seq --job words --out spoiled story.txt
# done: 1 files, 9 pairs, 0 left out
sed -i s/dog/fog/ spoiled/part-00000
./mapred check --job words --out spoiled story.txt
# no: OutputDiffers partition 0 at 6
