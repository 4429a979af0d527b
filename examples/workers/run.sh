. "$(dirname "$0")/../play.sh"
# Three splits for four workers, one of which is lost behind its first report: the result is certified all the same, and
# the judge says yes to it. Where a worker's output is spoiled, nothing is written. What map tasks give may lie in
# files. A run can be drawn, and so can its history.
printf 'The cat saw the dog.\nThe dog saw nothing.\n' > night.txt
mkdir counted refused
printf 'lose 0 after 1\n' > losses
./mapred run --job words --parts 2 --split 16 --workers 4 --script losses --picture lost.html --out counted night.txt
# certified: 2 files, 9 pairs, 0 left out
./mapred check --job words --parts 2 --split 16 --out counted night.txt
# yes: 9 pairs, 0 left out
printf 'spoil 1 0\n' > damage
./mapred run --job words --parts 2 --split 16 --script damage --out refused night.txt
# uncertified: OutputDiffers partition 1 at 0
ls refused
mkdir regions
./mapred run --job words --parts 2 --scratch regions --out counted night.txt
# certified: 2 files, 9 pairs, 0 left out
rm regions/region*
mkdir alone
./mapred run --job words --workers 1 --history events --out alone night.txt
# certified: 1 files, 9 pairs, 0 left out
cat events
# history 1 maps 1 parts 1 workers 1 attempts 8 skips 0
# ask 0: map attempt 0 split 0
# map-done attempt 0 output 1: accepted
# ask 0: reduce attempt 1 partition 0
# fetch attempt 1 split 0: output 1
# reduce-done attempt 1 output 4: accepted
# ask 0: stop done
./mapred picture events --out night.html
# drawn: 6 events
grep -c 'R0' night.html
# 1
