. "$(dirname "$0")/../play.sh"
# Counts the resources that a proxy's log requests, those of one host in one output file.
printf 'h - - [t] "GET http://a/x HTTP/1.0" 200 17\n' > proxy.log
printf 'h - - [t] "GET /z HTTP/1.0" 200 99\n' >> proxy.log
printf 'h - - [t] "GET http://A/y HTTP/1.0" 304 0\n' >> proxy.log
mkdir hosts
./mapred seq --job url --by-host --parts 2 --out hosts proxy.log
# done: 2 files, 3 pairs, 0 left out
cat hosts/part-00000
# http://A/y	1
# http://a/x	1
cat hosts/part-00001
# /z	1
./mapred check --job url --by-host --parts 2 --out hosts proxy.log
# yes: 3 pairs, 0 left out
./mapred check --job url --parts 2 --out hosts proxy.log
# no: OtherJob
