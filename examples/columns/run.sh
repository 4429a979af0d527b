. "$(dirname "$0")/../play.sh"
# Counts by a column: the status codes of a log, whose fields are between blanks, and the customers of a file of bills, between
# semicolons. A line with fewer fields counts nothing; an empty field is a key too.
printf 'h - - [t] "GET /a HTTP/1.0" 200 17\n' > access.log
printf 'h - - [t] "GET /b HTTP/1.0" 404 99\n' >> access.log
printf 'h - - [t] "GET /a HTTP/1.0" 200 17\n' >> access.log
mkdir codes
./mapred run --job field --field 8 --out codes access.log
# certified: 1 files, 3 pairs, 0 left out
cat codes/part-00000
# 200	2
# 404	1
./mapred explain --job field --field 8 --key 404 --out codes access.log
# access.log:2:35:h - - [t] "GET /b HTTP/1.0" 404 99
# 404: 1 pairs in 1 records
# agrees
printf '7;Smith;12\n8;;30\n9;Smith;5\ntotal\n' > bills
mkdir customers
./mapred seq --job field --field 2 --separator ';' --out customers bills
# done: 1 files, 3 pairs, 0 left out
cat customers/part-00000
# 	1
# Smith	2
./mapred check --job field --field 3 --separator ';' --out customers bills
# no: OtherJob
