. "$(dirname "$0")/../play.sh"
# Counts the resources that the lines of an access log request.
printf '10.0.0.1 - - [t] "GET /index.html HTTP/1.0" 200 17\n' > access.log
printf '10.0.0.2 - - [t] "GET /logo.png HTTP/1.0" 200 99\n' >> access.log
printf '10.0.0.1 - - [t] "GET /index.html HTTP/1.0" 304 0\n' >> access.log
mkdir visits
./mapred seq --job url --out visits access.log
# done: 1 files, 3 pairs, 0 left out
cat visits/part-00000
# /index.html	2
# /logo.png	1
