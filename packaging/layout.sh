# What is installed, for ./install and ./package: start.sh has how the program is started.

# The C library that the program needs, at least of this version.
libc=2.34

# The files below a prefix, each with what it is made of.
files() {
    cat <<'LIST'
bin/mapred packaging/mapred
lib/mapred/mapred program
lib/mapred/start.sh packaging/start.sh
share/man/man1/mapred.1 dist/mapred.1
share/bash-completion/completions/mapred dist/completions/mapred.bash
share/zsh/site-functions/_mapred dist/completions/_mapred
share/fish/vendor_completions.d/mapred.fish dist/completions/mapred.fish
LIST
}

# Puts the files below the prefix $1, the program being $2.
put_files() {
    local to from mode
    while read -r to from; do
        mode=644
        case $to in bin/mapred | lib/mapred/mapred) mode=755 ;; esac
        [ "$from" != program ] || from=$2
        install -D -m "$mode" "$from" "$1/$to"
    done < <(files)
}
