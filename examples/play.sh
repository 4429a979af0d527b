# Sourced by an example in its first line. Plays the script that sources it: runs each command in a new directory, prints
# it with its output, and fails at the first whose output is not the lines `# ...` below it, or at the first file of the
# example's `wanted/` that the commands leave otherwise. The program is $MAPRED, or `mapred` of this repository.
top=$(cd "$(dirname "${BASH_SOURCE[0]}")/.." && pwd)
script=$(realpath "$0")
wanted=$(dirname "$script")/wanted
export MAPRED="${MAPRED:-$top/mapred}"
place=$(mktemp -d)
trap 'rm -rf "$place"' EXIT
ln -s "$MAPRED" "$place/mapred"
ln -s "$top/engines" "$place/engines"
cd "$place"
# In a fresh clone the first command says which program it runs: no example shows that.
"$MAPRED" --version >"$place/mapred.log" 2>&1 || cat "$place/mapred.log" >&2
rm -f "$place/mapred.log"
command='' shown='' many=0
# Runs the command that was read last, and compares what it prints with the lines below it.
finish() {
    [ -n "$command" ] || return 0
    local printed
    printed=$(bash -c "$command" 2>&1)
    printf '%s\n' "$command" ${printed:+"$printed"}
    if [ "$printed" != "$shown" ]; then
        printf 'The example shows:\n%s\n' "$shown" >&2
        exit 1
    fi
    command='' shown='' many=$((many + 1))
}
while IFS= read -r line || [ -n "$line" ]; do
    case $line in
        '#' | '# '*)
            line=${line#'#'}
            [ -z "$command" ] || shown+=${shown:+$'\n'}${line# }
            ;;
        '' | '. '*) ;;
        *)
            finish
            command=$line
            ;;
    esac
done <"$script"
finish
if [ -d "$wanted" ]; then
    while IFS= read -r file; do
        cmp "$wanted/$file" "$file" || exit 1
    done < <(cd "$wanted" && find . -type f | sort)
fi
[ "$many" -gt 0 ] || exit 1
exit 0
