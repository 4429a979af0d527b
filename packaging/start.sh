# How the program is started, in the words of any shell: ./mapred and the installed `mapred` read this.

# Names in `missing` what the program needs and this machine lacks: Linux, and a processor of x86-64-v2 (most since 2009).
find_missing() {
    missing="" flags=""
    if [ -r /proc/cpuinfo ]; then
        while read -r word _ flags && [ "$word" != flags ]; do :; done </proc/cpuinfo
    fi
    for flag in cx16 lahf_lm popcnt pni sse4_1 sse4_2 ssse3; do
        case " $flags " in
        *" $flag "*) ;;
        *) missing="$missing $flag" ;;
        esac
    done
}

# Sees that this machine can run the program, else says so and ends with status 125; and has the C library ask for memory in pages
# of 2 MiB, unless the user says otherwise: the judge looks names up all over it.
prepare() {
    find_missing
    if [ -n "$missing" ]; then
        echo "mapred: the program is for Linux on x86-64-v2, and the processor of this machine ($(uname -sm)) lacks$missing" >&2
        exit 125
    fi
    export GLIBC_TUNABLES="${GLIBC_TUNABLES-glibc.malloc.hugetlb=1}"
}
