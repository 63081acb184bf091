# What tools/chart, tools/dump, tools/bus and tools/capture have in common; sourced by them, which say `does`, the verb of their help.
# Runs the program of the caller's name and of a chip's kind on a run file or on a readable text, which tools/mkrun turns into one; builds it first where it is not there.
# A caller that says `takes`, the files of its help, and `crate`, its program, takes these as they are, and no kind.
set -euo pipefail
name=$(basename "$0")
top=$(cd "$(dirname "$0")/.." && pwd)

wrong() {
    echo "tools/$name: $1" >&2
    exit 2
}

files=() said=()
while [ $# -gt 0 ]; do
    case $1 in
    -h | --help)
        echo "usage: tools/$name ${takes:-[--kind 6569 | --kind 6567R8] [FILE.run | FILE.txt]}   (no file: standard input)"
        echo "$does"
        [ -n "${takes-}" ] || echo "A text may say its kind itself, by \`chip KIND\`; what says none is run on a 6569."
        exit 0
        ;;
    --kind)
        [ $# -gt 1 ] || wrong "--kind wants a kind: 6569 or 6567R8"
        said=(--kind "$2")
        shift
        ;;
    --kind=*) said=(--kind "${1#*=}") ;;
    -*) wrong "$1 is no option; see --help" ;;
    *) files+=("$1") ;;
    esac
    shift
done
if [ -n "${takes-}" ] && [ ${#said[@]} -gt 0 ]; then wrong "--kind is no option; see --help"; fi
[ ${#files[@]} -le 1 ] || wrong "one file at most; see --help"
for file in "${files[@]}"; do
    if [ ! -r "$file" ] || [ -d "$file" ]; then wrong "$file cannot be read"; fi
done

# A kind has a program of its own.
choose() {
    case ${1^^} in
    6569) crate=$name ;;
    6567R8) crate=${name}_ntsc ;;
    *) wrong "\`$1\` is no kind of chip: 6569 or 6567R8" ;;
    esac
}
if [ -z "${takes-}" ]; then
    choose "${said[1]-6569}"
    case ${files[0]-} in
    *.txt)
        # made first, so that nothing is proved for a text with a fault, and nothing is written
        made=$(mktemp)
        trap 'rm -f "$made"' EXIT
        kind=$("$top/tools/mkrun" "${said[@]}" --print-kind -o "$made" "${files[0]}")
        choose "$kind"
        files=("$made")
        ;;
    esac
fi

program=$top/crates/$crate/out/$crate
if [ ! -x "$program" ]; then
    echo "tools/$name: proving and building the program first; that takes some minutes, once" >&2
    "$top/tools/prove" "$crate" </dev/null || exit 2
fi
machine=$(uname -m)
[ "$machine" = x86_64 ] || wrong "the program is x86-64 code, and this machine is $machine"

if [ ${#files[@]} -eq 1 ]; then "$program" <"${files[0]}"; else "$program"; fi
