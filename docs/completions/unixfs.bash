# Completions of bash for unixfs. Made by checks/pages.py.
_unixfs() {
    local current=${COMP_WORDS[COMP_CWORD]} last=${COMP_WORDS[COMP_CWORD - 1]} first=${COMP_WORDS[1]} words='' host=0
    COMPREPLY=()
    if [ "$COMP_CWORD" -eq 1 ]; then
        mapfile -t COMPREPLY < <(compgen -W 'init add cat get dag pin repo prove check pull serve batch gen files' -- "$current")
        return
    fi
    case $first in
    dag) words='export import same' ;;
    pin) words='add rm ls' ;;
    repo) words='gc' ;;
    files) words='mkdir ls stat read write truncate cp mv rm chmod touch strip' ;;
    esac
    if [ -n "$words" ]; then
        if [ "$COMP_CWORD" -eq 2 ]; then
            mapfile -t COMPREPLY < <(compgen -W "$words" -- "$current")
            return
        fi
        first="$first ${COMP_WORDS[2]}"
    fi
    words=''
    case $first in
    'init') words='--chunk --width --threshold' host=0 ;;
    'add') words='-r --recursive -n --only-hash --to-files' host=1 ;;
    'cat') words='' host=0 ;;
    'get') words='' host=1 ;;
    'dag export') words='' host=0 ;;
    'dag import') words='' host=0 ;;
    'dag same') words='' host=0 ;;
    'pin add') words='' host=0 ;;
    'pin rm') words='' host=0 ;;
    'pin ls') words='' host=0 ;;
    'repo gc') words='' host=0 ;;
    'prove') words='--absent' host=0 ;;
    'check') words='--absent' host=0 ;;
    'pull') words='' host=0 ;;
    'serve') words='' host=0 ;;
    'batch') words='' host=0 ;;
    'gen') words='' host=0 ;;
    'files mkdir') words='-p --parents' host=0 ;;
    'files ls') words='-l --long' host=0 ;;
    'files stat') words='' host=0 ;;
    'files read') words='-o --offset -n --count' host=0 ;;
    'files write') words='-o --offset -e --create -t --truncate -x --hex' host=0 ;;
    'files truncate') words='' host=0 ;;
    'files cp') words='' host=0 ;;
    'files mv') words='' host=0 ;;
    'files rm') words='-r --recursive' host=0 ;;
    'files chmod') words='' host=0 ;;
    'files touch') words='--nanos' host=0 ;;
    'files strip') words='' host=0 ;;
    esac
    case $last in
    --chunk | --count | --hex | --nanos | --offset | --threshold | --to-files | --width | -n | -o | -x) [ "$first $last" = 'add -n' ] || return ;;
    esac
    case $current in
    -*) mapfile -t COMPREPLY < <(compgen -W "$words" -- "$current") ;;
    *) if [ "$host" -eq 1 ]; then compopt -o filenames 2> /dev/null; mapfile -t COMPREPLY < <(compgen -f -- "$current"); fi ;;
    esac
}
complete -F _unixfs unixfs
