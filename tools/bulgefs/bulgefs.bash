# Completion for bash: source this file, or put it as "bulgefs" into the folder of bash completions.

# Words of a list of lines that begin with what is typed.
_bulgefs_words() {
    local IFS=$'\n'
    mapfile -t COMPREPLY < <(compgen -W "$1" -- "$2")
}

_bulgefs_files() {
    compopt -o filenames 2>/dev/null
    mapfile -t COMPREPLY < <(compgen -f -- "$1")
}

# The entries of the directory that the path typed so far leads to.
_bulgefs_paths() {
    local volume=$1 typed=$2 folder name path
    local -a names=()
    [[ $typed == /* ]] || typed=/
    folder=${typed%/*}
    COMPREPLY=()
    while IFS= read -r name; do
        path=$folder/${name##*/}
        [[ $name == */ ]] && name=${name%/} && path=$folder/${name##*/}/
        [[ $path == "$typed"* ]] && names+=("$(printf '%q' "$path")")
    done < <(bulgefs ls --wait 0 "$volume" "${folder:-/}" 2>/dev/null)
    compopt -o nospace 2>/dev/null
    COMPREPLY=("${names[@]}")
}

# The files of the root whose names are serial numbers; after a '/', the paths of the volume.
_bulgefs_boxes() {
    local name names=''
    [[ $2 == /* ]] && _bulgefs_paths "$1" "$2" && return
    while IFS= read -r name; do
        [[ $name =~ ^[A-Za-z0-9]{1,16}$ ]] && names+=$name$'\n'
    done < <(bulgefs ls --wait 0 "$1" 2>/dev/null)
    _bulgefs_words "$names" "$2"
}

# What may stand after the command: its number of plain words so far says which.
_bulgefs_argument() {
    local command=$1 volume=$2 count=$3 typed=$4
    case $command:$count in
    *:0 | import:* | export:* | put:2 | get:2 | salvage:1 | extract:1 | report:1 | diff:1 | attr:3 | settings:3) _bulgefs_files "$typed" ;;
    ls:1 | info:1 | cat:1 | get:1 | put:1 | mv:1 | mv:2 | rm:* | mkdir:1 | rmdir:* | attr:1) _bulgefs_paths "$volume" "$typed" ;;
    settings:1 | history:1) _bulgefs_boxes "$volume" "$typed" ;;
    settings:2) _bulgefs_words $'put\nget' "$typed" ;;
    attr:2) _bulgefs_words $'get\nset\nclear' "$typed" ;;
    esac
}

_bulgefs_options() {
    case $1 in
    format) _bulgefs_words $'--root\n--name\n--uuid\n--journal\n--help' "$2" ;;
    back) _bulgefs_words $'--all\n--dry-run\n--help' "$2" ;;
    extract) _bulgefs_words $'--damaged\n--help' "$2" ;;
    redo) _bulgefs_words $'--all\n--help' "$2" ;;
    put | get) _bulgefs_words $'-r\n--help' "$2" ;;
    mkdir) _bulgefs_words $'-p\n--help' "$2" ;;
    ls) _bulgefs_words $'-l\n-R\n--help' "$2" ;;
    map) _bulgefs_words $'--all\n--svg\n--help' "$2" ;;
    '') _bulgefs_words $'--json\n--wait\n--help\n--version' "$2" ;;
    *) _bulgefs_words $'--json\n--wait\n--help' "$2" ;;
    esac
}

_bulgefs() {
    local typed=${COMP_WORDS[COMP_CWORD]} before=${COMP_WORDS[COMP_CWORD - 1]} command='' volume='' count=0 i
    COMPREPLY=()
    for ((i = 1; i < COMP_CWORD; i++)); do
        case ${COMP_WORDS[i]} in
        --wait | --root | --name | --uuid | --journal | --svg) i=$((i + 1)) ;;
        -?*) ;;
        *)
            if [[ -z $command ]]; then
                command=${COMP_WORDS[i]}
            else
                [[ -n $volume ]] || volume=${COMP_WORDS[i]}
                count=$((count + 1))
            fi
            ;;
        esac
    done
    case $before in
    --svg) _bulgefs_files "$typed" && return ;;
    --wait | --root | --name | --uuid | --journal) return ;;
    esac
    if [[ $typed == -?* ]]; then
        _bulgefs_options "$command" "$typed"
    elif [[ -z $command ]]; then
        _bulgefs_words $'format\nimport\nexport\nls\ninfo\ncheck\ncat\nget\nput\nmv\nrm\nmkdir\nrmdir\nattr\nsettings\nhistory\nstart\ngrow\nlog\nback\nredo\nsalvage\nextract\nmap\nreport\ndiff' "$typed"
    else
        _bulgefs_argument "$command" "$volume" "$count" "$typed"
    fi
}

complete -F _bulgefs bulgefs
