#compdef bulgefs
# Completion for zsh: put this file as "_bulgefs" into a folder of fpath.

# The entries of the folder of a volume that the path typed so far leads to.
_bulgefs_paths() {
    local folder=${PREFIX%/*} name
    local -a found
    for name in "${(@f)$(bulgefs ls --wait 0 $volume ${folder:-/} 2>/dev/null)}"; do
        [[ -n $name ]] && found+=("$folder/$name")
    done
    compadd -S '' -a found
}

_bulgefs_argument() {
    case $1:$2 in
    import:*|*:0|put:2|get:2|salvage:1|extract:1|report:1|diff:1|export:*|attr:3|settings:3) _files ;;
    ls:1|info:1|cat:1|get:1|put:1|mv:*|rm:*|mkdir:1|rmdir:*|attr:1|settings:1|history:1) _bulgefs_paths ;;
    settings:2) compadd put get ;;
    attr:2) compadd get set clear ;;
    esac
}

_bulgefs_options() {
    compadd -- --json --wait --help
    case $1 in
    '') compadd -- --version ;;
    format) compadd -- --root --name --uuid --journal ;;
    ls) compadd -- -l -R ;;
    put|get) compadd -- -r ;;
    mkdir) compadd -- -p ;;
    back) compadd -- --all --dry-run ;;
    redo) compadd -- --all ;;
    extract) compadd -- --damaged ;;
    map) compadd -- --all --svg ;;
    esac
}

_bulgefs() {
    local command='' volume='' count=0 i
    for ((i = 2; i < CURRENT; i++)); do
        case $words[i] in
        --wait|--root|--name|--uuid|--journal|--svg) ((i++)) ;;
        -?*) ;;
        *)
            if [[ -z $command ]]; then
                command=$words[i]
            else
                [[ -n $volume ]] || volume=$words[i]
                ((count++))
            fi ;;
        esac
    done
    if [[ $PREFIX == -* ]]; then
        _bulgefs_options "$command"
    elif [[ -z $command ]]; then
        compadd format import export ls info check cat get put mv rm mkdir rmdir attr settings history start grow log back redo salvage extract map \
            report diff
    else
        _bulgefs_argument "$command" "$count"
    fi
}

_bulgefs "$@"
