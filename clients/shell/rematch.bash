# Completion of rematch and of the commands beside it in bash: options that are still open, forms, query
# files and documents.

_rematch_files() {
    compopt -o filenames 2>/dev/null
    local IFS=$'\n'
    COMPREPLY=($(compgen -f "$@" -- "$word") $(compgen -d -- "$word"))
}

_rematch_words() {
    COMPREPLY=($(compgen -W "$1" -- "$word"))
}

# The options of the list that the command line does not have yet, of those that exclude each other.
_rematch_open() {
    local option open=
    for option in $1; do
        [[ " ${COMP_WORDS[*]:0:COMP_CWORD} " == *" $option "* ]] || open+=" $option"
    done
    case " ${COMP_WORDS[*]:0:COMP_CWORD} " in
        *' -e '*|*' -q '*) open=${open/ -e/} open=${open/ -q/} ;;
    esac
    _rematch_words "$open"
}

_rematch() {
    local word=${COMP_WORDS[COMP_CWORD]} before=${COMP_WORDS[COMP_CWORD-1]}
    COMPREPLY=()
    case $before in
        -f) _rematch_words 'spans table json'; return ;;
        -q) _rematch_files -X '!*.query'; return ;;
        -a) _rematch_words start; return ;;
        -e|-n|--max-table|--trial) return ;;
    esac
    case $word in
        -*) _rematch_open '-e -q -n -a -f -t --filter --max-table --explain --trial --serve' ;;
        *) _rematch_files ;;
    esac
}

_rematch_to_options=$(printf '%s ' \
    -e -q -a --words --pattern-file -r --glob --files-from --no-head --head -o --quiet --silent --filter --max-table --jobs -n --var --columns -t --texts --context --characters --sort \
    --sample --sentence --color -C -v --line-numbers --rows --lines --forward --iupac --circular --prosite --sorted --strand-once --encoding --normal --frames \
    --most-rows --expanded --from-start --state --idle --version --help)

_rematch_to() {
    local word=${COMP_WORDS[COMP_CWORD]} before=${COMP_WORDS[COMP_CWORD-1]}
    COMPREPLY=()
    case $before in
        -q) _rematch_files -X '!*.query'; return ;;
        -o|--words|--pattern-file|--state|--files-from) _rematch_files; return ;;
        --sort) _rematch_words 'left right word'; return ;;
        --color) _rematch_words 'auto always never'; return ;;
        -e|--glob|--max-table|--jobs|-n|--var|--columns|--context|--sample|-C|--most-rows|--idle) return ;;
    esac
    case $word in
        -*) _rematch_open "$_rematch_to_options" ;;
        *) if [[ $COMP_CWORD == 1 ]]; then _rematch_words 'csv tsv json parquet kwic lines any freq bed gff fasta ann html count follow check why diff sql'; else _rematch_files; fi ;;
    esac
}

_rematch_piece() {
    local word=${COMP_WORDS[COMP_CWORD]}
    COMPREPLY=()
    case $COMP_CWORD in
        1) _rematch_files -X '!*.query' ;;
        2) _rematch_files ;;
    esac
}

_rematch_cut() {
    local word=${COMP_WORDS[COMP_CWORD]}
    COMPREPLY=()
    [[ $COMP_CWORD != 1 ]] || _rematch_files
}

_rematch_play() {
    local word=${COMP_WORDS[COMP_CWORD]} before=${COMP_WORDS[COMP_CWORD-1]}
    COMPREPLY=()
    case $before in
        -q) _rematch_files -X '!*.query'; return ;;
        -e|--port|--memory) return ;;
    esac
    case $word in
        -*) _rematch_open '-e -q --port --memory --open --help' ;;
        *) _rematch_files ;;
    esac
}

_rematch_serve() {
    local word=${COMP_WORDS[COMP_CWORD]} before=${COMP_WORDS[COMP_CWORD-1]}
    COMPREPLY=()
    [[ $before == --seconds || $before == --memory ]] || _rematch_open '--seconds --memory --version --help'
}

complete -F _rematch rematch
complete -F _rematch_to rematch-to
complete -F _rematch_piece rematch-piece
complete -F _rematch_cut rematch-cut
complete -F _rematch_play rematch-play
complete -F _rematch_serve rematch-serve
