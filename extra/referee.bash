# Completions of referee for bash: source this file, or put it into the folder of bash-completion under the name `referee`.
# extra/completions.py makes this file of the program's help. Do not change it by hand.
_referee() {
    local word=${COMP_WORDS[COMP_CWORD]} command="" options="" values="" i
    for ((i = 1; i < COMP_CWORD; i++)); do
        if [[ ${COMP_WORDS[i]} != -* ]]; then
            command=${COMP_WORDS[i]}
            break
        fi
    done
    case $command in
        "") options="-h --help -V --version" values="judge archive index audit fill explain repair compare page annotate build check word convert top tidy board serve rules help" ;;
        judge) options="--settle --json --first-field --skip-others --rules -h --help" ;;
        archive) options="--names -0 --null --skip --json --pages --repairs --progress --quiet --first-field --skip-others --rules -h --help" ;;
        index) options="-h --help" ;;
        audit) options="--corrected --json --first-field --skip-others --rules -h --help" ;;
        fill) options="--next --json --first-field --skip-others --rules -h --help" ;;
        explain) options="--draft --json --first-field --skip-others --rules -h --help" ;;
        repair) options="--number --repaired --draft --json --first-field --skip-others --rules -h --help" ;;
        compare) options="--merged --draft --json --first-field --skip-others --rules -h --help" ;;
        page) options="--first-field --skip-others --rules -h --help" ;;
        annotate) options="--top --first-field --skip-others --rules -h --help" ;;
        build) options="--first-field --skip-others -h --help" ;;
        check) options="--json --first-field --skip-others -h --help" ;;
        word) options="--each --first-field --skip-others -h --help" ;;
        convert) options="-h --help" ;;
        top) options="--number --before --json --first-field --skip-others --rules -h --help" ;;
        tidy) options="-h --help" ;;
        board) options="--before --draft --json --rules -h --help" ;;
        serve) options="--first-field --skip-others --rules -h --help" ;;
        rules) options="-h --help" ;;
        help) values="judge archive index audit fill explain repair compare page annotate build check word convert top tidy board serve rules help" ;;
    esac
    [[ $command != convert || ${COMP_WORDS[COMP_CWORD - 1]} != convert ]] || values="gad1 gad2"
    if [[ $word == -* ]]; then
        mapfile -t COMPREPLY < <(compgen -W "$options" -- "$word")
    elif [[ -n $values ]]; then
        mapfile -t COMPREPLY < <(compgen -W "$values" -- "$word")
    else
        case ${COMP_WORDS[COMP_CWORD - 1]} in
            --number | --top | --before) COMPREPLY=() ;;
            --pages) mapfile -t COMPREPLY < <(compgen -d -- "$word") ;;
            *) mapfile -t COMPREPLY < <(compgen -f -- "$word") ;;
        esac
    fi
}
complete -o filenames -F _referee referee
