# Completion of the program `reports` for bash: source this file, or put it where bash looks for completions.

_reports() {
    local word=${COMP_WORDS[COMP_CWORD]} before=${COMP_WORDS[COMP_CWORD - 1]}
    local place file="" command="" options="--wait --memory --help --version"
    COMPREPLY=()

    # The file is the first word that is no option and no value of one; the command is the next.
    for ((place = 1; place < COMP_CWORD; place++)); do
        case ${COMP_WORDS[place]} in
            --wait | --memory) ((place++)) ;;
            -*) ;;
            *)
                if [ -z "$file" ]; then
                    file=${COMP_WORDS[place]}
                elif [ -z "$command" ]; then
                    command=${COMP_WORDS[place]}
                fi
                ;;
        esac
    done

    case $before in
        --wait | --memory | --from | --limit | --expect) return ;;
    esac

    if [ -n "$file" ] && [ -z "$command" ] && [[ $word != -* ]]; then
        local commands="new report find all show last import export info verify recover"
        mapfile -t COMPREPLY < <(compgen -W "$commands" -- "$word")
        return
    fi
    case $command in
        report) options+=" --expect" ;;
        find | all) options+=" --from --limit" ;;
        import) options+=" --all-or-nothing --keep-numbers" ;;
        export) options+=" --frames" ;;
    esac
    if [[ $word == -* ]]; then
        mapfile -t COMPREPLY < <(compgen -W "$options" -- "$word")
        return
    fi
    case $command in
        "" | import | recover)
            mapfile -t COMPREPLY < <(compgen -f -- "$word")
            # A name with a space is quoted, and a folder ends with a slash.
            compopt -o filenames 2> /dev/null || true
            ;;
    esac
}

complete -F _reports reports
