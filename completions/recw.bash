# Completions of recw for bash.
# shellcheck shell=bash

# Of each command the kinds of its words: a file, files, a command, or a text that bash cannot tell; and its options,
# with the names of their values, or these. Written by `tests/options.py --write`.
# options begin
_recw_commands=(
    'eval file file'
    'serve file file'
    'trace file file'
    'aterm file'
    'share file'
    'match text file'
    'make text text'
    'check files'
    'uses file'
    'join files'
    'help command'
)
declare -A _recw_options=(
    [eval]='-e=TERM --input=TERM --terms-table --only-terms --term=N --join=FILE --steps=N --cells=C --memo=M --reclaim=K --depth=D --bytes=B --to-table --count --sizes --dot=N --nodes=N --limit-annotations --limit-status --stuck --profile --progress --explain'
    [serve]='--from-table --steps=N --cells=C --memo=M --reclaim=K --depth=D --bytes=B --to-table --count --explain'
    [trace]='-e=TERM --input=TERM --term=N --steps=N --cells=C --count --whole --width=W --first=N --last=N --rule=LINE:COL --symbol=NAME --rules --explain'
    [aterm]='--explain --indent=N --width=W --from-table --to-table --bytes=B'
    [share]='--explain --dot --nodes=N --from-table --to-table'
    [match]='--test --explain'
    [make]='--explain'
    [check]='--strict --join=FILE --format=gnu|json --explain'
    [uses]='--at=LINE:COL'
    [join]=''
)
_recw_topics=(refusals)
# options end

# Whether a word is an option of a command that takes a value.
_recw_takes_value() {
    [[ " ${_recw_options[${1:-none}]-} " == *" $2="* ]]
}

# Prints the kind of the word that is completed.
_recw_kind() {
    local entry index kinds=(command)
    for entry in "${_recw_commands[@]}"; do
        [[ ${entry%% *} != "$1" ]] || read -ra kinds <<<"$entry"
    done
    for ((index = 2; index < COMP_CWORD; index++)); do
        if _recw_takes_value "$1" "${COMP_WORDS[index]}"; then
            [[ ${COMP_WORDS[index + 1]} != '=' ]] || ((index += 1))
            ((index += 1))
            # the shell takes a colon as a word of its own
            [[ ${COMP_WORDS[index + 1]} != ':' ]] || ((index += 2))
        elif [[ ${COMP_WORDS[index]} != -* ]]; then
            kinds=("${kinds[@]:1}")
        fi
    done
    if ((index > COMP_CWORD)) && [[ ${COMP_WORDS[COMP_CWORD - 1]} == --join ]]; then
        echo file
    elif ((index > COMP_CWORD)); then
        echo value
    elif [[ ${kinds[1]-} == files || $1 == check || $1 == join ]]; then
        echo file
    else
        echo "${kinds[1]-none}"
    fi
}

# Prints the values of the option before the word that is completed, if they have names.
_recw_values() {
    local option before=${COMP_WORDS[COMP_CWORD - 1]}
    if [[ $before == '=' ]]; then before=${COMP_WORDS[COMP_CWORD - 2]}; fi
    for option in ${_recw_options[${1:-none}]-}; do
        if [[ $option == "$before="*'|'* ]]; then option=${option#*=} && echo "${option//|/ }"; fi
    done
}

_recw() {
    local word=${COMP_WORDS[COMP_CWORD]} command=${COMP_WORDS[1]} kind=command choices=(--help) option
    local commands=("${_recw_commands[@]%% *}")
    if ((COMP_CWORD > 1)); then kind=$(_recw_kind "$command"); fi
    for option in ${_recw_options[${command:-none}]-}; do choices+=("${option%%=*}"); done
    if ((COMP_CWORD == 1)); then choices+=(--version); fi
    if ((COMP_CWORD == 2)) && [[ $command == help ]]; then commands+=("${_recw_topics[@]}"); fi
    COMPREPLY=()
    if [[ $kind == value ]]; then
        mapfile -t COMPREPLY < <(compgen -W "$(_recw_values "$command")" -- "${word#=}")
    elif [[ $word == -* ]]; then
        mapfile -t COMPREPLY < <(compgen -W "${choices[*]}" -- "$word")
    elif [[ $kind == command ]]; then
        mapfile -t COMPREPLY < <(compgen -W "${commands[*]}" -- "$word")
    elif [[ $kind == file ]]; then
        compopt -o filenames 2>/dev/null
        mapfile -t COMPREPLY < <(compgen -f -- "$word")
    fi
}

complete -F _recw recw
