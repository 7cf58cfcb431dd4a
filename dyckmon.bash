# Completion of dyckmon's commands in bash: source dyckmon.bash

# Made from dyckmon --help by .ci/manual.py.
declare -gA _dyckmon_words=(
    [audit]='FILE RESULTS TURNS K'
    [certify]='MODEL TRACE WHICH'
    [check]='FILE'
    [codes]=''
    [confirm]='MODEL TRACE CERTIFICATE'
    [depth]='MODEL'
    [expected]='MODEL TRACE WHICH [K]'
    [explain]='FILE'
    [fleet]='SCHEDULE WHICH'
    [inline]='MODEL'
    [instrument]='FILE'
    [judge]='MODEL TRACE WHICH [K]'
    [measure]='MODEL TRACE WHICH'
    [model]='FILE'
    [picture]='MODEL'
    [run]='FILE RESULTS TURNS'
    [selftest]='NUMBER SIZE'
    [sites]='FILE'
    [upgrade]='MODEL'
    [watch]='MODEL TRACES WHICH [K]'
)
# The end of what is made.

# Completes a command by its name, WHICH by the names of the models, no number, and each other word by the names of
# files.
_dyckmon() {
    local current=${COMP_WORDS[COMP_CWORD]} words kind
    COMPREPLY=()
    if [ "$COMP_CWORD" -eq 1 ]; then
        mapfile -t COMPREPLY < <(compgen -W "--help --version ${!_dyckmon_words[*]}" -- "$current")
        return
    fi
    read -ra words <<<"${_dyckmon_words[${COMP_WORDS[1]}]-}"
    kind=${words[COMP_CWORD - 2]-}
    case ${kind//[][]/} in
    '' | K | TURNS | NUMBER | SIZE) ;;
    WHICH) mapfile -t COMPREPLY < <(compgen -W 'callgraph stack dyck all' -- "$current") ;;
    *)
        compopt -o filenames 2>/dev/null
        mapfile -t COMPREPLY < <(compgen -f -- "$current")
        ;;
    esac
}

complete -F _dyckmon dyckmon ./dyckmon
