# Completion of irig's command line for bash: `source docs/irig.bash`.

# The options of the program and of each command.
declare -gA _irig_options=(
    [irig]='--help --version'
    [run]='--all --ports --help'
    [flatten]='--help'
    [blame]='--recorded= --help'
    [judge]='--channels= --glitch= --parity= --sense= --sbs= --zone= --threshold= --json --help'
    [frame]='--local= --pending= --dst --quality= --parity= --sense= --help'
    [read]='--parity= --sense= --sbs= --help'
    [explain]='--help'
    [help]=''
)

# The words that may stand behind an option's '='.
declare -gA _irig_words=(
    [--pending]='insert delete'
    [--parity]='even odd'
    [--sense]='add subtract'
    [--sbs]='check ignore'
)

# What `irig explain` takes beside the numbers and names of docs/FAULTS.md.
_irig_explained='voted held acquiring no-vote expired leap-guard jump range-end locked holdover
unlocked ok silence poor fault unspoken no-leap insert delete premises'

_irig() {
    local word=${COMP_WORDS[COMP_CWORD]} command=${COMP_WORDS[1]}
    ((COMP_CWORD > 1)) || command=irig
    COMPREPLY=()
    # bash splits words at '='
    if [[ ${COMP_WORDS[COMP_CWORD - 1]} == = ]]; then
        mapfile -t COMPREPLY < \
            <(compgen -W "${_irig_words[${COMP_WORDS[COMP_CWORD - 2]}]-}" -- "$word")
    elif [[ $word == = ]]; then
        mapfile -t COMPREPLY < <(compgen -W "${_irig_words[${COMP_WORDS[COMP_CWORD - 1]}]-}")
    elif [[ $word == -* ]]; then
        mapfile -t COMPREPLY < <(compgen -W "${_irig_options[$command]-}" -- "$word")
        [[ ${COMPREPLY-} != *= ]] || compopt -o nospace
    elif [[ $command == irig ]]; then
        mapfile -t COMPREPLY < \
            <(compgen -W 'run flatten blame judge frame read explain help' -- "$word")
    elif [[ $command =~ ^(run|flatten|blame|judge)$ ]]; then
        mapfile -t COMPREPLY < <(compgen -f -- "$word")
        compopt -o filenames
    elif [[ $command == explain ]]; then
        mapfile -t COMPREPLY < <(compgen -W "$_irig_explained" -- "$word")
    elif [[ $command == help ]]; then
        mapfile -t COMPREPLY < <(compgen -W 'run flatten blame judge frame read explain' -- "$word")
    fi
}

complete -F _irig irig
