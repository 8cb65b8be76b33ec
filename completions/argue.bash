# Completion of argue for bash: to be read by a shell (source), or put where bash-completion looks.
_argue() {
    local word=${COMP_WORDS[COMP_CWORD]} before=${COMP_WORDS[COMP_CWORD - 1]} options
    local tasks="DC-CO DC-GR DC-PR DC-ST DC-SST DC-ID DC-STG DS-CO DS-GR DS-PR DS-ST DS-SST DS-ID DS-STG
        SE-CO SE-GR SE-PR SE-ST SE-SST SE-ID SE-STG EE-CO EE-PR EE-ST EE-SST EE-STG"
    COMPREPLY=()
    case ${COMP_WORDS[1]} in
        check) options="-p -a -f -r -c" ;;
        live) options="-f -s -b -c" ;;
        bench) options="-n -x" ;;
        names) options="-p -k -a -f -b -c" ;;
        af) options="-k -f" ;;
        lrat) options="-d -l" ;;
        export) options="-p -a -f -r -c -i -o" ;;
        *) options="-p -a -f -b -c" ;;
    esac
    case $before in
        -p) COMPREPLY=($(compgen -W "$tasks" -- "$word")) ;;
        -k) COMPREPLY=($(compgen -W "apx tgf" -- "$word")) ;;
        -f | -r | -s | -c | -d | -l | -o)
            local IFS=$'\n'
            compopt -o filenames 2>/dev/null
            COMPREPLY=($(compgen -f -- "$word"))
            ;;
        -a | -b | -n | -x | -i) ;;
        *)
            [ "$COMP_CWORD" -ne 1 ] ||
                options="$options check live bench names af lrat export --problems --help --version"
            COMPREPLY=($(compgen -W "$options" -- "$word"))
            ;;
    esac
}
complete -F _argue argue ./argue
