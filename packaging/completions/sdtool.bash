# Completion of sdtool for bash.
_sdtool() {
    local current=${COMP_WORDS[COMP_CWORD]} previous=${COMP_WORDS[COMP_CWORD - 1]} command=${COMP_WORDS[1]}
    COMPREPLY=()
    if ((COMP_CWORD == 1)); then
        mapfile -t COMPREPLY < <(compgen -W 'convert explain check derive help --help' -- "$current")
        return
    fi
    case $previous in
        --from | --to) mapfile -t COMPREPLY < <(compgen -W 'hex base64 sddl' -- "$current"); return ;;
        --type) mapfile -t COMPREPLY < <(compgen -W 'file key ds' -- "$current"); return ;;
        --level) mapfile -t COMPREPLY < <(compgen -W '4096 8192 8448 12288 16384' -- "$current"); return ;;
        --kind) mapfile -t COMPREPLY < <(compgen -W 'file container' -- "$current"); return ;;
        --domain | --token | --want | --object | --self | --owner | --group | --creator) return ;;
    esac
    local options=''
    case $command in
        convert) options='--from --to --domain --numeric --help' ;;
        explain) options='--from --domain --numeric --help' ;;
        check) options='--from --domain --token --want --maximum --type --object --self --security --take-ownership --level --help' ;;
        derive) options='--from --to --domain --numeric --kind --owner --group --type --creator --help' ;;
        help) ((COMP_CWORD == 2)) && options='convert explain check derive' ;;
    esac
    mapfile -t COMPREPLY < <(compgen -W "$options" -- "$current")
}
complete -F _sdtool sdtool
