# Completions of mtrecover in bash, which tools/pages writes.
_mtrecover() {
    local word=${COMP_WORDS[COMP_CWORD]} words=
    case $COMP_CWORD,${COMP_WORDS[1]},$word in
        1,*) words='report get history range dump shell audit check resume checkpoint forget records cut help --help --version' ;;
        2,help,*) words='report get history range dump shell audit check resume checkpoint forget records cut' ;;
        *,report,-*) words='--workers --files --file-bytes --verbose --progress --pieces --writers --json --strict --help' ;;
        *,get,-*) words='--workers --files --file-bytes --verbose --progress --pieces --json --text --exists --help' ;;
        *,history,-*) words='--workers --files --file-bytes --verbose --progress --pieces --json --text --help' ;;
        *,range,-*) words='--workers --files --file-bytes --verbose --progress --pieces --json --text --to --prefix --columns --help' ;;
        *,dump,-*) words='--workers --files --file-bytes --verbose --progress --pieces --json --text --count --no-value --help' ;;
        *,shell,-*) words='--workers --files --file-bytes --verbose --progress --pieces --strict --status --errors --help' ;;
        *,audit,-*) words='--workers --files --file-bytes --verbose --progress --json --help' ;;
        *,check,-*) words='--workers --files --file-bytes --verbose --progress --writers --json --chart --width --help' ;;
        *,resume,-*) words='--workers --files --file-bytes --verbose --progress --writers --json --strict --dry-run --no-logs --max-late --accept-loss --help' ;;
        *,checkpoint,-*) words='--workers --files --file-bytes --verbose --progress --writers --json --pieces --number --limit --max-late --accept-loss --help' ;;
        *,forget,-*) words='--workers --files --file-bytes --verbose --progress --json --help' ;;
        *,records,-*) words='--verbose --from --limit --key --at --json --stats --help' ;;
        *,cut,-*) words='--verbose --skip --header --below --end --output --json --help' ;;
    esac
    COMPREPLY=($(compgen -W "$words" -- "$word"))
}
complete -o default -F _mtrecover mtrecover
