# Made by share/make.py from what spt --help prints.
_spt() {
    local words='' word=${COMP_WORDS[COMP_CWORD]}
    if [ "$COMP_CWORD" = 1 ]; then
        mapfile -t COMPREPLY < <(compgen -W 'tree pairs matrix nearest check pack replay offers help --help --version' -- "$word")
        return
    fi
    case ${COMP_WORDS[COMP_CWORD - 1]} in
        --delta) words='mean' ;;
        --pred-bits) words='20 24 28 32' ;;
        --source) words='' ;;
        --sources) words='' ;;
        --target) words='' ;;
        --within) words='' ;;
        --workers) words='all' ;;
        *) words=none ;;
    esac
    if [ "$words" != none ]; then
        mapfile -t COMPREPLY < <(compgen -W "$words" -- "$word")
        return
    fi
    case ${COMP_WORDS[1]} in
        tree) words='--source --sources --within --delta --towards --both-ways --workers --far-ok --progress --pred-bits --output --help' ;;
        pairs) words='--routes --delta --towards --both-ways --workers --far-ok --progress --pred-bits --output --help' ;;
        matrix) words='--source --target --sources --delta --towards --both-ways --workers --far-ok --progress --pred-bits --output --help' ;;
        nearest) words='--source --sources --within --delta --towards --both-ways --workers --far-ok --progress --pred-bits --output --help' ;;
        check) words='--towards --both-ways --all --within --pred-bits --output --help' ;;
        pack) words='--towards --both-ways --workers --progress --pred-bits --output --help' ;;
        replay) words='--svg --pred-bits --output --help' ;;
        offers) words='--pred-bits --output --help' ;;
        *) words='' ;;
    esac
    case $word in
        -*) mapfile -t COMPREPLY < <(compgen -W "$words" -- "$word") ;;
        *) mapfile -t COMPREPLY < <(compgen -f -- "$word") ;;
    esac
}
complete -o filenames -F _spt spt
