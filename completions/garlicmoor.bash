# Completion of the words of garlicmoor for bash: source this file. Made by tools/options.

_garlicmoor_files() {
    # Folders, and files with one of these endings; all files without any.
    local file ending
    compopt -o filenames 2>/dev/null
    COMPREPLY=()
    while IFS= read -r file; do
        if [[ $# -eq 0 || -d $file ]]; then COMPREPLY+=("$file"); fi
        for ending in "$@"; do
            if [[ ! -d $file && ${file,,} == *."$ending" ]]; then COMPREPLY+=("$file"); fi
        done
    done < <(compgen -f -- "$current")
}

_garlicmoor_words() {
    mapfile -t COMPREPLY < <(compgen -W "$*" -- "$current")
}

_garlicmoor() {
    local current=${COMP_WORDS[COMP_CWORD]} before=${COMP_WORDS[COMP_CWORD - 1]}
    COMPREPLY=()
    if [[ $COMP_CWORD -eq 1 ]]; then
        _garlicmoor_words build replay selftest volinfo
        return
    fi
    case ${COMP_WORDS[1]} in
    build)
        case $before in
        -p | --platform) _garlicmoor_files dsc ;;
        -a | --arch) _garlicmoor_words IA32 X64 ARM AARCH64 RISCV64 LOONGARCH64 EBC ;;
        -b | --buildtarget) _garlicmoor_words DEBUG RELEASE NOOPT ;;
        -t | --tagname) _garlicmoor_words GCC ;;
        -x | --sku-id) : ;;
        -D | --define) : ;;
        --pcd) : ;;
        -f | --fdf) _garlicmoor_files fdf ;;
        -r | --rom-image) : ;;
        -i | --fv-image) : ;;
        -y | --report-file) _garlicmoor_files ;;
        -n) _garlicmoor_words {1..64} ;;
        *) _garlicmoor_words -p --platform -a --arch -b --buildtarget -t --tagname -x --sku-id -D --define --pcd -f --fdf -r --rom-image -i --fv-image -y --report-file -n ;;
        esac
        ;;
    replay) if [[ $COMP_CWORD -eq 2 ]]; then _garlicmoor_files; fi ;;
    selftest) if [[ $COMP_CWORD -eq 2 ]]; then :; fi ;;
    volinfo) if [[ $COMP_CWORD -eq 2 ]]; then _garlicmoor_files; fi ;;
    esac
}

complete -F _garlicmoor garlicmoor
