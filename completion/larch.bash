# Completion of larch's words in bash: source this file, or put it as `larch` into a folder that bash-completion reads,
# such as ~/.local/share/bash-completion/completions.
#
# Files are those of the working folder, or of the folder that the word begins with, and the folders there. The labels
# are those of the duties that `larch obligations` lists for the trait; where the program isn't on the path, or doesn't
# answer, one of each kind. Codes are those that `larch explain` lists. Options are offered behind a `-`.

# The names of files with one of these endings that a call takes, a line each.
_larch_files() {
    local place=${current%"${current##*/}"} ending file
    for ending; do
        for file in "$place"*."$ending"; do
            [[ -f $file && ${file##*/} =~ ^[A-Za-z0-9_]{1,64}\.[a-z]+$ ]] && printf '%s\n' "$file"
        done
    done
}

_larch_folders() {
    compgen -d -S / -- "$current"
}

# The labels of the duties of a trait.
_larch_labels() {
    local program listed status files
    mapfile -t files < <(_larch_files lsl)
    if program=$(type -P larch) && (( ${#files[@]} > 0 )); then
        listed=$("$program" obligations "${files[@]}" 2>/dev/null </dev/null)
        status=$?
        if (( status <= 1 )); then
            awk -v trait="$1" '/^trait / { here = $2 == trait } here && /^(assume|imply|convert)\./ { print $1 }' \
                <<<"$listed"
            return
        fi
    fi
    printf '%s\n' assume.1 imply.1 convert.1
}

# The codes that can be explained.
_larch_codes() {
    local program
    program=$(type -P larch) && "$program" explain 2>/dev/null </dev/null | grep -E '^[A-Z-]+$'
}

_larch_options() {
    [[ $current == -* ]] && printf '%s\n' "$@"
}

# The words that may stand behind these words.
_larch_next() {
    local file given
    [[ ${1-} == --unproved ]] && shift
    case $#:${1-} in
        0:) printf '%s\n' session replay check obligations derive verify model trim migrate complete generate \
            help explain watch
            _larch_options --build --help --install --program --uninstall --unproved --version ;;
        1:help) printf '%s\n' session replay check obligations derive verify model trim migrate complete generate \
            explain watch
            _larch_codes ;;
        *:explain) _larch_codes; _larch_files lsl; _larch_folders ;;
        *:watch) _larch_folders; _larch_options --larch --no-hints --once ;;
        1:--install | 1:--uninstall) _larch_folders ;;
        1:derive | 1:verify | 1:model | 1:trim | 1:complete) _larch_files lsl | sed 's/\.lsl$//' ;;
        2:derive | 2:verify | 2:trim) _larch_labels "$2" ;;
        2:model) _larch_files mod; _larch_folders ;;
        1:migrate | 3:verify | 3:trim) compgen -G "${current%"${current##*/}"}*.cert"; _larch_folders ;;
        *:session) _larch_options --limit ;;
        *:generate) _larch_options --seed --size ;;
        *:replay | *:check | *:obligations | *:derive | *:verify | *:model | *:trim | *:complete)
            given=" ${*:2} "
            _larch_files lsl lp | while IFS= read -r file; do
                [[ $given == *" $file "* ]] || printf '%s\n' "$file"
            done
            _larch_folders
            [[ $1 == verify || $1 == model || $1 == trim ]] || _larch_options --with-included
            [[ $1 == replay || $1 == derive || $1 == complete ]] && _larch_options --limit ;;
    esac
}

_larch() {
    local before=("${COMP_WORDS[@]:1:COMP_CWORD-1}") current=${COMP_WORDS[COMP_CWORD]} place word
    # The first `--` is no word of its own.
    for place in "${!before[@]}"; do
        if [[ ${before[place]} == -- ]]; then
            before=("${before[@]:0:place}" "${before[@]:place+1}")
            break
        fi
    done
    COMPREPLY=()
    while IFS= read -r word; do
        word=$(printf '%q' "$word")
        [[ $word == "$current"* ]] && COMPREPLY+=("$word")
    done < <(_larch_next "${before[@]}")
    # Behind a folder more follows.
    [[ ${#COMPREPLY[@]} == 1 && ${COMPREPLY[0]} == */ ]] && compopt -o nospace 2>/dev/null
    return 0
}

complete -F _larch larch
