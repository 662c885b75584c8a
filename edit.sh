# Sourced by the commands that make edits in a copy of a crate.

# Each 'old:' text, which its 'file:' has exactly once, becomes the 'new:' text after it. Says what is wrong with an edit.
edit() { # EDITFILE CRATEFOLDER
    pairs=0 file='' old=''
    while IFS= read -r line || [ -n "$line" ]; do
        case $line in
        'file: '*) file=${line#file: } ;;
        'old: '*) old=${line#old: } ;;
        'new:'*)
            new=${line#new:}
            [ -f "$2/$file" ] || { echo "there is no ${file:-'file:' line}"; return; }
            OLD=$old NEW=${new# } awk '
                { text = text $0 "\n" }
                END {
                    old = ENVIRON["OLD"]; at = index(text, old)
                    rest = substr(text, at + length(old))
                    if (old == "" || !at || index(rest, old)) exit 1
                    printf "%s%s%s", substr(text, 1, at - 1), ENVIRON["NEW"], rest
                }' "$2/$file" >"$2/$file.edited" || { echo "an 'old:' text is not in $file exactly once"; return; }
            mv "$2/$file.edited" "$2/$file"
            pairs=$((pairs + 1)) old=''
            ;;
        esac
    done <"$1"
    [ "$pairs" -gt 0 ] || echo "it has no 'old:' and 'new:' pair"
}
