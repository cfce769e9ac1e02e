# completion of tinkey for bash; made by tools/words
_tinkey() {
    local word=${COMP_WORDS[COMP_CWORD]} before=${COMP_WORDS[COMP_CWORD-1]} words=
    COMPREPLY=()
    # bash cuts --option=value into three words
    if [ "$word" = "=" ]; then
        word=
    elif [ "$before" = "=" ]; then
        before=${COMP_WORDS[COMP_CWORD-2]}
    fi
    case "$before" in
    '<' | '>' | '>>' | '2>' | --in | --out | --keyset | --master | --new-master | --file)
        # a folder gets a slash, and a name with spaces its backslashes
        compopt -o filenames
        mapfile -t COMPREPLY < <(compgen -f -- "$word")
        return ;;
    --in-format | --out-format | --keyset-format | --master-format | --new-master-format) words='json binary' ;;
    --as) words='text envelope stream' ;;
    --for) words='seal open dseal dopen reseal dreseal sseal sopen sreseal tag verify derive wrap-keyset unwrap-keyset eseal eopen ereseal srange' ;;
    --key-template | --dek-template)
        words=$("${COMP_WORDS[0]/#\~/$HOME}" list-key-templates 2>/dev/null) ;;
    --key-id | --ad | --ad-hex | --tag-hex | --length | --seed | --lines | --from) return ;;
    *)
        if [ "$COMP_CWORD" -eq 1 ]; then
            words='create-keyset add-key rotate-keyset promote-key enable-key disable-key destroy-key delete-key list-keyset convert-keyset list-key-templates seal open dseal dopen reseal dreseal sseal sopen sreseal tag verify derive session selftest wrap-keyset unwrap-keyset eseal eopen ereseal srange key-of help version'
        elif [ "$COMP_CWORD" -eq 2 ] && [ "$before" = help ]; then
            words='create-keyset add-key rotate-keyset promote-key enable-key disable-key destroy-key delete-key list-keyset convert-keyset list-key-templates seal open dseal dopen reseal dreseal sseal sopen sreseal tag verify derive session selftest wrap-keyset unwrap-keyset eseal eopen ereseal srange key-of exit help version'
        else
            case "${COMP_WORDS[1]}" in
            create-keyset) words='--key-template --out --out-format --master --master-format --help' ;;
            add-key) words='--key-template --in --in-format --out --out-format --master --master-format --help' ;;
            rotate-keyset) words='--key-template --in --in-format --out --out-format --master --master-format --help' ;;
            promote-key) words='--key-id --in --in-format --out --out-format --master --master-format --help' ;;
            enable-key) words='--key-id --in --in-format --out --out-format --master --master-format --help' ;;
            disable-key) words='--key-id --in --in-format --out --out-format --master --master-format --help' ;;
            destroy-key) words='--key-id --in --in-format --out --out-format --master --master-format --help' ;;
            delete-key) words='--key-id --in --in-format --out --out-format --master --master-format --help' ;;
            list-keyset) words='--in --in-format --master --master-format --help' ;;
            convert-keyset) words='--in --in-format --out --out-format --master --master-format --new-master --new-master-format --help' ;;
            list-key-templates) words='--for --help' ;;
            seal) words='--keyset --keyset-format --ad --ad-hex --out --master --master-format --help' ;;
            open) words='--keyset --keyset-format --ad --ad-hex --out --master --master-format --help' ;;
            dseal) words='--keyset --keyset-format --ad --ad-hex --out --master --master-format --help' ;;
            dopen) words='--keyset --keyset-format --ad --ad-hex --out --master --master-format --help' ;;
            reseal) words='--keyset --keyset-format --ad --ad-hex --out --master --master-format --help' ;;
            dreseal) words='--keyset --keyset-format --ad --ad-hex --out --master --master-format --help' ;;
            sseal) words='--keyset --keyset-format --ad --ad-hex --out --master --master-format --help' ;;
            sopen) words='--keyset --keyset-format --ad --ad-hex --out --master --master-format --help' ;;
            sreseal) words='--keyset --keyset-format --ad --ad-hex --out --master --master-format --help' ;;
            tag) words='--keyset --keyset-format --out --hex --master --master-format --help' ;;
            verify) words='--keyset --tag-hex --keyset-format --master --master-format --help' ;;
            derive) words='--keyset --length --keyset-format --out --hex --master --master-format --help' ;;
            session) words='--keyset --keyset-format --out --out-format --saved --master --master-format --help' ;;
            selftest) words='--seed --lines --help' ;;
            wrap-keyset) words='--master --master-format --in --in-format --out --out-format --help' ;;
            unwrap-keyset) words='--master --master-format --in --in-format --out --out-format --help' ;;
            eseal) words='--keyset --dek-template --keyset-format --ad --ad-hex --out --master --master-format --help' ;;
            eopen) words='--keyset --dek-template --keyset-format --ad --ad-hex --out --master --master-format --help' ;;
            ereseal) words='--keyset --dek-template --keyset-format --out --master --master-format --help' ;;
            srange) words='--keyset --file --from --length --keyset-format --ad --ad-hex --out --master --master-format --help' ;;
            key-of) words='--keyset --keyset-format --ad --ad-hex --master --master-format --as --help' ;;
            esac
            # --help comes right after the command and alone, every option once, and none with one that
            # excludes it
            [ "$COMP_CWORD" -eq 2 ] || words=${words%--help}
            case "${COMP_WORDS[2]}" in
            --help | -h) [ "$COMP_CWORD" -eq 2 ] || words= ;;
            esac
            local at
            for ((at = 2; at < COMP_CWORD; at++)); do
                words=" $words "
                words=${words/ "${COMP_WORDS[at]}" / }
                case "${COMP_WORDS[at]}" in
                --ad) words=${words/ --ad-hex / } ;;
                --ad-hex) words=${words/ --ad / } ;;
                esac
            done
        fi ;;
    esac
    mapfile -t COMPREPLY < <(compgen -W "$words" -- "$word")
}
complete -F _tinkey tinkey
