# Completions of numaplan's command line for bash. Made by tools/write-completions of docs/help. Not proved.
_numaplan() {
    local at=$COMP_CWORD word=${COMP_WORDS[COMP_CWORD]} words='' files='' own=''
    # (in --format=json the sign is a word of its own)
    [ "$word" != = ] || word='' at=$((at + 1))
    [ "${COMP_WORDS[at - 1]}" != = ] || at=$((at - 1))
    COMPREPLY=()
    # (the words of the repository's script)
    [[ ${COMP_WORDS[0]} != */* || ! -f ${COMP_WORDS[0]%/*}/crates.txt ]] || own=' prove try install library package'
    case ${COMP_WORDS[1]}:${COMP_WORDS[at - 1]} in
        run:--format | check:--format) words='text json' ;;
        run:--rules | check:--rules | expect:--rules | predict:--rules | diff:--rules | moves:--rules | explain:--rules | report:--rules | replay:--rules | shell:--rules) words='document linux' ;;
        run:--machine | check:--machine | predict:--at | predict:--machine | diff:--at | diff:--machine | moves:--at | moves:--machine | explain:--at | explain:--machine | report:--machine | replay:--trace | replay:--machine | shell:--machine) files=yes ;;
        check:--process | predict:--task | predict:--node | predict:--process | predict:--largest | predict:--free | diff:--task | diff:--node | diff:--then | diff:--process | diff:--largest | moves:--task | moves:--node | moves:--then | moves:--free | moves:--process | moves:--largest | explain:--task | explain:--node | explain:--pages | explain:--process | report:--task | report:--node | report:--then | report:--process | replay:--free | replay:--process | replay:--largest | shell:--process | storm:--workers) : ;;
        expect:--format) words='text json tap' ;;
        predict:--format) words='text json csv svg html' ;;
        diff:--format) words='text json svg html' ;;
        moves:--format | explain:--format) words='text json svg' ;;
        replay:--format) words='text json csv html' ;;
        *)
            [ "$COMP_CWORD" != 1 ] || words='run check expect predict diff moves explain report replay shell storm help --help --version'$own
            [ "$COMP_CWORD" = 1 ] || case ${COMP_WORDS[1]} in
                run) words='--echo --format --rules --help --machine' files=yes ;;
                check) words='--format --process --rules --help --machine' files=yes ;;
                expect) words='--format --ignore-versions --update --rules --help' files=yes ;;
                predict) words='--task --node --at --process --format --largest --free --names --lenient --rules --help --machine' files=yes ;;
                diff) words='--task --node --then --at --process --format --largest --names --lenient --rules --help --machine' files=yes ;;
                moves) words='--at --task --node --then --free --process --format --largest --names --lenient --rules --help --machine' files=yes ;;
                explain) words='--task --node --at --pages --process --format --names --lenient --rules --help --machine' files=yes ;;
                report) words='--task --node --then --process --lenient --rules --help --machine' files=yes ;;
                replay) words='--trace --free --mean --ranges --process --format --largest --lenient --rules --help --machine' files=yes ;;
                shell) words='--process --rules --help --machine' files=yes ;;
                storm) words='--workers --help' ;;
                help) words='run check expect predict diff moves explain report replay shell storm help' ;;
            esac
            # (files, unless an option is begun)
            [[ -z $files || $word = -* ]] || words=''
            [[ $word != -* ]] || files=''
            ;;
    esac
    [ -z "$words" ] || mapfile -t COMPREPLY < <(compgen -W "$words" -- "$word")
    [ -z "$files" ] || mapfile -t COMPREPLY < <(compgen -f -- "$word")
}
complete -o filenames -F _numaplan numaplan
