#compdef numaplan
# Completions of numaplan's command line for zsh. Made by tools/write-completions of docs/help. Not proved.
_numaplan() {
    local curcontext=$curcontext state line
    local -a commands
    commands=(
        'run:Answers the scripts of files, or of standard input'
        'check:Reports what is wrong with scripts, and what to do about it'
        'expect:Compares the answers that scripts hold with those that they get'
        'predict:Shows where pages would go after scripts, if a task touched them'
        'diff:Shows which pages would go elsewhere if lines were added to scripts'
        'moves:Shows what becomes of pages that are there when lines move them'
        'explain:Explains why a page goes where it goes'
        'report:Writes one page for a ticket: where pages would go, why, and what lines change'
        'replay:Shows where the accesses of a trace go after scripts'
        'shell:Answers lines as they are typed, after scripts'
        'storm:Lets workers place pages while policies change, and compares each placement'
        'help:Print this message or the help of the given subcommand(s)'
    )
    [[ $words[1] != */* || ! -f ${words[1]:h}/crates.txt ]] || commands+=(prove try install library package)
    _arguments -C \
        '(-h --help)-h[Print help]' '(-h --help)--help[Print help]' \
        '(-V --version)-V[Print version]' '(-V --version)--version[Print version]' \
        '1:command:->command' '*::argument:->argument'
    [ "$state" != command ] || _describe command commands
    [ "$state" = argument ] || return
    case $words[1] in
        run)
            _arguments \
                '(--echo)--echo[Writes each line of the script, and its answer after `=> `]' \
                '(--format)--format[How the answer is written]:FORMAT:(text json)' \
                '(--rules)--rules[Whose rules count, unless a line `rules` of the scripts says otherwise]:RULES:(document linux)' \
                '(-h --help)-h[Print help]' '(-h --help)--help[Print help]' \
                '(--machine)--machine[The machine, whose lines come before the scripts]:FILE:_files' \
                '*:file:_files'
            ;;
        check)
            _arguments \
                '(--format)--format[How the answer is written]:FORMAT:(text json)' \
                '(--process)--process[Asks about process P of a host only; without it, or with all, about each process]:P: ' \
                '(--rules)--rules[Whose rules count, unless a line `rules` of the scripts says otherwise]:RULES:(document linux)' \
                '(-h --help)-h[Print help]' '(-h --help)--help[Print help]' \
                '(--machine)--machine[The machine, whose lines come before the scripts]:FILE:_files' \
                '*:file:_files'
            ;;
        expect)
            _arguments \
                '(--format)--format[How the answer is written]:FORMAT:(text json tap)' \
                '(--ignore-versions)--ignore-versions[Compares answers without the numbers of their versions, as in v2\: and ok 2]' \
                '(--update)--update[Writes the answers that the lines get into the files, and shows the changes]' \
                '(--rules)--rules[Whose rules count, unless a line `rules` of the scripts says otherwise]:RULES:(document linux)' \
                '(-h --help)-h[Print help]' '(-h --help)--help[Print help]' \
                '*:file:_files'
            ;;
        predict)
            _arguments \
                '(--task)--task[The task that touches the pages; it may be left out where scripts name one task or none]:T: ' \
                '(--node)--node[The node of the CPU on which the task runs, or all\: each node with CPUs in turn]:N: ' \
                '(--at)--at[A file with further lines at START LENGTH NODE; - is standard input]:FILE:_files' \
                '(--process)--process[Asks about process P of a host only; without it, or with all, about each process]:P: ' \
                '(--format)--format[How the answer is written]:FORMAT:(text json csv svg html)' \
                '(--largest)--largest[Shows the N largest ranges by themselves, and the others as a sum; without it 40 in a picture, 400 in a page]:N: ' \
                '(--free)--free[How many pages are free on these nodes; with K, M, G or T after it a number is in bytes]:NODE=PAGES,..: ' \
                '(--names)--names[Writes behind ranges the names of their areas\: comments `# name\: NAME`, each before a line map]' \
                '(--lenient)--lenient[Ends with status 0 even if lines were faulty or refused]' \
                '(--rules)--rules[Whose rules count, unless a line `rules` of the scripts says otherwise]:RULES:(document linux)' \
                '(-h --help)-h[Print help]' '(-h --help)--help[Print help]' \
                '(--machine)--machine[The machine, whose lines come before the scripts]:FILE:_files' \
                '*:file:_files'
            ;;
        diff)
            _arguments \
                '(--task)--task[The task that touches the pages; it may be left out where scripts name one task or none]:T: ' \
                '(--node)--node[The node of the CPU on which the task runs, or all\: each node with CPUs in turn]:N: ' \
                '*--then[A script line to add; several are added in turn]:LINE: ' \
                '(--at)--at[A file with further lines at START LENGTH NODE; - is standard input]:FILE:_files' \
                '(--process)--process[Asks about process P of a host only; without it, or with all, about each process]:P: ' \
                '(--format)--format[How the answer is written]:FORMAT:(text json svg html)' \
                '(--largest)--largest[Shows the N largest ranges by themselves, and the others as a sum; without it 40 in a picture, 400 in a page]:N: ' \
                '(--names)--names[Writes behind ranges the names of their areas\: comments `# name\: NAME`, each before a line map]' \
                '(--lenient)--lenient[Ends with status 0 even if lines were faulty or refused]' \
                '(--rules)--rules[Whose rules count, unless a line `rules` of the scripts says otherwise]:RULES:(document linux)' \
                '(-h --help)-h[Print help]' '(-h --help)--help[Print help]' \
                '(--machine)--machine[The machine, whose lines come before the scripts]:FILE:_files' \
                '*:file:_files'
            ;;
        moves)
            _arguments \
                '(--at)--at[A file with further lines at START LENGTH NODE; - is standard input]:FILE:_files' \
                '(--task)--task[The task that would touch the pages; it may be left out where scripts name one task or none]:T: ' \
                '(--node)--node[Pages lie where the task would touch them on a CPU of this node, and not where lines at put them]:N: ' \
                '*--then[A line that moves pages\: mems, migrate FROM TO, cgroup-mems or attach; several in turn]:LINE: ' \
                '(--free)--free[How many more pages these nodes take; with K, M, G or T after it a number is in bytes]:NODE=PAGES,..: ' \
                '(--process)--process[Asks about process P of a host only; without it, or with all, about each process]:P: ' \
                '(--format)--format[How the answer is written]:FORMAT:(text json svg)' \
                '(--largest)--largest[Shows the N largest ranges by themselves, and the others as a sum; without it 40 in a picture, 400 in a page]:N: ' \
                '(--names)--names[Writes behind ranges the names of their areas\: comments `# name\: NAME`, each before a line map]' \
                '(--lenient)--lenient[Ends with status 0 even if lines were faulty or refused]' \
                '(--rules)--rules[Whose rules count, unless a line `rules` of the scripts says otherwise]:RULES:(document linux)' \
                '(-h --help)-h[Print help]' '(-h --help)--help[Print help]' \
                '(--machine)--machine[The machine, whose lines come before the scripts]:FILE:_files' \
                '*:file:_files'
            ;;
        explain)
            _arguments \
                '(--task)--task[The task that touches the pages; it may be left out where scripts name one task or none]:T: ' \
                '(--node)--node[The node of the CPU on which the task runs, or all\: each node with CPUs in turn]:N: ' \
                '(--at)--at[A file with further lines at START LENGTH NODE; - is standard input]:FILE:_files' \
                '(--pages)--pages[Explains N pages, from that of ADDRESS on, by stretches with one rule]:N: ' \
                '(--process)--process[Asks about process P of a host only; without it, or with all, about each process]:P: ' \
                '(--format)--format[How the answer is written]:FORMAT:(text json svg)' \
                '(--names)--names[Writes behind ranges the names of their areas\: comments `# name\: NAME`, each before a line map]' \
                '(--lenient)--lenient[Ends with status 0 even if lines were faulty or refused]' \
                '(--rules)--rules[Whose rules count, unless a line `rules` of the scripts says otherwise]:RULES:(document linux)' \
                '(-h --help)-h[Print help]' '(-h --help)--help[Print help]' \
                '(--machine)--machine[The machine, whose lines come before the scripts]:FILE:_files' \
                '*:file:_files'
            ;;
        report)
            _arguments \
                '(--task)--task[The task that touches the pages; it may be left out where scripts name one task or none]:T: ' \
                '(--node)--node[The node of the CPU on which the task runs]:N: ' \
                '*--then[A script line to add, of which it is told what it changes; several are added in turn]:LINE: ' \
                '(--process)--process[Asks about process P of a host only; without it, or with all, about each process]:P: ' \
                '(--lenient)--lenient[Ends with status 0 even if lines were faulty or refused]' \
                '(--rules)--rules[Whose rules count, unless a line `rules` of the scripts says otherwise]:RULES:(document linux)' \
                '(-h --help)-h[Print help]' '(-h --help)--help[Print help]' \
                '(--machine)--machine[The machine, whose lines come before the scripts]:FILE:_files' \
                '*:file:_files'
            ;;
        replay)
            _arguments \
                '(--trace)--trace[The file of the trace; - is standard input]:TRACE:_files' \
                '(--free)--free[Pages take room, not frames\: these nodes have so much; with K, M, G or T after it a number is in bytes]:NODE=PAGES,..: ' \
                '(--mean)--mean[Tells the mean distance of accesses too]' \
                '(--ranges)--ranges[Tells by range too, the busiest first]' \
                '(--process)--process[Asks about process P of a host only; without it, or with all, about each process]:P: ' \
                '(--format)--format[How the answer is written]:FORMAT:(text json csv html)' \
                '(--largest)--largest[Shows the N largest ranges by themselves, and the others as a sum; without it 40 in a picture, 400 in a page]:N: ' \
                '(--lenient)--lenient[Ends with status 0 even if lines were faulty or refused]' \
                '(--rules)--rules[Whose rules count, unless a line `rules` of the scripts says otherwise]:RULES:(document linux)' \
                '(-h --help)-h[Print help]' '(-h --help)--help[Print help]' \
                '(--machine)--machine[The machine, whose lines come before the scripts]:FILE:_files' \
                '*:file:_files'
            ;;
        shell)
            _arguments \
                '(--process)--process[Asks about process P of a host only; without it, or with all, about each process]:P: ' \
                '(--rules)--rules[Whose rules count, unless a line `rules` of the scripts says otherwise]:RULES:(document linux)' \
                '(-h --help)-h[Print help]' '(-h --help)--help[Print help]' \
                '(--machine)--machine[The machine, whose lines come before the scripts]:FILE:_files' \
                '*:file:_files'
            ;;
        storm)
            _arguments \
                '(--workers)--workers[How many workers there are, from 1 to 16]:K: ' \
                '(-h --help)-h[Print help]' '(-h --help)--help[Print help]'
            ;;
        help)
            _arguments \
                '1:command:(run check expect predict diff moves explain report replay shell storm help)'
            ;;
    esac
}
_numaplan "$@"
