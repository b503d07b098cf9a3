# Made by docs/from-help of what rmelab --help prints.
_rmelab() {
    local word=${COMP_WORDS[COMP_CWORD]} before=${COMP_WORDS[COMP_CWORD - 1]} names
    COMPREPLY=()
    if ((COMP_CWORD == 1)); then
        mapfile -t COMPREPLY < <(compgen -W "replay run hunt explore cost export states judge draw shrink step explain help -h --help -V --version" -- "$word")
        return
    fi
    case ${COMP_WORDS[1]}:$before in
        replay:--variant) mapfile -t COMPREPLY < <(compgen -W "right no-look no-ties renumber exit-on-crash count-up last-skipped" -- "$word") && return ;;
        replay:--algorithm) mapfile -t COMPREPLY < <(compgen -f -- "$word") && return ;;
        replay:--image) mapfile -t COMPREPLY < <(compgen -f -- "$word") && return ;;
        replay:--save) mapfile -t COMPREPLY < <(compgen -f -- "$word") && return ;;
        run:--procs) : && return ;;
        run:--messages) : && return ;;
        run:--crash) : && return ;;
        run:--seed) : && return ;;
        run:--width) : && return ;;
        hunt:--variant) mapfile -t COMPREPLY < <(compgen -W "right no-look no-ties renumber exit-on-crash count-up last-skipped" -- "$word") && return ;;
        hunt:--algorithm) mapfile -t COMPREPLY < <(compgen -f -- "$word") && return ;;
        hunt:--procs) : && return ;;
        hunt:--limit) : && return ;;
        hunt:--seed) : && return ;;
        hunt:--first-round) : && return ;;
        hunt:--rounds) : && return ;;
        hunt:--steps) : && return ;;
        hunt:--system-crashes) : && return ;;
        hunt:--jobs) : && return ;;
        explore:--variant) mapfile -t COMPREPLY < <(compgen -W "right no-look no-ties renumber exit-on-crash count-up last-skipped" -- "$word") && return ;;
        explore:--algorithm) mapfile -t COMPREPLY < <(compgen -f -- "$word") && return ;;
        explore:--procs) : && return ;;
        explore:--calls) : && return ;;
        explore:--crashes) : && return ;;
        explore:--system-crashes) : && return ;;
        explore:--moves) : && return ;;
        explore:--states) : && return ;;
        explore:--limit) : && return ;;
        explore:--cap) : && return ;;
        explore:--width) : && return ;;
        explore:--starving) : && return ;;
        explore:--jobs) : && return ;;
        cost:--variant) mapfile -t COMPREPLY < <(compgen -W "right no-look no-ties renumber exit-on-crash count-up last-skipped" -- "$word") && return ;;
        cost:--algorithm) mapfile -t COMPREPLY < <(compgen -f -- "$word") && return ;;
        cost:--model) mapfile -t COMPREPLY < <(compgen -W "dsm write-through write-back" -- "$word") && return ;;
        cost:--procs) : && return ;;
        cost:--calls) : && return ;;
        cost:--crashes) : && return ;;
        cost:--system-crashes) : && return ;;
        cost:--states) : && return ;;
        cost:--limit) : && return ;;
        cost:--seed) : && return ;;
        cost:--rounds) : && return ;;
        cost:--steps) : && return ;;
        export:--promela) mapfile -t COMPREPLY < <(compgen -f -- "$word") && return ;;
        export:--procs) : && return ;;
        export:--crashes) : && return ;;
        export:--limit) : && return ;;
        states:--variant) mapfile -t COMPREPLY < <(compgen -W "right no-look no-ties renumber exit-on-crash count-up last-skipped" -- "$word") && return ;;
        states:--algorithm) mapfile -t COMPREPLY < <(compgen -f -- "$word") && return ;;
        states:--procs) : && return ;;
        states:--calls) : && return ;;
        states:--crashes) : && return ;;
        states:--system-crashes) : && return ;;
        states:--limit) : && return ;;
        states:--cap) : && return ;;
        states:--width) : && return ;;
        states:--words) : && return ;;
        states:--digits) : && return ;;
        states:--part) : && return ;;
        states:--parts) : && return ;;
        draw:--variant) mapfile -t COMPREPLY < <(compgen -W "right no-look no-ties renumber exit-on-crash count-up last-skipped" -- "$word") && return ;;
        draw:--algorithm) mapfile -t COMPREPLY < <(compgen -f -- "$word") && return ;;
        draw:--image) mapfile -t COMPREPLY < <(compgen -f -- "$word") && return ;;
        shrink:--variant) mapfile -t COMPREPLY < <(compgen -W "right no-look no-ties renumber exit-on-crash count-up last-skipped" -- "$word") && return ;;
        shrink:--algorithm) mapfile -t COMPREPLY < <(compgen -f -- "$word") && return ;;
        step:--algorithm) mapfile -t COMPREPLY < <(compgen -f -- "$word") && return ;;
    esac
    case ${COMP_WORDS[1]} in
        replay) mapfile -t COMPREPLY < <(compgen -W "--json --each --variant --algorithm --image --save -h --help" -- "$word"; compgen -f -- "$word") ;;
        run) mapfile -t COMPREPLY < <(compgen -W "--procs --messages --crash --seed --width -h --help" -- "$word") ;;
        hunt) mapfile -t COMPREPLY < <(compgen -W "--variant --algorithm --procs --limit --seed --first-round --rounds --steps --system-crashes --shrink --jobs -h --help" -- "$word") ;;
        explore) mapfile -t COMPREPLY < <(compgen -W "--variant --algorithm --procs --calls --crashes --system-crashes --moves --states --limit --cap --width --stuck --starving --all-variables --jobs -h --help" -- "$word") ;;
        cost) mapfile -t COMPREPLY < <(compgen -W "--variant --algorithm --model --super-passages --procs --calls --crashes --system-crashes --states --limit --mean --seed --rounds --steps -h --help" -- "$word") ;;
        export) mapfile -t COMPREPLY < <(compgen -W "--promela --procs --crashes --limit -h --help" -- "$word") ;;
        states) mapfile -t COMPREPLY < <(compgen -W "--variant --algorithm --procs --calls --crashes --system-crashes --limit --cap --width --words --digits --part --parts -h --help" -- "$word"; compgen -f -- "$word") ;;
        judge) mapfile -t COMPREPLY < <(compgen -W "--json -h --help" -- "$word"; compgen -f -- "$word") ;;
        draw) mapfile -t COMPREPLY < <(compgen -W "--variant --algorithm --image --svg --html -h --help" -- "$word"; compgen -f -- "$word") ;;
        shrink) mapfile -t COMPREPLY < <(compgen -W "--variant --algorithm -h --help" -- "$word"; compgen -f -- "$word") ;;
        step) mapfile -t COMPREPLY < <(compgen -W "--algorithm -h --help" -- "$word"; compgen -f -- "$word") ;;
        explain)
            names=$("${COMP_WORDS[0]}" explain 2>/dev/null)
            names=$(awk -v at=$((COMP_CWORD - 1)) -v given="${COMP_WORDS[*]:2:COMP_CWORD-2}" \
                '{ head = ""; for (i = 1; i < at; i++) head = head (i > 1 ? " " : "") $i } head == given && !seen[$at]++ { print $at }' <<<"$names")
            mapfile -t COMPREPLY < <(compgen -W "$names" -- "$word")
            ;;
    esac
}
complete -F _rmelab rmelab
