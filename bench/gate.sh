#!/bin/sh
# Runs the merge gate, and says behind it what each crate's proof, tests and edits took in this run, dearest first:
# processor seconds, and the most memory that one of their processes was seen with; the sums; and the chain of crates,
# each standing on the one before it, whose proofs took longest. It ends with the gate's status. usage: bench/gate.sh
# The gate prints no times, so a sampler looks once a second at what it has started: a prover's words and folder say
# what it works on. What provers took between the last look and their end is in what the gate has waited for by the
# next look; where several ended between two looks each gets the same of it. So single numbers may be off by half a
# second for each prover, and their sum isn't. What rt itself takes grows as the paths of crates.txt, so these are
# counted too.

cd -- "$(dirname -- "$(readlink -f -- "$0")")/.." || exit 1
place=$(mktemp -d) || exit 1
sampler=
trap '[ -z "$sampler" ] || kill "$sampler" 2>/dev/null; rm -rf -- "$place"' EXIT
trap 'exit 1' HUP INT TERM

cat >"$place/sampler.awk" <<'PROGRAM'
# What a prover works on: `proof`, `tests` or `edits`, and behind a space its crate. An edit is tried on a copy of
# the crate, in a folder of its own.
function work_of(pid,    command, words, folder) {
    command = "{ tr '\\0' ' ' </proc/" pid "/cmdline; echo; readlink /proc/" pid "/cwd; } 2>/dev/null"
    command | getline words
    command | getline folder
    close(command)
    if (folder != "" && match(words, / --crate-name [^ ]+/))
        return (folder ~ /\/rt-edit-/ ? "edits" : words ~ / --test / ? "tests" : "proof") substr(words, RSTART + 13, RLENGTH - 13)
}

# Reads of all processes who started them, their memory in GB, and the seconds that they took, with the children that
# they have waited for. The numbers of processes come again, but not with the same start.
function look(    command, line, each, pid) {
    split("", parent)
    command = "cat /proc/[0-9]*/stat 2>/dev/null"
    while ((command | getline line) > 0) {
        pid = line + 0
        is_prover[pid] = line ~ /^[0-9]+ \(rattle\) /
        sub(/^.*\) /, "", line)
        split(line, each, " ")
        parent[pid] = each[2]
        seconds[pid] = (each[12] + each[13] + each[14] + each[15]) / hertz
        key[pid] = pid " " each[20]
        memory[pid] = each[22] * page / 1e9
        if (pid == gate) {
            waited = (each[14] + each[15]) / hertz
            own = (each[12] + each[13]) / hertz
        }
    }
    close(command)
}

# Counts to each process that the gate itself has started what that and all below it took so far.
function sample(    pid, own, it) {
    look()
    split("", now)
    for (pid in parent) {
        for (own = pid; parent[own] != gate && parent[own] in parent;)
            own = parent[own]
        if (parent[own] != gate)
            continue
        it = key[own]
        now[it] += seconds[pid]
        took[it] = now[it]
        if (work[it] == "" && is_prover[own])
            work[it] = work_of(own)
        if (memory[pid] > peak[work[it]])
            peak[work[it]] = memory[pid]
    }
    for (it in took)
        if (!(it in now)) {
            known += took[it]
            total[work[it]] += took[it]
            if (work[it] != "")
                ended[++count] = work[it]
            delete took[it]
        }
    # The gate's own line may have been read before such an end: then the rest of it comes with the next look.
    if (waited >= known) {
        for (it = 1; it <= count; it++)
            total[ended[it]] += (waited - known) / count
        known = waited
        count = 0
    }
}

# The seconds of the dearest chain of proofs that ends with a crate. In it, the crate stands on lower[crate].
function chain(crate,    each, at) {
    if (!(crate in behind)) {
        for (at = split(below[crate], each, " "); at > 0; at--)
            if (each[at] in below && (!(crate in lower) || chain(each[at]) > chain(lower[crate])))
                lower[crate] = each[at]
        behind[crate] = total["proof " crate] + (crate in lower ? chain(lower[crate]) : 0)
    }
    return behind[crate]
}

function cell(it) { return total[it] ? sprintf("%9.0f | %9.2f", total[it], peak[it]) : "        - |         -" }
function row(name, all) {
    return sprintf("| %-18s | %s | %s | %s | %7.0f |", name, cell("proof " name), cell("tests " name), cell("edits " name), all)
}

BEGIN {
    while ((getline wall < (folder "/ended")) < 0) {
        getline gate < (folder "/gate")
        if (gate != "")
            sample()
        system("sleep 1")
    }
    for (it in total)
        if (split(it, each, " ") == 2) {
            of_crate[each[2]] += total[it]
            sum[each[1] " all"] += total[it]
            most[each[1] " all"] = peak[it] > most[each[1] " all"] ? peak[it] : most[each[1] " all"]
            provers += total[it]
        }
    for (it in of_crate)
        print row(it, of_crate[it]) >(folder "/rows")
    for (it in sum) {
        total[it] = sum[it]
        peak[it] = most[it]
    }
    print row("all", provers)
    while ((getline line < "crates.txt") > 0)
        if (line !~ /^#/ && split(line, half, ":") > 1 && split(half[1], head, " "))
            below[head[1]] = half[2]
    for (it in below)
        longest = chain(it) > behind[longest] ? it : longest
    for (it = longest; it != ""; it = lower[it])
        names = it sprintf(" %.0f", total["proof " it]) (names == "" ? "" : " > ") names
    printf "\nThe longest chain of proofs, %.0f s: %s\n", behind[longest], names
    # The second line is of what the script has waited for.
    while ((getline line < (folder "/times")) > 0)
        split(line, each, /[ms ]+/)
    printf "In all %.0f processor seconds in %s: %.0f of provers, %.0f of rt itself; the rest is links and runs of what was built.\n",
        60 * each[1] + each[2] + 60 * each[3] + each[4], wall, provers, own
}
PROGRAM

started=$(date +%s)
awk -v folder="$place" -v hertz="$(getconf CLK_TCK)" -v page="$(getconf PAGESIZE)" -f "$place/sampler.awk" >"$place/sums" &
sampler=$!
sh -c 'echo $$ >"$1" && exec rt ci' gate "$place/gate"
status=$?
times >"$place/times"
echo $(($(date +%s) - started)) >"$place/ended"
wait "$sampler"
sampler=

printf '\n%s\n%s\n' '| crate              | proof (s) | peak (GB) | tests (s) | peak (GB) | edits (s) | peak (GB) | all (s) |' \
    '|---|--:|--:|--:|--:|--:|--:|--:|'
sort -t '|' -k 9,9nr "$place/rows" 2>/dev/null
cat "$place/sums"
bench/paths.py
exit "$status"
