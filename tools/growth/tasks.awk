# Judges what tools/growth.sh counted of names, bindings, matchers and pastes that are sent; judge.awk follows. The third file has a line for each
# task, as tools/growth/tasks.c prints it. Unless the task was only timed, its instructions follow. A task of a larger size comes after the one
# of a smaller size.
BEGIN {
    # The most instructions of one time, beside those of the smaller size. A search among four times the chords takes two steps more, and
    # continuations take two searches. The entry at a place is searched for among the blocks.
    GROWS["read"] = GROWS["print"] = 1.1
    GROWS["bind"] = GROWS["unbind"] = GROWS["lookup"] = 1.25
    GROWS["continuations"] = 1.3
    GROWS["entry"] = 1.15
    GROWS["send"] = 1.05
    # The most instructions among 500 chords of one press, beside those of a row of five bytes. A press takes two calls.
    BESIDE_ROW["lookup one"] = BESIDE_ROW["press one"] = 1.5
    # The most instructions of one time: of a byte that is sent as it is.
    COSTS["send plain"] = COSTS["send lines"] = 20
    # The most bytes of memory of a chord, beside those where there are fewer, and the most seconds that it takes to bind or unbind all.
    HOLDS = 1.1; SECONDS = 1
    line = "%-13s %-15s %8s %12s %8s %8s\n"
}

FILENAME == ARGV[3] && FNR == 1 { printf "\n" line, "task", "of", "size", "one time", "ratio", "memory" }

FILENAME == ARGV[3] {
    task = $1 " " $2
    held = $5 / $4
    kept = $1 == "bind" ? sprintf("%.1f", held) : "-"
    if ($1 == "bind" && task in holds)
        judge(task, held <= HOLDS * holds[task], "of " $3 " chords each takes " held " bytes of memory, and of fewer " holds[task])
    holds[task] = held
}

FILENAME == ARGV[3] && NF == 6 {
    if ($1 !~ /bind$/) next
    printf line, $1, $2, $3, sprintf("%.2f s", $6 / 1e9), "-", kept
    judge(task, $6 <= SECONDS * 1e9, $3 " chords take " $6 / 1e9 " seconds")
    next
}

FILENAME == ARGV[3] {
    cost = $7 / $4
    grows = task in costs ? cost / costs[task] : 0
    printf line, $1, $2, $3, sprintf("%.1f", cost), grows ? sprintf("%.2f", grows) : "-", kept
    if (task in COSTS) judge(task, cost <= COSTS[task], "one time takes " cost " instructions if there are " $3)
    if (grows) judge(task, grows <= GROWS[$1], "one time takes " grows " times the instructions if there are " $3)
    costs[task] = cost
    if (task in BESIDE_ROW)
        judge(task, cost <= BESIDE_ROW[task] * costs["lookup row"], "it takes " cost " instructions, and a lookup of a row " costs["lookup row"])
    next
}
