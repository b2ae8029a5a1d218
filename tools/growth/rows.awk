# Judges what tools/growth.sh counted of an event in each row; judge.awk follows. The fourth file has the instructions that it may take, the
# fifth those that it took.
BEGIN {
    # What a change may cost unseen. What it spares has to be written down too, or else the next one may cost that much.
    MORE = 1.1; LESS = 0.9
}

FILENAME == ARGV[4] { if (!/^#/) told[$1 " " $2] = $3; next }

FILENAME == ARGV[5] && FNR == 1 { printf "\n%-9s %-8s %12s %8s\n", "read", "input", "an event", "before" }

FILENAME == ARGV[5] {
    row = $1 " " $2
    printf "%-9s %-8s %12d %8d\n", $1, $2, $3, told[row]
    judge(row, $3 <= MORE * told[row] && $3 >= LESS * told[row], "an event takes " $3 " instructions, and rows.txt says " told[row] + 0)
    delete told[row]
    next
}

END { for (row in told) judge(row, 0, "nothing was counted") }
