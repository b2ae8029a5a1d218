# Judges what tools/growth.sh counted. The first file has a line for each pass: its call, its text, the size of its reads, the numbers of its
# bytes and of its events, the longest text that waited, the most bytes of memory in use, the largest request, and the instructions. A pass
# of four times the bytes comes after each, and typed text comes before the others. The second file has a line for many parsers that share a
# table: their kind, what they did, how many they are, and how many bytes of memory each has in use. It also has lines as the first, but for
# the instructions, of a long text and of a longer one.
BEGIN {
    # The most instructions for four times the bytes, less those of making a parser, or of a paste's first part, in which the buffer grows.
    MOST = 4.4
    # The memory in use, by the longest text that waited. A string or a sequence is also kept as the bytes of the event told last. A request
    # is of twice the text, or of room for two events a byte.
    SHARES["termwiz"] = 2; SHARES["extended"] = 3; LEAST_BUFFER = 8; EVENT_ROOM = 32
    # What may be buffered of a long text, beside a read. The memory in use is at most eight times that and two reads.
    BUFFERED["paste"] = 2 ^ 20 + 6; BUFFERED["escapes"] = 2; BUFFERED["openings"] = 3; BUFFERED["string"] = 65535
    # The most instructions of an event, beside those of a typed one, in reads of 4096 bytes.
    BESIDE["keys"] = 9; BESIDE["csiu"] = 9.5; BESIDE["replies"] = 11.5
    # The most bytes of a parser that shares a table: made, after a read of 4096 bytes, after a paste of 1 MB, and freed.
    EACH["made"] = 1024; EACH["read"] = 8192; EACH["shrunk"] = 4096; EACH["freed"] = 0
    row = "%-13s %-7s %8s %12s %12s %7s %8s %8s\n"
    printf row, "call", "text", "reads of", "instructions", "of 4 times", "ratio", "memory", "an event"
}

function judge(name, is_well, why) {
    if (is_well) { passed++; return }
    failed++
    print "growth: failed: " name ": " why
}

function most(one, other) { return one > other ? one : other }

FILENAME != ARGV[1] && NF == 8 {
    printf "%-13s %-8s %8d bytes, %7d buffered, %7d in use\n", $1, $2, $4, $6, $7
    judge($1 " " $2, $6 <= BUFFERED[$2] + $3, $6 " bytes are buffered, and " BUFFERED[$2] + $3 " are the most")
    allowed = 8 * BUFFERED[$2] + 2 * $3 + empty[$1]
    judge($1 " " $2, $7 <= allowed, $7 " bytes of memory are in use, and " allowed " are the most")
    if ($1 " " $2 == before) judge(before, $7 == in_use, $7 " bytes of memory are in use, and of a shorter text " in_use)
    before = $1 " " $2; in_use = $7; next
}

FILENAME != ARGV[1] {
    printf "%-13s %-7s %8d parsers, %6d bytes each\n", $1, $2, $3, $4
    judge($1 " " $2, $2 in EACH && $4 <= EACH[$2], "each of " $3 " parsers has " $4 " bytes in use, and " EACH[$2] " are the most")
    next
}

$2 == "new" { empty[$1] = $7; asked = $8 }
$2 == "new" || $2 == "grown" { making = $9; next }

{
    name = $1 " " $2 " " $3 " (" $4 " bytes)"
    held = $7 - empty[$1]
    allowed = most(asked, 2 * $6 * ($1 in SHARES ? 1 : EVENT_ROOM))
    if ($1 in SHARES && $2 != "parts" && $2 != "string")
        judge(name, held < SHARES[$1] * $6 || held <= LEAST_BUFFER, $7 " bytes of memory are in use for a text of " $6 ", and an empty parser has " empty[$1])
    judge(name, $8 <= allowed, "a request for memory of " $8 " bytes, and " allowed " are the most")
    if (!is_long) share = 0
    if ($6 > 0) share = most(share, held / $6)
    is_long = !is_long
}

# The shorter pass of two.
is_long { short = $9; next }

{
    pass = $1 " " $2 " " $3
    grows = ($9 - making) / (short - making)
    cost = $5 ? ($9 - making) / $5 : 0
    if ($2 == "typed") typed[$1, $3] = cost
    is_compared = $2 in BESIDE && $3 == 4096
    beside = cost / typed[$1, $3]
    printf row, $1, $2, $3, short, $9, sprintf("%.2f", grows), $1 in SHARES ? sprintf("%.2f", share) : "-", is_compared ? sprintf("%.2f", beside) : "-"
    judge(pass, grows <= MOST && (grows > 3.6 || $2 != "parts"), sprintf("four times the bytes take %.2f times the instructions", grows))
    if (is_compared)
        judge(pass, beside > 0 && beside <= BESIDE[$2], sprintf("an event takes %.2f times the instructions of a typed one", beside))
}

END {
    print passed + 0 " passed, " failed + 0 " failed"
    exit failed > 0 || passed == 0
}
