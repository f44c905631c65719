# Turns the text of a network into the numbers of its file. The text, '#' before a comment:
#
#   process NAME PERIOD BURST DEADLINE BUDGET
#   pair HIGHER LOWER
#   queue NAME WRITER READER CAPACITY
#   board NAME WRITER READER
#   actions PROCESS             after which its actions follow, one a line:
#     a = 5
#     a = b + c
#     a = b - c
#     value, flag = read CHANNEL
#     write a to CHANNEL
#     value, flag = input
#     output a
#     if a = 0 skip N           the next N actions
#     if a = 0 stop             all that follow
#
# Processes and channels are numbered as they are declared, and the variables of a process as they come up. Nothing is judged: the reader does that.

function wrong(why) {
    printf "%s:%d: %s\n", FILENAME, FNR, why >"/dev/stderr"
    failed = 1
    exit 1
}

function numbered(name, kind, numbers) {
    if (!(name in numbers))
        wrong("no " kind " " name)
    return numbers[name]
}

function process(name) { return numbered(name, "process", processes) }
function channel(name) { return numbered(name, "channel", channels) }

function variable(name) {
    if (!((self, name) in variables))
        variables[self, name] = variable_count[self]++
    return variables[self, name]
}

function act(kind, first, second, third) {
    actions[self, action_count[self]++] = kind " " first " " second " " third
}

{
    sub(/#.*/, "")
    gsub(/,/, " ")
    $0 = $0
}
NF == 0 { next }

$1 == "process" && NF == 6 {
    processes[$2] = process_count++
    process_fields[processes[$2]] = $3 " " $4 " " $5 " " $6
    next
}
$1 == "pair" && NF == 3 { pairs[pair_count++] = process($2) " " process($3); next }
$1 == "queue" && NF == 5 {
    channels[$2] = channel_count++
    channel_fields[channels[$2]] = "0 " process($3) " " process($4) " " $5
    next
}
$1 == "board" && NF == 4 {
    channels[$2] = channel_count++
    channel_fields[channels[$2]] = "1 " process($3) " " process($4) " 1"
    next
}
$1 == "actions" && NF == 2 { self = process($2); next }

$1 == "write" && $3 == "to" && NF == 4 { act(4, channel($4), variable($2), 0); next }
$1 == "output" && NF == 2 { act(6, variable($2), 0, 0); next }
$1 == "if" && $3 $4 $5 == "=0skip" && NF == 6 { act(7, variable($2), $6, 0); next }
$1 == "if" && $3 $4 $5 == "=0stop" && NF == 5 { act(7, variable($2), "rest", 0); next }
$2 == "=" && $3 ~ /^[0-9]+$/ && NF == 3 { act(0, variable($1), $3, 0); next }
$2 == "=" && $4 == "+" && NF == 5 { act(1, variable($1), variable($3), variable($5)); next }
$2 == "=" && $4 == "-" && NF == 5 { act(2, variable($1), variable($3), variable($5)); next }
$3 == "=" && $4 == "read" && NF == 5 { act(3, channel($5), variable($1), variable($2)); next }
$3 == "=" && $4 == "input" && NF == 4 { act(5, variable($1), variable($2), 0); next }
{ wrong("not understood: " $0) }

END {
    if (failed)
        exit 1
    numbers = "1 " process_count
    for (p = 0; p < process_count; p++)
        numbers = numbers " " process_fields[p]
    numbers = numbers " " pair_count + 0
    for (k = 0; k < pair_count; k++)
        numbers = numbers " " pairs[k]
    numbers = numbers " " channel_count + 0
    for (k = 0; k < channel_count; k++)
        numbers = numbers " " channel_fields[k]
    for (p = 0; p < process_count; p++) {
        numbers = numbers " " action_count[p] + 0
        for (k = 0; k < action_count[p]; k++) {
            sub("rest", action_count[p] - k - 1, actions[p, k])
            numbers = numbers " " actions[p, k]
        }
    }
    print numbers
}
