# Makes a log of marks, for `ra check --marks`, of the log of a lock service. A site that waits or holds has a number from
# 1 to 64 of its own. Once it does neither, the number is free for the next site.
BEGIN {
    mark["WANT"] = "request"; mark["GOT"] = "enter"; mark["FREED"] = "leave"
    mode["mode=read"] = "S"; mode["mode=write"] = "X"
}
function value(field) { sub(/.*=/, "", field); return field }
function free_number(    number) {
    for (number = 1; number <= 64; number++) if (!open[site[number]]) return number
    # This is no mark, so the log is not valid.
    print "more than 64 sites wait or hold at once"; exit 1
}
$4 in mark {
    if (!($2 in node)) {
        number = free_number()
        delete node[site[number]]
        site[number] = $2; node[$2] = number
    }
    if ($4 == "WANT") open[$2]++
    print mark[$4], node[$2], value($3), value($5), mode[$6], value($7)
    if ($4 == "FREED") open[$2]--
}
