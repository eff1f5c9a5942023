# Makes a mark log, for `ra check --marks`, of the log of a store that a lock of etcd protects. Each access is a line:
#
#     1795788029230 read lock=orders/1eeea21d4e5a5f2c rev=16 served
#
# `lock` is the key of the holder, whose last part is its session, and `rev` its fencing number. `etcdctl lock NAME
# COMMAND` gives them to its command as ETCD_LOCK_KEY and ETCD_LOCK_REV. Lines that end otherwise are passed over.
# README.md says what is judged, why the verdict is exact, and why revisions are fencing numbers.
#
# To the store, a number holds the lock from its first access until the next access under another number. The client of
# a mark is the line of that first access. Node 1 serves for any number of sessions, since only one holds at a time.

# Prints a line that is no mark, so that `ra` does not call valid what comes before it.
function stop(why) {
    print "log line " NR ": " why
    exit 1
}

# Returns a name that `ra` takes: the lock's own, or a full stop and a number, with which no kept name begins.
function name_of(lock) {
    if (length(lock) <= 32 && lock ~ /^[A-Za-z0-9_-][A-Za-z0-9_.-]*$/) return lock
    if (!(lock in name)) name[lock] = "." ++names
    return name[lock]
}

# Compared as text: in awk, numbers above 2^53 are rounded.
function is_number(text) {
    return text ~ /^[1-9][0-9]*$/ && (length(text) < 20 || length(text) == 20 && text "" <= "18446744073709551615")
}

{ sub(/\r$/, "") }
$5 != "served" {
    if (/(^|[ \t])served([ \t]|$)/) stop("it is no access in the form of the others")
    next
}
{
    lock = substr($3, 6)
    number = substr($4, 5)
    if ($3 !~ /^lock=.*\// || $4 !~ /^rev=/ || !is_number(number)) stop("lock=NAME/SESSION and rev=NUMBER are missing")
    sub(/\/[^\/]*$/, "", lock)
    lock = name_of(lock)
    if (lock in last && last[lock] "" == number "") next
    if (lock in last) print "leave", entry[lock]
    last[lock] = number
    entry[lock] = "1 " NR " " lock " X " number
    print "request", entry[lock]
    print "enter", entry[lock]
}
