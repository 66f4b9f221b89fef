# How far ./build is: a line for each crate whose end is news, and then one of what is under way.
#
# now      the seconds since the start
# jobs     how many crates are proved side by side
# archive  the name of the archive, which is made when all crates are proved, or nothing
#
# It reads, each behind a word that says what it is: reads=seconds install/seconds, reads=crates the
# lines of crates.txt of the crates that are proved, reads=same the names of those whose sources were found
# proved before (none: nothing is known of them), reads=past and reads=news what has happened, by lines
# `begun CRATE SECONDS`, or `proved`, `kept`, `made` or `failed` in place of `begun`.

function clock(seconds) { return sprintf("%d:%02d", int(seconds / 60), seconds % 60) }

# How long this machine takes for what is listed as a second, by the crates that were proved; a minute counts as if it
# had been as listed, so that a first small crate does not tell too much.
function pace(    name, took, listed) {
    took = listed = 60
    for (name in ended) if (how[name] == "proved" && (name in begun) && (name in usual)) {
        took += ended[name] - begun[name]
        listed += usual[name]
    }
    return took / listed
}

# Whether a crate that has not ended is one that an earlier run proved: once one was kept, all are but those whose
# sources have changed since, those above one that is not kept, and one that has been under way for long.
function is_kept(name,    number, below, at) {
    if (name in keeps) return keeps[name]
    keeps[name] = has_kept && (!knows_same || (name in same)) && !((name in begun) && now - begun[name] > 20)
    number = split(uses[name], below, " ")
    for (at = 1; at <= number && keeps[name]; at++) {
        if (below[at] in ended) keeps[name] = how[below[at]] == "kept"
        else if (below[at] in uses) keeps[name] = is_kept(below[at])
    }
    return keeps[name]
}

# Sets rest, the seconds until each crate has ended once it has begun. A crate that is not listed
# counts as the mean of those that are. False where none is.
function reckon(    name, known, sum, slow, late) {
    for (name in uses) if (name in usual) { known++; sum += usual[name] }
    if (!known) return 0
    slow = pace()
    for (name in uses) {
        rest[name] = slow * ((name in usual) ? usual[name] : sum / known)
        if (is_kept(name)) rest[name] = 1
        if (name in begun) {
            # (one that takes longer than it should is not at its end yet)
            late = (now - begun[name]) / 10
            rest[name] -= now - begun[name]
            if (rest[name] < late) rest[name] = late
        }
        if (name in ended) rest[name] = 0
    }
    if (archive != "") {
        rest[archive] = (archive in usual) ? slow * usual[archive] : 0
        if (archive in begun) rest[archive] -= now - begun[archive]
        if ((archive in ended) || rest[archive] < 0) rest[archive] = 0
    }
    return 1
}

# The seconds until all that stands on a crate has ended, and it, if nothing waits for a processor.
function chain(name,    above, most) {
    if (name in chains) return chains[name]
    for (above in uses) if (index(" " uses[above] " ", " " name " ") && chain(above) > most) most = chain(above)
    chains[name] = most + rest[name]
    return chains[name]
}

# Whether all crates below one have ended, in the reckoning of what is left.
function is_ready(name,    number, below, at) {
    number = split(uses[name], below, " ")
    for (at = 1; at <= number; at++) if ((below[at] in uses) && !(below[at] in gone)) return 0
    return 1
}

# The crate that is begun next in that reckoning: the one with the longest chain behind it.
function next_one(    name, best) {
    for (name in uses) {
        if ((name in gone) || (name in due) || !is_ready(name)) continue
        if (best == "" || chain(name) > chain(best)) best = name
    }
    return best
}

# The seconds that are left: as the crates follow one another from here, and then the archive.
function left(    name, number, passed, least) {
    for (name in uses) {
        if (name in ended) gone[name] = 1
        else if (name in begun) { due[name] = rest[name]; number++ }
    }
    do {
        while (number < jobs && (name = next_one()) != "") { due[name] = rest[name]; number++ }
        least = -1
        for (name in due) if (least < 0 || due[name] < least) least = due[name]
        if (least > 0) passed += least
        for (name in due) {
            due[name] -= least
            if (due[name] <= 0) { delete due[name]; gone[name] = 1; number-- }
        }
    } while (least >= 0)
    return passed + (archive != "" ? rest[archive] : 0)
}

# The minutes since the start, and about how many are left.
function minutes() {
    if (!reckon()) return sprintf("(%d min)", now / 60)
    return sprintf("(%d min, about %d more)", now / 60, (left() + 59) / 60)
}

# How a crate or the archive ended.
function ending(name) {
    if (how[name] == "kept") return "kept"
    if (how[name] == "failed") return name == archive ? "NOT MADE" : "NOT PROVED"
    return how[name] " in " clock((name in begun) ? ended[name] - begun[name] : 0)
}

# What has begun and not ended, each with the time since.
function under_way(    at, name, text) {
    for (at = 1; at <= starts; at++) {
        name = order[at]
        if (!(name in ended)) text = text "  " name " " clock(now - begun[name])
    }
    return text == "" && count == crates ? "  building" : text
}

reads == "seconds" {
    if (!/^#/ && NF == 2) usual[$1] = $2
    next
}

reads == "crates" {
    split($0, halves, ":")
    split(halves[1], words, " ")
    uses[words[1]] = halves[2]
    crates++
    next
}

reads == "same" {
    same[$1] = 1
    knows_same = 1
    next
}

$1 == "begun" {
    begun[$2] = $3
    order[++starts] = $2
    next
}

{
    ended[$2] = $3
    how[$2] = $1
    if ($1 == "kept") has_kept = 1
    count++
}

reads == "news" {
    news[++number] = $2
    place[number] = count
}

END {
    all = crates + (archive != "")
    far = minutes()
    for (at = 1; at <= number; at++) {
        printf "%2d of %d  %-22s  %s  %s\n", place[at], all, news[at], ending(news[at]), far
    }
    printf "%2d of %d  %s%s\n", count, all, far, under_way()
}
