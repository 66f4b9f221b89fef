# A page as it is installed: its links to what is installed too stay, and of the others the words alone.
#
# page   the page's name in the repository
# there  the names of the installed pages, with spaces between
#
# What stands in code, as a line with four spaces before it, between fences or between the signs `, is no link.

BEGIN {
    number = split(there, names, " ")
    for (at = 1; at <= number; at++) is_there[names[at]] = 1
    folder = page
    if (!sub(/\/[^\/]*$/, "", folder)) folder = ""
}

# The name in the repository of what a link on the page leads to.
function name_of(target,    parts, count, at, kept, name) {
    sub(/#.*/, "", target)
    count = split(folder == "" ? target : folder "/" target, parts, "/")
    kept = 0
    for (at = 1; at <= count; at++) {
        if (parts[at] == "..") kept--
        else if (parts[at] != ".") parts[++kept] = parts[at]
    }
    name = parts[1]
    for (at = 2; at <= kept; at++) name = name "/" parts[at]
    return name
}

# A link as it stands in the installed page.
function linked(link,    text, target) {
    text = link
    sub(/\]\([^()]*\)$/, "", text)
    sub(/^!?\[/, "", text)
    target = link
    sub(/^.*\]\(/, "", target)
    sub(/\)$/, "", target)
    if (target ~ /^[a-z]+:/ || target ~ /^#/ || (name_of(target) in is_there)) return link
    return text
}

/^```/ { is_code = !is_code }

is_code || /^    / || /^```/ { print; next }

{
    line = ""
    rest = $0
    while (match(rest, /`[^`]*`|!?\[[^][]*\]\([^()]*\)/)) {
        part = substr(rest, RSTART, RLENGTH)
        line = line substr(rest, 1, RSTART - 1) (part ~ /^`/ ? part : linked(part))
        rest = substr(rest, RSTART + RLENGTH)
    }
    print line rest
}
