# Reads the calls of a link, as strace -y tells them, and ends with status 1 where one of these doesn't hold:
# - each folder that a name of the kit lies in is synced before a file of the kit is read;
# - each file that was written is synced after the last write to it, and its folder after the last change of a name in it;
# - syncs that follow one another are of files first, then of folders, of each folder once;
# - the inputs are not synced.

function wrong(what) { print what; failed = 1 }

# the path between < and >, below the folder in which the program was started
function path_of(text, path) {
    path = text
    sub(/^[^<]*</, "", path)
    sub(/>.*$/, "", path)
    sub(/ \(deleted\)$/, "", path)
    if (path == top) return "."
    if (index(path, top "/") != 1) return ""
    return substr(path, length(top) + 2)
}

function folder_of(path) { return path ~ /\// ? substr(path, 1, match(path, /\/[^\/]*$/) - 1) : "." }

# the nth text between double quotes
function quoted(text, n, parts) { split(text, parts, "\""); return parts[2 * n] }

function is_folder(path) { return path == "." || path == "kit" }

function changed(path) {
    change[folder_of(path)] = NR
    run_of_syncs = 0
}

/ = -1 / { next }

/^(fsync|fdatasync)\(/ {
    path = path_of($0)
    if (!run_of_syncs) { split("", seen); folders = 0 }
    run_of_syncs = 1
    if (is_folder(path)) {
        if (path in seen) wrong("synced twice: " path)
        seen[path] = 1
        folders = 1
    } else if (folders) {
        wrong("synced after a folder: " path)
    }
    if (path ~ /\.(conf|o)$/) wrong("synced though it is only read: " path)
    synced[path] = NR
    syncs++
    next
}

/^(read|pread64)\(/ {
    path = path_of($0)
    if (path ~ /^kit\// && !(("." in synced) && ("kit" in synced))) wrong("read before its folders were synced: " path)
    run_of_syncs = 0
    next
}

/^(write|pwrite64)\(/ {
    path = path_of($0)
    if (path != "") { written[path] = NR; run_of_syncs = 0 }
    next
}

/^(open|openat|creat)\(/ {
    if ($0 ~ /O_CREAT/ || $0 ~ /^creat/) {
        if ($0 !~ /O_EXCL/) wrong("opened a file that may be there: " $0)
        changed(quoted($0, 1))
    }
    if ($0 ~ /O_TRUNC/) wrong("cut short: " $0)
    next
}

/^rename/ { changed(quoted($0, 1)); changed(quoted($0, 2)); next }

/^(unlink|mkdir)/ { changed(quoted($0, 1)); next }

END {
    if (!("kit/linked.relink" in written) || !("kit/linked.map.relink" in written)) wrong("not written: the image or the map")
    for (path in written) if (synced[path] < written[path]) wrong("not synced: " path)
    for (path in change) if (synced[path] < change[path]) wrong("not synced: " path)
    if (syncs > 8) wrong(syncs " syncs")
    exit failed
}
