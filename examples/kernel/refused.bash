# Files that are refused.

# listing: each name of the machine, with what shows that its file was written or replaced.
listing() {
    (cd "$machine" && find . -printf '%p %i %s %T@\n' | sort)
}

# prints STATUS TEXT WORD..: the program is to end so.
prints() {
    local wanted=$1 text=$2 printed status=0
    shift 2
    printed=$(cd "$machine" && "$relink" "$@" 2>/dev/null) || status=$?
    [ "$status" -eq "$wanted" ] || fail "relink $*: status $status, not $wanted: $printed"
    [ "$printed" = "$text" ] || fail "relink $*: printed '$printed', and not '$text'"
    count=$((count + 1))
}

# refused STATUS TEXT WORD..: the program is to end so, and nothing of the machine is to change.
refused() {
    local before
    before=$(listing)
    prints "$@"
    shift 2
    [ "$(listing)" = "$before" ] || fail "relink $*: refused, and something has changed"
}

# bad_records: records that are none, and kernels that are not those of the record.
bad_records() {
    local file=$machine/var/db/kernel.SHA256 recorded found other
    fresh
    recorded=$(digest "$machine/bsd")
    rm "$file"
    refused 11 'relink: record absent' reorder_kernel
    record "$machine/bsd" | head -c 79 >"$file"
    refused 11 'relink: record flaw 1' reorder_kernel
    head -c 4097 /dev/zero >"$file"
    refused 11 'relink: record flaw 1' reorder_kernel
    record "$machine/bsd" | tr S s >"$file"
    refused 11 'relink: record flaw 2' reorder_kernel
    printf 'SHA256 (/bsd) = %sg\n' "${recorded:1}" >"$file"
    refused 11 'relink: record flaw 3' reorder_kernel
    printf 'SHA256 (/bsd) = %s ' "$recorded" >"$file"
    refused 11 'relink: record flaw 4' reorder_kernel

    other=${recorded%?}0
    [ "$other" != "$recorded" ] || other=${recorded%?}1
    printf 'SHA256 (/bsd) = %s\n' "$other" >"$file"
    refused 10 "relink: /bsd does not match: recorded $other found $recorded" reorder_kernel
    record "$machine/bsd" >"$file"
    seq 1000 >"$machine/bsd"
    found=$(digest "$machine/bsd")
    refused 10 "relink: /bsd does not match: recorded $recorded found $found" reorder_kernel
    rm "$machine/bsd"
    refused 10 "relink: /bsd does not match: recorded $recorded found absent" reorder_kernel

    # The record may have upper-case digits and no newline.
    cp "$folder/first/bsd" "$machine/bsd"
    printf 'SHA256 (/bsd) = %s' "${recorded^^}" >"$file"
    relinks
}

# bad_kits: kits that aren't a kernel's, or aren't there.
bad_kits() {
    local text=$machine/$kernel_kit/link.conf
    fresh
    printf '%s\n' 'kind library' 'output /usr/lib/libk.so.1' 'object kernel.o' >"$text"
    refused 12 'relink: wrong kind' reorder_kernel
    rm "$text"
    refused 12 "relink: absent /$kernel_kit/link.conf" reorder_kernel
    cp "$here/link.conf" "$text"
    printf 'no object' >"$machine/$kernel_kit/clock.o"
    refused 13 'relink: object 3 line 9' reorder_kernel
    compile "$root/examples/boot/kernel.c" "$machine/$kernel_kit/clock.o"
    refused 14 'relink: link fault 2 kernel' reorder_kernel
}

# bad_intents: intents that are pending, or none of their slot. Each slot is recovered, whatever the other one holds.
bad_intents() {
    local old new
    fresh
    true >"$machine/$kernel_slot"
    refused 15 "relink: intent pending /$kernel_slot" reorder_kernel
    refused 17 $'kernel bad intent line 1\nlibs nothing pending' recover
    rm "$machine/var/db/kernel.SHA256"
    refused 15 "relink: intent pending /$kernel_slot" reorder_kernel
    old=$(digest "$machine/bsd")
    new=$(digest "$folder/second/bsd")
    intent libs /bsd "$old" "$new" >"$machine/$kernel_slot"
    refused 17 $'kernel bad intent line 2\nlibs nothing pending' recover
    head -c 4097 /dev/zero >"$machine/$libs_slot"
    refused 17 $'kernel bad intent line 2\nlibs bad intent line 0' recover
    rm "$machine/$kernel_slot"
    refused 17 $'kernel nothing pending\nlibs bad intent line 0' recover

    # The new kernel isn't there, and then it is.
    intent kernel /bsd "$old" "$new" >"$machine/$kernel_slot"
    refused 16 $'kernel foreign entry 0\nlibs bad intent line 0' recover
    rm "$machine/$libs_slot"
    refused 16 $'kernel foreign entry 0\nlibs nothing pending' recover
    cp "$folder/second/bsd" "$machine/bsd.relink"
    prints 0 $'kernel completed 1\nlibs nothing pending' recover
    cmp "$machine/bsd" "$folder/second/bsd" || fail "recovery completed another kernel"
    refused 0 $'kernel nothing pending\nlibs nothing pending' recover

    # The kernel's slot holds no intent, and the libraries' batch is completed.
    true >"$machine/$kernel_slot"
    seq 100 >"$machine/usr/libk.so.1.relink"
    intent libs /usr/libk.so.1 - "$(digest "$machine/usr/libk.so.1.relink")" >"$machine/$libs_slot"
    prints 17 $'kernel bad intent line 1\nlibs completed 1' recover
    seq 100 | cmp - "$machine/usr/libk.so.1" || fail "recovery completed another library"
}

# replaced_by_hand: the program stops when the intent stands, and somebody puts another kernel in place, which is never written over.
# Then the old one comes back, or the batch is given up.
replaced_by_hand() {
    local way call number count=0
    fresh
    (cd "$machine" && watch "$folder/calls" reorder_kernel --seed "$second_seed")
    read -r call number _ < <(changes "$machine" "$folder/calls" | grep '^rename.* bsd$')
    for way in restored 'given up'; do
        fresh
        (cd "$machine" && stop_at "$call" "$number" reorder_kernel --seed "$second_seed")
        seq 1000 >"$machine/bsd"
        refused 16 $'kernel foreign entry 0\nlibs nothing pending' recover
        refused 15 "relink: intent pending /$kernel_slot" reorder_kernel
        if [ "$way" = restored ]; then
            cp "$folder/first/bsd" "$machine/bsd"
            prints 0 $'kernel completed 3\nlibs nothing pending' recover
            has_kernel "$machine" "$folder/second" || fail "the old kernel was put back, and recovery didn't complete the batch"
        else
            rm "$machine/$kernel_slot"
            record "$machine/bsd" >"$machine/var/db/kernel.SHA256"
            relinks
        fi
    done
    echo "a kernel that was replaced by hand stayed, with its intent, until it was restored or given up"
}

# unwritten: all is done, and the line that says so can't be written.
unwritten() {
    local status=0
    fresh
    (cd "$machine" && "$relink" reorder_kernel --seed "$second_seed" >/dev/full 2>/dev/null) || status=$?
    [ "$status" -eq 6 ] || fail "relink reorder_kernel >/dev/full: status $status, not 6"
    has_kernel "$machine" "$folder/second" || fail "relink reorder_kernel >/dev/full: the new kernel isn't there"
}

refusals() {
    local count=0
    bad_records
    bad_kits
    bad_intents
    unwritten
    echo "$((count + 1)) runs on bad files, each with its status and its line"
}
