# The program is stopped at random moments, and calls on the disk fail.

# fresh: the machine anew, with the kernel of the first seed.
fresh() {
    rm -rf "$machine"
    cp -a "$folder/whole" "$machine"
}

# is_whole WHEN: each file that is replaced is to be wholly that of the first seed or wholly that of the second.
is_whole() {
    local file
    for file in "${kernel_files[@]}"; do
        cmp -s "$machine/$file" "$folder/first/${file##*/}" || cmp -s "$machine/$file" "$folder/second/${file##*/}" ||
            fail "$1: $file is neither the old nor the new one"
    done
}

# recovered WHEN: recovers. Then no intent is to be left, and the record is to be that of the kernel.
recovered() {
    (cd "$machine" && "$relink" recover >/dev/null) || fail "$1: relink recover ended with status $?"
    [ ! -e "$machine/$kernel_slot" ] || fail "$1: an intent is left"
    is_recorded
}

# now: the time in microseconds.
now() {
    echo "${EPOCHREALTIME/[.,]/}"
}

# killed WORD..: runs the program and kills it at a random moment of the time that one run takes.
killed() {
    local delay=$((1 + RANDOM * took / 32768)) printed status=0
    delay=$((delay / 1000000)).$(printf '%06d' $((delay % 1000000)))
    printed=$(cd "$machine" && timeout --foreground -s KILL "$delay" "$relink" "$@" 2>/dev/null) || status=$?
    # timeout ends with 137 where it killed the program, and with 124 where the program ended just before
    case $status in
    0 | 124 | 137) ;;
    *) fail "relink $*: status $status, after $delay seconds: $printed" ;;
    esac
}

# killed_late WORD..: runs the program and kills it a random moment after an intent stands, unless it ended.
killed_late() {
    local process left=$((RANDOM % 1000))
    (cd "$machine" && exec "$relink" "$@" >/dev/null 2>&1) &
    process=$!
    while [ ! -e "$machine/$kernel_slot" ] && kill -0 "$process" 2>/dev/null; do :; done
    while [ "$left" -gt 0 ]; do left=$((left - 1)); done
    { kill -KILL "$process" && wait "$process"; } 2>/dev/null || true
}

# kill_once HOW TO SEED FROM: kills reorder_kernel on its way from one kernel to the other, and a recovery too where one is called for, and
# recovers.
kill_once() {
    local when="killed on the way to the $2 kernel" begun=no
    "$1" reorder_kernel --seed "$3"
    is_whole "$when"
    if [ -e "$machine/$kernel_slot" ]; then
        begun=yes
        intents=$((intents + 1))
        killed recover
        is_whole "$when, and in recovery"
    fi
    recovered "$when"
    if has_kernel "$machine" "$folder/$2"; then
        installed=$((installed + 1))
    else
        [ $begun = no ] || fail "$when: an intent stood, and its files aren't all in place"
        has_kernel "$machine" "$folder/$4" || fail "$when: the files are mixed"
    fi
}

# kills SECONDS: kills the program at random moments for so long.
kills() {
    local until=$((SECONDS + $1)) count=0 intents=0 installed=0 hows=(killed killed_late) how begin took
    fresh
    begin=$(now)
    (cd "$machine" && "$relink" reorder_kernel --seed "$second_seed" >/dev/null)
    took=$(($(now) - begin))
    while [ "$SECONDS" -lt "$until" ]; do
        how=${hows[count % 2]}
        if has_kernel "$machine" "$folder/first"; then
            kill_once "$how" second "$second_seed" first
        else
            kill_once "$how" first "$first_seed" second
        fi
        count=$((count + 1))
    done
    echo "$count runs were killed, $intents of them with an intent: $installed kernels were installed, and none was mixed"
}

# fails_at CALL NUMBER WANTED: that call fails, with the status, the line and the files that are to be.
fails_at() {
    local when="call $2 of $1 fails" error=ENOSPC printed status=0
    [[ $1 != *sync ]] || error=EIO
    fresh
    printed=$(cd "$machine" && strace -qq -o /dev/null -e "trace=$1" -e "inject=$1:error=$error:when=$2" \
        "$relink" reorder_kernel --seed "$second_seed" 2>/dev/null) || status=$?
    [ "$status" -eq 4 ] || fail "$when: status $status, not 4"
    [ "$printed" = 'relink: store fault' ] || fail "$when: printed '$printed'"
    is_whole "$when"
    recovered "$when"
    has_kernel "$machine" "$folder/$3" || fail "$when: after recovery the files are not those of the $3 kernel"
}

# failing_calls: each call that changes or syncs something fails in turn. From the renaming of the intent on the batch will be done.
failing_calls() {
    local call number path wanted=first count=0
    fresh
    (cd "$machine" && watch "$folder/calls" reorder_kernel --seed "$second_seed")
    while read -r call number path; do
        fails_at "$call" "$number" $wanted
        [[ $call != rename* ]] || [ "$path" != $kernel_slot ] || wanted=second
        count=$((count + 1))
    done < <(changes "$machine" "$folder/calls")
    [ "$wanted" = second ] || fail "no intent was renamed"
    echo "each of $count calls failed, and the files were old or new after recovery"
}

# failing_source: the random device fails, and the machine stays as it is.
failing_source() {
    local before printed status=0
    fresh
    before=$(listing)
    printed=$(cd "$machine" && strace -qq -o /dev/null -P /dev/urandom -e trace=open,openat -e inject=open,openat:error=EIO "$relink" reorder_kernel 2>/dev/null) || status=$?
    [ "$status" -eq 5 ] || fail "the random device fails: status $status, not 5"
    [ "$printed" = 'relink: entropy fault' ] || fail "the random device fails: printed '$printed'"
    [ "$(listing)" = "$before" ] || fail "the random device fails: a file has changed"
}

# full_disk: the new kernel has no room on its disk, and then it has. The seed draws gaps of 251952, 242688 and 256384 bytes in the file.
full_disk() {
    local large_seed=0000000000000000000000000000000000000000000000000000000000000205 printed status=0
    mkdir -p "$folder/small"
    if ! mount -t tmpfs -o size=400k relink "$folder/small" 2>/dev/null; then
        echo "no disk is full, since mounts are refused"
        return
    fi
    mounted=$folder/small
    local machine=$mounted
    cp -a "$folder/whole/." "$machine"
    printed=$(cd "$machine" && "$relink" reorder_kernel --seed "$large_seed" 2>/dev/null) || status=$?
    [ "$status" -eq 4 ] || fail "a full disk: status $status, not 4"
    [ "$printed" = 'relink: store fault' ] || fail "a full disk: printed '$printed'"
    has_kernel "$machine" "$folder/first" || fail "a full disk: a file has changed"
    recovered 'a full disk'
    has_kernel "$machine" "$folder/first" || fail "a full disk: recovery has changed a file"
    mount -o remount,size=4m "$machine"
    relinks --seed "$large_seed"
    clean
    echo "a full disk: the files stay as they are, until there is room"
}
