# The script of the boot, etc/rc.relink, in a machine.

# rc PATH WORD..: a shell with these words, for which programs are only in that folder. What it writes is kept.
rc() {
    local path=$1
    shift
    PATH=$path RELINK_ROOT=$machine RELINK=$program /bin/sh "$@" >"$folder/said" 2>&1 || fail "sh $*: status $?, and the boot would stop"
}

# says FILE LINE..: the file is to have these lines.
says() {
    local file=$1 line
    shift
    for line; do
        grep -qxF -- "$line" "$file" || fail "the script of the boot didn't say '$line': $(cat "$file")"
    done
}

# boot_script: it relinks and logs, and ends well where there is nothing to relink, no record and no program.
boot_script() {
    local script=$root/etc/rc.relink program=$relink log=$folder/log
    /bin/sh -n "$script" || fail "etc/rc.relink has an error"
    mkdir "$folder/none" "$folder/bin"
    printf '#!/bin/sh\nwhile [ "$1" != -- ]; do shift; done\nprintf "%%s\\n" "$2" >>%s\n' "'$log'" >"$folder/bin/logger"
    chmod +x "$folder/bin/logger"

    fresh
    intent kernel /bsd "$(digest "$machine/bsd")" "$(digest "$folder/second/bsd")" >"$machine/$kernel_slot"
    cp "$folder/second/bsd" "$machine/bsd.relink"
    record "$folder/second/bsd" >"$machine/var/db/kernel.SHA256"
    rc "$folder/bin" "$script"
    ! cmp -s "$machine/bsd" "$folder/second/bsd" || fail "the script of the boot didn't relink"
    is_recorded
    [ "$(stat -c %a "$machine/bsd" "$machine/var/db/kernel.map" | xargs)" = '600 600' ] || fail "others may read the kernel or its map"
    says "$log" 'recover: kernel completed 1' 'recover: libs nothing pending' \
        "reorder_kernel: /bsd relinked pieces $pieces fields $fields bytes $(stat -c %s "$machine/bsd") sha256 $(digest "$machine/bsd")"

    # Without logger; in a script that ends where a command fails; without a record; without the program; in no folder.
    rc "$folder/none" -euc ". '$script'; echo the boot goes on"
    says "$folder/said" 'rc.relink: recover: kernel nothing pending' 'the boot goes on'
    rm "$machine/var/db/kernel.SHA256"
    rc "$folder/none" "$script"
    says "$folder/said" 'rc.relink: reorder_kernel: relink: record absent' 'rc.relink: reorder_kernel: status 11'
    program=$folder/none/relink
    rc "$folder/none" "$script"
    says "$folder/said" "rc.relink: $program isn't there: the kernel stays as it is"
    program=$relink
    local machine=$folder/none/machine
    rc "$folder/none" "$script"
    says "$folder/said" "rc.relink: no folder $machine: the kernel stays as it is"
    echo "the script of the boot relinked, logged what it did, and never stopped the boot"
}
